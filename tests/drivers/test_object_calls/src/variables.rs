//! The variables of an object: their list, and the value of one, read and written.

use super::hex::bytes_of;
use ebpf_object::obj::{Object, ParseError};
use std::alloc::Global;
use std::test::Fail;
use test_same::shows;

/// An object of one map, `.data`, with the bytes 7 0 0 0 1 2 3 4 5 6 7 8. Its symbols, each with its offset and size: the
/// function `f`, `total` (4, 8), `limit` (0, 4), `twice` (0, 4), `twice` (8, 4) and `none` (4, 0).
const OBJECT: [&str; 14] = [
    "7f454c460201010000000000000000000100f70001000000000000000000000000000000000000004001000000000000",
    "00000000400000000000400005000400b700000000000000950000000000000007000000010203040506070800000000",
    "000000000000000000000000000000000000000000000000010000001200010000000000000000001000000000000000",
    "030000001100020004000000000000000800000000000000090000001100020000000000000000000400000000000000",
    "0f00000011000200000000000000000004000000000000000f0000001100020008000000000000000400000000000000",
    "150000001100020004000000000000000000000000000000006600746f74616c006c696d6974007477696365006e6f6e",
    "65002e74657874002e64617461002e73796d746162002e73747274616200000000000000000000000000000000000000",
    "000000000000000000000000000000000000000000000000000000000000000000000000000000000000000000000000",
    "1a0000000100000006000000000000000000000000000000400000000000000010000000000000000000000000000000",
    "080000000000000000000000000000002000000001000000030000000000000000000000000000005000000000000000",
    "0c0000000000000000000000000000000400000000000000000000000000000026000000020000000000000000000000",
    "00000000000000006000000000000000a800000000000000040000000100000008000000000000001800000000000000",
    "2e0000000300000000000000000000000000000000000000080100000000000036000000000000000000000000000000",
    "01000000000000000000000000000000",
];

/// The object.
pub fn object(alloc: Global) -> Result<Object, ParseError> {
    let bytes = bytes_of(alloc, &OBJECT)?;
    Object::parse(alloc, &bytes)
}

#[test]
fn lists_variables_by_name(rt: HostRuntime) -> Result<(), Fail> {
    let object = object(rt.alloc())?;
    let limit = r#"Variable { name: "limit", map: ".data", offset: 0, size: 4 }"#;
    let total = r#"Variable { name: "total", map: ".data", offset: 4, size: 8 }"#;
    let twice = r#"Variable { name: "twice", map: ".data", offset: 8, size: 4 }"#;
    let want = format!(in rt.alloc(); "[{limit}, {total}, {twice}]")?;
    let variables = object.variables()?;
    shows(rt.alloc(), &variables, want.as_str())
}

/// Fails where the value of a variable isn't the wanted one.
fn has(alloc: Global, object: &Object, name: &str, want: &str) -> Result<(), Fail> {
    let value = object.value(name)?;
    shows(alloc, &value, want)
}

#[test]
fn reads_values(rt: HostRuntime) -> Result<(), Fail> {
    let object = object(rt.alloc())?;
    has(rt.alloc(), &object, "limit", "Some([7, 0, 0, 0])")?;
    has(rt.alloc(), &object, "twice", "Some([5, 6, 7, 8])")?;
    has(rt.alloc(), &object, "none", "Some([])")?;
    has(rt.alloc(), &object, "f", "None")?;
    has(rt.alloc(), &object, "other", "None")
}

/// Writes a value, and fails where the answer isn't the wanted one.
fn sets(
    alloc: Global,
    object: &mut Object,
    name: &str,
    value: &[u8],
    want: &str,
) -> Result<(), Fail> {
    let answer = object.set_value(name, value);
    shows(alloc, &answer, want)
}

#[test]
fn writes_values(rt: HostRuntime) -> Result<(), Fail> {
    let mut object = object(rt.alloc())?;
    let wrong = "Err(WrongSize { size: 4, given: 2 })";
    sets(rt.alloc(), &mut object, "f", &[1, 2], "Err(NotAVariable)")?;
    sets(rt.alloc(), &mut object, "other", &[], "Err(NotAVariable)")?;
    sets(rt.alloc(), &mut object, "limit", &[9, 9], wrong)?;
    has(rt.alloc(), &object, "limit", "Some([7, 0, 0, 0])")?;
    sets(rt.alloc(), &mut object, "limit", &[9, 8, 7, 6], "Ok(())")?;
    has(rt.alloc(), &object, "limit", "Some([9, 8, 7, 6])")?;
    has(rt.alloc(), &object, "total", "Some([1, 2, 3, 4, 5, 6, 7, 8])")
}

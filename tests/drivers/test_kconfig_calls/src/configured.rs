//! Values by a kernel's configuration as text.

use ebpf_base::{Endianness, Items, Text};
use ebpf_kconfig::{KconfigError, KconfigExtern, KconfigType, kconfig_value};
use std::alloc::{AllocError, Global};
use std::test::Fail;
use test_same::same;

const CONFIG: &[u8] = b"#\n# Automatically generated file; DO NOT EDIT.\n\
    CONFIG_Y=y\n# CONFIG_N is not set\nCONFIG_M=m\nCONFIG_NO=n\nCONFIG_YY=m\n\
    CONFIG_HZ=250\nCONFIG_HZ=1000\nCONFIG_HEX=0xFf\nCONFIG_OCTAL=010\nCONFIG_NEGATIVE=-128\n\
    CONFIG_BELOW=-129\nCONFIG_LARGE=18446744073709551615\nCONFIG_LARGER=18446744073709551616\n\
    CONFIG_MIXED=12x\nCONFIG_EMPTY=\nCONFIG_NAME=\"debian\"\nCONFIG_OPEN=\"debian\nCONFIG_QUOTE=\"\n\
    CONFIG_NONE=\"\"\nLINUX_KERNEL_VERSION=5\nCONFIG_LAST=y";

const BOOL: KconfigType = KconfigType::Bool;

const CHAR: KconfigType = KconfigType::Char { signed: true };

const BYTE: KconfigType = KconfigType::Char { signed: false };

const SHORT: KconfigType = KconfigType::Integer {
    size: 2,
    signed: true,
};

const LONG: KconfigType = KconfigType::Integer {
    size: 8,
    signed: true,
};

const TRISTATE: KconfigType = KconfigType::Tristate { size: 4 };

const WIDE: KconfigType = KconfigType::Tristate { size: 8 };

const STRING: KconfigType = KconfigType::CharArray { len: 4 };

const LONG_STRING: KconfigType = KconfigType::CharArray { len: 8 };

/// An extern's name and type, and its value in little-endian order, or why there is none, which says the name.
type Row = (&'static str, KconfigType, &'static str);

const LETTERS: [Row; 13] = [
    ("CONFIG_Y", BOOL, "[1]"),
    ("CONFIG_NO", BOOL, "[0]"),
    ("CONFIG_N", BOOL, "none"),
    ("CONFIG_LAST", BOOL, "[1]"),
    ("CONFIG_M", BOOL, "UnsuitedValue"),
    ("CONFIG_Y", TRISTATE, "[1, 0, 0, 0]"),
    ("CONFIG_M", TRISTATE, "[2, 0, 0, 0]"),
    ("CONFIG_NO", WIDE, "[0, 0, 0, 0, 0, 0, 0, 0]"),
    ("CONFIG_M", CHAR, "[109]"),
    ("CONFIG_M", SHORT, "UnsuitedValue"),
    ("CONFIG_EMPTY", TRISTATE, "UnsuitedValue"),
    ("LINUX_KERNEL_VERSION", SHORT, "none"),
    ("CONFIG_", SHORT, "none"),
];

const NUMBERS: [Row; 15] = [
    ("CONFIG_HZ", SHORT, "[250, 0]"),
    ("CONFIG_HZ", BYTE, "[250]"),
    ("CONFIG_HZ", CHAR, "ValueOutOfRange"),
    ("CONFIG_HZ", BOOL, "UnsuitedValue"),
    ("CONFIG_HZ", TRISTATE, "UnsuitedValue"),
    ("CONFIG_HZ", STRING, "UnsuitedValue"),
    ("CONFIG_HEX", SHORT, "[255, 0]"),
    ("CONFIG_OCTAL", CHAR, "[8]"),
    ("CONFIG_NEGATIVE", CHAR, "[128]"),
    ("CONFIG_NEGATIVE", SHORT, "[128, 255]"),
    ("CONFIG_NEGATIVE", BYTE, "ValueOutOfRange"),
    ("CONFIG_BELOW", CHAR, "ValueOutOfRange"),
    (
        "CONFIG_LARGE",
        LONG,
        "[255, 255, 255, 255, 255, 255, 255, 255]",
    ),
    ("CONFIG_LARGER", LONG, "ValueOutOfRange"),
    ("CONFIG_MIXED", LONG, "UnsuitedValue"),
];

const STRINGS: [Row; 6] = [
    ("CONFIG_NAME", STRING, "[100, 101, 98, 0]"),
    (
        "CONFIG_NAME",
        LONG_STRING,
        "[100, 101, 98, 105, 97, 110, 0, 0]",
    ),
    ("CONFIG_NONE", STRING, "[0, 0, 0, 0]"),
    ("CONFIG_OPEN", STRING, "UnsuitedValue"),
    ("CONFIG_QUOTE", STRING, "UnsuitedValue"),
    ("CONFIG_NAME", SHORT, "UnsuitedValue"),
];

/// The value of an extern.
fn value_of(
    alloc: Global,
    wanted: &KconfigExtern,
    order: Endianness,
) -> Result<Option<Items<u8>>, KconfigError> {
    kconfig_value(alloc, CONFIG, wanted, order)
}

/// This value, or why there is none, but for the extern's name in the error.
fn shown(
    alloc: Global,
    name: &str,
    value: Result<Option<Items<u8>>, KconfigError>,
) -> Result<String, AllocError> {
    match value {
        Ok(Some(value)) => format!(in alloc; "{:?}", value.as_slice()),
        Ok(None) => String::from_str(alloc, "none"),
        Err(error) => without_name(alloc, name, &error),
    }
}

/// An error that says the name alone, without it.
fn without_name(alloc: Global, name: &str, error: &KconfigError) -> Result<String, AllocError> {
    let text = format!(in alloc; "{error:?}")?;
    let said = format!(in alloc; " {{ name: {name:?} }}")?;
    let variant = text.as_str().strip_suffix(said.as_str());
    String::from_str(alloc, variant.unwrap_or(text.as_str()))
}

/// Fails where the value of a row's extern, which isn't weak, isn't the row's.
fn has_value(alloc: Global, row: &Row, order: Endianness) -> Result<(), Fail> {
    let (name, kind, want) = *row;
    let wanted = KconfigExtern {
        name: Text::from_str(alloc, name)?,
        kind,
        is_weak: false,
    };
    let text = shown(alloc, name, value_of(alloc, &wanted, order))?;
    same(text.as_str(), want)
}

/// Fails where that of some row isn't.
fn have_values(alloc: Global, rows: &[Row]) -> Result<(), Fail> {
    for row in rows {
        has_value(alloc, row, Endianness::Little)?;
    }
    Ok(())
}

#[test]
fn reads_letters(rt: HostRuntime) -> Result<(), Fail> {
    have_values(rt.alloc(), &LETTERS)
}

#[test]
fn reads_numbers(rt: HostRuntime) -> Result<(), Fail> {
    have_values(rt.alloc(), &NUMBERS)?;
    let row = ("CONFIG_HZ", SHORT, "[0, 250]");
    has_value(rt.alloc(), &row, Endianness::Big)
}

#[test]
fn reads_strings(rt: HostRuntime) -> Result<(), Fail> {
    have_values(rt.alloc(), &STRINGS)
}

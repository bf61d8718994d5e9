//! Why type information can't be read.

use crate::lines::{Lines, Sample};
use ebpf_btf::BtfError;
use cli_common::variants::variant_of_types;

impl Sample for BtfError {
    const TYPE: &'static str = "obj::BtfError";

    fn variant(&self) -> &'static str {
        variant_of_types(self)
    }
}

/// Adds the errors on types and strings.
fn show_types(lines: &mut Lines) {
    lines.show(BtfError::InvalidHeader);
    lines.show(BtfError::InvalidTypeInfo);
    lines.show(BtfError::InvalidInfo);
    lines.show(BtfError::InvalidStringOffset { offset: 0x4d2 });
    lines.show(BtfError::InvalidRelocationKind { kind: 12 });
    lines.show(BtfError::UnexpectedBtfType { type_id: 7 });
    lines.show(BtfError::UnknownBtfType { type_id: 70 });
    let type_name = lines.text("task_struct");
    lines.show(BtfError::UnknownBtfTypeName { type_name });
    lines.show(BtfError::MaximumTypeDepth { type_id: 7 });
}

/// Adds the errors on extern declarations and BTF-defined maps.
fn show_declared(lines: &mut Lines) {
    lines.show(BtfError::InvalidDatasec);
    lines.show(BtfError::InvalidSymbolName);
    let name = lines.text("outer");
    lines.show(BtfError::InnerMapCannotBePinned { name });
    let name = lines.text("outer");
    lines.show(BtfError::MultiLevelMapInMapNotSupported { name });
    let name = lines.text("outer");
    lines.show(BtfError::InvalidValuesSpec { name });
    lines.show(BtfError::TooLarge);
    lines.show(BtfError::OutOfMemory);
}

/// Adds each error of type information.
pub fn show_all(lines: &mut Lines) {
    show_types(lines);
    show_declared(lines);
}

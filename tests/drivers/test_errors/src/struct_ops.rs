//! Why the maps of struct_ops can't be made.

use crate::lines::{Lines, Sample};
use cli_common::variant_name;
use ebpf_elf::ElfReadError;
use ebpf_struct_ops::{MemberFault, RelocationFault, StructOpsError, VariableFault};

impl Sample for StructOpsError {
    const TYPE: &'static str = "ebpf_struct_ops::StructOpsError";

    fn variant(&self) -> &'static str {
        variant_name!(
            self,
            StructOpsError: ElfError NoTypes NoDatasec Variable Relocation NoKernelStruct NoDataMember Member OtherUse
                OutOfMemory
        )
    }
}

/// Adds the errors of what the object says.
fn show_object(lines: &mut Lines) {
    lines.show(StructOpsError::ElfError(ElfReadError::BadMagic));
    lines.show(StructOpsError::NoTypes);
    lines.show(StructOpsError::NoDatasec { section: 6 });
    let name = lines.text("dctcp");
    lines.show(StructOpsError::Variable {
        name,
        fault: VariableFault::NotAStruct,
    });
    lines.show(StructOpsError::Relocation {
        place: 0x10,
        fault: RelocationFault::UnknownProgram,
    });
}

/// Adds the errors by the kernel's types.
fn show_kernel(lines: &mut Lines) {
    let (map, name) = (lines.text("dctcp"), lines.text("tcp_congestion_ops"));
    lines.show(StructOpsError::NoKernelStruct { map, name });
    let map = lines.text("dctcp");
    lines.show(StructOpsError::NoDataMember { map });
    let (map, member) = (lines.text("dctcp"), lines.text("flags"));
    lines.show(StructOpsError::Member {
        map,
        member,
        fault: MemberFault::DifferentSizes,
    });
    let (map, program) = (lines.text("dctcp"), lines.text("init"));
    lines.show(StructOpsError::OtherUse { map, program });
}

/// Adds each error of the maps of struct_ops.
pub fn show_all(lines: &mut Lines) {
    show_object(lines);
    show_kernel(lines);
    lines.show(StructOpsError::OutOfMemory);
}

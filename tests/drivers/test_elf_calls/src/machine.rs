//! The machine of a file, and a section by its index.

use super::file::file_with;
use ebpf_base::Endianness;
use ebpf_elf::ElfFile;
use std::alloc::Global;
use std::test::Fail;
use test_same::holds;

/// Fails where the file with this e_machine (at 18, of 2 bytes) gives another, or says that it is for eBPF and isn't.
fn is_for(alloc: Global, order: Endianness, machine: u16, is_bpf: bool) -> Result<(), Fail> {
    let bytes = file_with(alloc, order, &[(18, 2, machine.into())])?;
    let Ok(file) = ElfFile::parse(bytes.as_slice()) else {
        return Err(Fail::new(format_args!("no file")));
    };
    holds(file.machine() == machine, "the machine")?;
    holds(file.is_bpf() == is_bpf, "whether it is eBPF")
}

#[test]
fn machines(rt: HostRuntime) -> Result<(), Fail> {
    is_for(rt.alloc(), Endianness::Little, 247, true)?;
    is_for(rt.alloc(), Endianness::Big, 247, true)?;
    is_for(rt.alloc(), Endianness::Little, 62, false)?;
    is_for(rt.alloc(), Endianness::Little, 0, false)
}

#[test]
fn sections_by_index(rt: HostRuntime) -> Result<(), Fail> {
    let bytes = file_with(rt.alloc(), Endianness::Little, &[])?;
    let Ok(file) = ElfFile::parse(bytes.as_slice()) else {
        return Err(Fail::new(format_args!("no file")));
    };
    let count = file.sections().count();
    let Some(last) = file.section_at(count) else {
        return Err(Fail::new(format_args!("no last section")));
    };
    holds(last.index().0 == count, "the last section's index")?;
    holds(file.section_at(0).is_none(), "no section 0")?;
    holds(file.section_at(count + 1).is_none(), "none behind the last")
}

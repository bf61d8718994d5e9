//! Functions.

use ebpf_base::{Items, Text};
use ebpf_elf::SectionIndex;
use ebpf_btf_ext::{FuncSecInfo, LineSecInfo};
use ebpf_model::Function;
use ebpf_parts::insn::bpf_insn;
use std::alloc::Global;

/// No records on functions.
fn no_func_info(alloc: Global) -> FuncSecInfo {
    FuncSecInfo {
        sec_name_offset: 0,
        num_info: 0,
        func_info: Items::new(alloc),
    }
}

/// No records on lines.
fn no_line_info(alloc: Global) -> LineSecInfo {
    LineSecInfo {
        sec_name_offset: 0,
        num_info: 0,
        line_info: Items::new(alloc),
    }
}

/// A function of section 3, without records.
pub fn function_of(alloc: Global, name: Text, instructions: Vec<bpf_insn>) -> Function {
    Function {
        address: 0,
        name,
        section_index: SectionIndex(3),
        section_offset: 0,
        instructions: Items::from_vec(instructions),
        func_info: no_func_info(alloc),
        line_info: no_line_info(alloc),
        func_info_rec_size: 0,
        line_info_rec_size: 0,
    }
}

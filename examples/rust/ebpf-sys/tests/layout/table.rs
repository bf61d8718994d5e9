//! The layouts of the structs.
// Made by tools/rust_sys.py of include/ebpf.h.
use super::Layout;
use ebpf_sys::*;
use std::mem::{offset_of, size_of};

pub const LAYOUTS: &[Layout] = &[
    layout!(
        ebpf_refusal: number, has, slot, offset, symbol, address, other_address, section, size, other_size,
        type_id, relocation, index, count, kind, name_len
    ),
    layout!(ebpf_error: name, name_len, number, is_cut, refusal),
    layout!(ebpf_open_options: size, max_bytes, parsing, reserved),
    layout!(
        ebpf_object_info: is_big_endian, has_kernel_version, kernel_version, has_types, has_relocations,
        has_typed_externs
    ),
    layout!(ebpf_counts: rows, text),
    layout!(ebpf_program: name_at, name_len, section, address, slots, kind, flags, program_type, attach_type),
    layout!(
        ebpf_map_shape: extra, type_, key_size, value_size, max_entries, flags, pinning, key_type_id,
        value_type_id
    ),
    layout!(ebpf_map: name_at, name_len, section, data_len, section_kind, has_inner, shape, inner),
    layout!(
        ebpf_extern: name_at, name_len, address, type_id, kernel_type_id, is_typed, is_weak, is_resolved,
        has_address
    ),
    layout!(ebpf_section: name_at, name_len, number),
    layout!(ebpf_insn: code, regs, off, imm),
    layout!(ebpf_func_info: insn_off, type_id),
    layout!(ebpf_line_info: insn_off, file_name_off, line_off, line_col),
    layout!(ebpf_value_row: name, name_len, value, value_len, must_exist),
    layout!(ebpf_kconfig_extern: name_at, name_len, size, kind, is_signed, is_weak),
    layout!(ebpf_variable: name_at, name_len, map_at, map_len, offset, size),
    layout!(ebpf_initial_slot: name_at, name_len, target_at, target_len, index, is_program),
    layout!(ebpf_struct_ops_map: name_at, name_len, value_len, programs, struct_id, value_type_id, is_link),
    layout!(ebpf_struct_ops_program: name_at, name_len, offset, member),
    layout!(ebpf_descriptor: name, name_len, descriptor),
    layout!(
        ebpf_record_outcome: name_at, name_len, number, section, address, slot, value, has_slot, result,
        absence, fault
    ),
    layout!(
        ebpf_reason: name_at, name_len, subject_at, subject_len, slot, section, address, function_slot,
        relocation, number, kind, fault, has_slot, has_relocation
    ),
    layout!(ebpf_verdict_summary: programs_ok, programs_break, programs_without_target, reasons, verdict),
    layout!(ebpf_map_slot: name_at, name_len, section, address, slot),
    layout!(ebpf_code_copy: name_at, name_len, base, slots, section, address),
    layout!(ebpf_code_reference: slot, base, is_call),
    layout!(ebpf_prepare_inputs: size, types, types_len, descriptors, descriptors_len, symbols, symbols_len, btf),
];

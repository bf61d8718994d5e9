//! The structs of the header.
// Made by tools/rust_sys.py of include/ebpf.h.
use std::ffi::c_char;
use std::marker::PhantomData;

/// A refusal. Fields that `has` does not name are 0. docs/C.md, 'Refusals', says which numbers have which fields.
#[repr(C)]
#[derive(Clone, Copy, Debug, Default, PartialEq, Eq)]
pub struct ebpf_refusal {
    /// What the call returns.
    pub number: u32,
    /// Which of the numbers below the error states: enum ebpf_detail, added up.
    pub has: u32,
    /// The index of an instruction slot in its function.
    pub slot: u64,
    /// An offset in bytes: of a relocation in its section, of a string in .BTF's strings.
    pub offset: u64,
    /// The index of a symbol in the file's table.
    pub symbol: u64,
    /// An address in a section, or in the kernel.
    pub address: u64,
    /// The second one, where two differ.
    pub other_address: u64,
    /// The index of a section in the file.
    pub section: u64,
    /// A size in bytes: of what is there or wanted.
    pub size: u64,
    /// The second one, where two differ: of the value that is given.
    pub other_size: u64,
    /// The id of a type.
    pub type_id: u64,
    /// The index of an ELF or CO-RE relocation among those of its section.
    pub relocation: u64,
    /// The number of a member, an element or a variant that is asked for.
    pub index: u64,
    /// How many of them there are, or how many slots.
    pub count: u64,
    /// A map type (enum bpf_map_type), a kind of CO-RE relocation, or a machine (e_machine).
    pub kind: u64,
    /// How many bytes the name has: ebpf_error.name.
    pub name_len: usize,
}

/// An object that was opened, the last pass that was made of it, its last error, and its lists.
#[repr(C)]
#[derive(Debug)]
pub struct ebpf_handle {
    _hidden: [u8; 0],
    _stays: PhantomData<*mut u8>,
}

/// The refusal of a call. The library makes it: later versions have more fields at its end.
#[repr(C)]
#[derive(Clone, Copy, Debug, PartialEq, Eq)]
pub struct ebpf_error {
    /// What the refusal is about: of a function, a map, a section, for example; "" for none.
    pub name: *const c_char,
    /// How many bytes it has; a zero byte is behind them.
    pub name_len: usize,
    /// What the call returned; 0 where nothing was refused.
    pub number: u32,
    /// 1: there was no memory for all of the name; else 0.
    pub is_cut: u32,
    /// The same number, and the details; all 0 where nothing was refused.
    pub refusal: ebpf_refusal,
}

/// How a file is opened. A new option is a new field at the end, and 0 stands for what was done before.
#[repr(C)]
#[derive(Clone, Copy, Debug, PartialEq, Eq)]
pub struct ebpf_open_options {
    /// Of this struct, in bytes, as the caller's header has it.
    pub size: usize,
    /// How many bytes the object may own; 0: no limit.
    pub max_bytes: u64,
    /// Enum ebpf_parsing.
    pub parsing: u32,
    /// 0.
    pub reserved: u32,
}

/// The types of a kernel.
#[repr(C)]
#[derive(Debug)]
pub struct ebpf_btf {
    _hidden: [u8; 0],
    _stays: PhantomData<*mut u8>,
}

/// `struct ebpf_object_info` of the header.
#[repr(C)]
#[derive(Clone, Copy, Debug, Default, PartialEq, Eq)]
pub struct ebpf_object_info {
    /// 1 or 0: the byte order of the file.
    pub is_big_endian: u32,
    /// 1 or 0.
    pub has_kernel_version: u32,
    /// 0 where the file states none.
    pub kernel_version: u32,
    /// 1 or 0: whether the file has .BTF.
    pub has_types: u32,
    /// 1 or 0: whether it has CO-RE relocations.
    pub has_relocations: u32,
    /// 1 or 0: whether some extern's type is compared with the kernel's.
    pub has_typed_externs: u32,
}

/// How many rows a list has, and how many bytes its text has. A row is one C struct of a list. Its name is a place and
/// a length in the text (`name_at`, `name_len`). The names are one after the other, each with a zero byte behind it
/// that `name_len` does not count: text + row.name_at is a C string.
#[repr(C)]
#[derive(Clone, Copy, Debug, Default, PartialEq, Eq)]
pub struct ebpf_counts {
    /// The field `rows`.
    pub rows: usize,
    /// The field `text`.
    pub text: usize,
}

/// `struct ebpf_program` of the header.
#[repr(C)]
#[derive(Clone, Copy, Debug, Default, PartialEq, Eq)]
pub struct ebpf_program {
    /// Its name's place in the text.
    pub name_at: usize,
    /// Its name's place in the text.
    pub name_len: usize,
    /// The index of its section.
    pub section: usize,
    /// Its address there, as its symbol states it.
    pub address: u64,
    /// How many slots it has as it stands, linked or not.
    pub slots: usize,
    /// Enum ebpf_program_kind.
    pub kind: u32,
    /// Of enum ebpf_program_flag, added up.
    pub flags: u32,
    /// The kernel's enum bpf_prog_type; 0 where neither name nor kind says one.
    pub program_type: u32,
    /// The kernel's enum bpf_attach_type, else EBPF_NO_ATTACH_TYPE.
    pub attach_type: u32,
}

/// The attributes of a map; each number as BPF_MAP_CREATE takes it.
#[repr(C)]
#[derive(Clone, Copy, Debug, Default, PartialEq, Eq)]
pub struct ebpf_map_shape {
    /// The field `extra`.
    pub extra: u64,
    /// The field `type_`.
    pub type_: u32,
    /// The field `key_size`.
    pub key_size: u32,
    /// The field `value_size`.
    pub value_size: u32,
    /// The field `max_entries`.
    pub max_entries: u32,
    /// The field `flags`.
    pub flags: u32,
    /// 1: by name; 0: not.
    pub pinning: u32,
    /// As BPF_MAP_CREATE takes it with the types of ebpf_kernel_types; 0: none.
    pub key_type_id: u32,
    /// As key_type_id.
    pub value_type_id: u32,
}

/// `struct ebpf_map` of the header.
#[repr(C)]
#[derive(Clone, Copy, Debug, Default, PartialEq, Eq)]
pub struct ebpf_map {
    /// Its name's place in the text.
    pub name_at: usize,
    /// Its name's place in the text.
    pub name_len: usize,
    /// The index of its section.
    pub section: usize,
    /// How many bytes its initial data has.
    pub data_len: usize,
    /// Enum ebpf_section_kind.
    pub section_kind: u32,
    /// 1 or 0: whether `inner` says something.
    pub has_inner: u32,
    /// The field `shape`.
    pub shape: ebpf_map_shape,
    /// Of the maps that a map of maps holds; all zero where there are none.
    pub inner: ebpf_map_shape,
}

/// `struct ebpf_extern` of the header.
#[repr(C)]
#[derive(Clone, Copy, Debug, Default, PartialEq, Eq)]
pub struct ebpf_extern {
    /// Its name's place in the text.
    pub name_at: usize,
    /// Its name's place in the text.
    pub name_len: usize,
    /// In the kernel; 0 where it is not known.
    pub address: u64,
    /// In the object's types.
    pub type_id: u32,
    /// In the kernel's types; 0 where it is not known.
    pub kernel_type_id: u32,
    /// 1 or 0: whether the kernel's type is compared with its own.
    pub is_typed: u32,
    /// 1 or 0: whether it may stay unresolved.
    pub is_weak: u32,
    /// 1 or 0: whether the kernel has it.
    pub is_resolved: u32,
    /// 1 or 0: whether `address` is known.
    pub has_address: u32,
}

/// `struct ebpf_section` of the header.
#[repr(C)]
#[derive(Clone, Copy, Debug, Default, PartialEq, Eq)]
pub struct ebpf_section {
    /// Its name's place in the text.
    pub name_at: usize,
    /// Its name's place in the text.
    pub name_len: usize,
    /// Its index in the file, as in the rows of programs and maps.
    pub number: usize,
}

/// Struct bpf_insn.
#[repr(C)]
#[derive(Clone, Copy, Debug, Default, PartialEq, Eq)]
pub struct ebpf_insn {
    /// The field `code`.
    pub code: u8,
    /// The destination in the low four bits, the source in the high four.
    pub regs: u8,
    /// The field `off`.
    pub off: i16,
    /// The field `imm`.
    pub imm: i32,
}

/// Struct bpf_func_info; the place is counted in slots, as BPF_PROG_LOAD takes it.
#[repr(C)]
#[derive(Clone, Copy, Debug, Default, PartialEq, Eq)]
pub struct ebpf_func_info {
    /// The field `insn_off`.
    pub insn_off: u32,
    /// The field `type_id`.
    pub type_id: u32,
}

/// Struct bpf_line_info; the place is counted in slots, as BPF_PROG_LOAD takes it.
#[repr(C)]
#[derive(Clone, Copy, Debug, Default, PartialEq, Eq)]
pub struct ebpf_line_info {
    /// The field `insn_off`.
    pub insn_off: u32,
    /// The field `file_name_off`.
    pub file_name_off: u32,
    /// The field `line_off`.
    pub line_off: u32,
    /// The field `line_col`.
    pub line_col: u32,
}

/// A variable's name and its value. Each may be NULL with the length 0.
#[repr(C)]
#[derive(Clone, Copy, Debug, PartialEq, Eq)]
pub struct ebpf_value_row {
    /// The field `name`.
    pub name: *const c_char,
    /// The length in bytes of the text that begins at `name_at`.
    pub name_len: usize,
    /// The field `value`.
    pub value: *const u8,
    /// The length in bytes of the text that begins at `value_at`.
    pub value_len: usize,
    /// 0: the row is passed over where no symbol has the name.
    pub must_exist: u32,
}

/// `struct ebpf_kconfig_extern` of the header.
#[repr(C)]
#[derive(Clone, Copy, Debug, Default, PartialEq, Eq)]
pub struct ebpf_kconfig_extern {
    /// Its name's place in the text.
    pub name_at: usize,
    /// Its name's place in the text.
    pub name_len: usize,
    /// Of its value, in bytes.
    pub size: u32,
    /// Enum ebpf_kconfig_kind.
    pub kind: u32,
    /// 1 or 0: whether its numbers are signed; 0 of other kinds than chars and integers.
    pub is_signed: u32,
    /// 1 or 0: whether it may stay without a value, and is zeros then.
    pub is_weak: u32,
}

/// `struct ebpf_variable` of the header.
#[repr(C)]
#[derive(Clone, Copy, Debug, Default, PartialEq, Eq)]
pub struct ebpf_variable {
    /// Its name's place in the text.
    pub name_at: usize,
    /// Its name's place in the text.
    pub name_len: usize,
    /// The place of the name of its map.
    pub map_at: usize,
    /// The place of the name of its map.
    pub map_len: usize,
    /// Where it begins in the map's data.
    pub offset: u64,
    /// In bytes.
    pub size: u64,
}

/// An initial value of a map of maps or of an array of programs.
#[repr(C)]
#[derive(Clone, Copy, Debug, Default, PartialEq, Eq)]
pub struct ebpf_initial_slot {
    /// The place of the map's name in the text.
    pub name_at: usize,
    /// The place of the map's name in the text.
    pub name_len: usize,
    /// The place of the name of what stands there.
    pub target_at: usize,
    /// The place of the name of what stands there.
    pub target_len: usize,
    /// In the map, and its key, in the byte order of the machine.
    pub index: u32,
    /// 1: the program of this name stands there; 0: the map.
    pub is_program: u32,
}

/// A map of struct_ops, as the kernel of some types takes it.
#[repr(C)]
#[derive(Clone, Copy, Debug, Default, PartialEq, Eq)]
pub struct ebpf_struct_ops_map {
    /// The place of the name in the text.
    pub name_at: usize,
    /// The place of the name in the text.
    pub name_len: usize,
    /// The size of the value in bytes.
    pub value_len: usize,
    /// How many programs the value holds.
    pub programs: usize,
    /// The id of the kernel's struct: attach_btf_id of its programs.
    pub struct_id: u32,
    /// The id of the STRUCT that is the value: btf_vmlinux_value_type_id.
    pub value_type_id: u32,
    /// 1 or 0: whether a link attaches it (BPF_F_LINK).
    pub is_link: u32,
}

/// A program whose descriptor the value of such a map holds.
#[repr(C)]
#[derive(Clone, Copy, Debug, Default, PartialEq, Eq)]
pub struct ebpf_struct_ops_program {
    /// The place of the program's name in the text.
    pub name_at: usize,
    /// The place of the program's name in the text.
    pub name_len: usize,
    /// Where in the value its descriptor goes, in bytes: a number of 8 bytes.
    pub offset: u64,
    /// The index of its member in the kernel's struct: expected_attach_type.
    pub member: usize,
}

/// A map's name and its descriptor.
///
/// - Each map that a slot refers to needs a row, a map of variables too. Else the number is
///   EBPF_MAPS_MISSING_DESCRIPTOR, about the map. `ebpf_maps_without_descriptors` lists all such slots.
/// - Each row needs the name of a map of the object. Else the number is EBPF_MAPS_UNKNOWN_MAP, about the name. It comes
///   first.
/// - Of two rows for one name, or for maps of one symbol, the later counts.
#[repr(C)]
#[derive(Clone, Copy, Debug, PartialEq, Eq)]
pub struct ebpf_descriptor {
    /// The field `name`.
    pub name: *const c_char,
    /// The length in bytes of the text that begins at `name_at`.
    pub name_len: usize,
    /// The field `descriptor`.
    pub descriptor: i32,
}

/// `struct ebpf_record_outcome` of the header.
#[repr(C)]
#[derive(Clone, Copy, Debug, Default, PartialEq, Eq)]
pub struct ebpf_record_outcome {
    /// The place of its section's name in the text; length 0 if that can't be read.
    pub name_at: usize,
    /// The place of its section's name in the text; length 0 if that can't be read.
    pub name_len: usize,
    /// Its number among the CO-RE relocations of that section in .BTF.ext, from 0 on.
    pub number: usize,
    /// The index of the section of the function that has its slot; 0 where none has it.
    pub section: usize,
    /// The function's address there, in bytes; 0 where none has it.
    pub address: u64,
    /// The number of its slot in the function; 0 where none has it.
    pub slot: usize,
    /// 0 where `result` is not EBPF_RECORD_VALUE.
    pub value: u64,
    /// 1 or 0: whether a function of its section has its slot.
    pub has_slot: u32,
    /// Enum ebpf_record_result.
    pub result: u32,
    /// Enum ebpf_absence.
    pub absence: u32,
    /// Of enum ebpf_number, 220 to 249; 0 where it is not refused.
    pub fault: u32,
}

/// `struct ebpf_reason` of the header.
#[repr(C)]
#[derive(Clone, Copy, Debug, Default, PartialEq, Eq)]
pub struct ebpf_reason {
    /// The place of the program's name in the text; length 0: all programs break.
    pub name_at: usize,
    /// The place of the program's name in the text; length 0: all programs break.
    pub name_len: usize,
    /// The place of the name of what is lacking or refused; length 0: it has none.
    pub subject_at: usize,
    /// The place of the name of what is lacking or refused; length 0: it has none.
    pub subject_len: usize,
    /// The number of the slot in the linked program.
    pub slot: usize,
    /// The index of the section of the function that is copied there.
    pub section: usize,
    /// The function's address there, in bytes.
    pub address: u64,
    /// The number of the slot in the function.
    pub function_slot: usize,
    /// The index of its row, as ebpf_record_outcome_at takes it.
    pub relocation: usize,
    /// Of the helper, of the map type, or the index of the extern's symbol; else 0.
    pub number: u64,
    /// Enum ebpf_reason_kind.
    pub kind: u32,
    /// Of enum ebpf_number; 0 where nothing is refused.
    pub fault: u32,
    /// 1 or 0: whether `slot` to `function_slot` say something; else these are 0.
    pub has_slot: u32,
    /// 1 or 0: whether `relocation` says something; else it is 0.
    pub has_relocation: u32,
}

/// `struct ebpf_verdict_summary` of the header.
#[repr(C)]
#[derive(Clone, Copy, Debug, Default, PartialEq, Eq)]
pub struct ebpf_verdict_summary {
    /// How many have no reason to break.
    pub programs_ok: usize,
    /// How many break.
    pub programs_break: usize,
    /// How many have no other reason than EBPF_REASON_TARGET.
    pub programs_without_target: usize,
    /// How many rows ebpf_reason_at has.
    pub reasons: usize,
    /// Enum ebpf_verdict.
    pub verdict: u32,
}

/// A slot that refers to a map.
#[repr(C)]
#[derive(Clone, Copy, Debug, Default, PartialEq, Eq)]
pub struct ebpf_map_slot {
    /// The place of the map's name in the text.
    pub name_at: usize,
    /// The place of the map's name in the text.
    pub name_len: usize,
    /// The index of the section of the slot's function.
    pub section: usize,
    /// The function's address there, in bytes.
    pub address: u64,
    /// The number of the slot in the function.
    pub slot: usize,
}

/// A copy of a function in a linked program. Slots are counted, each 8 bytes.
#[repr(C)]
#[derive(Clone, Copy, Debug, Default, PartialEq, Eq)]
pub struct ebpf_code_copy {
    /// The place of the function's name in the text.
    pub name_at: usize,
    /// The place of the function's name in the text.
    pub name_len: usize,
    /// The slot of the linked program at which the copy begins.
    pub base: usize,
    /// How many slots it has.
    pub slots: usize,
    /// The index of the function's section.
    pub section: usize,
    /// The function's address there, in bytes.
    pub address: u64,
}

/// A slot of a linked program that refers to one of its copies.
#[repr(C)]
#[derive(Clone, Copy, Debug, Default, PartialEq, Eq)]
pub struct ebpf_code_reference {
    /// Its number in the linked program.
    pub slot: usize,
    /// The slot at which the copy begins that it refers to, as in that copy's row.
    pub base: usize,
    /// 1: it calls the function; 0: it loads its address.
    pub is_call: u32,
}

/// What the passes are given. Each array may be NULL. A new input is a new field at the end, and 0 is none.
#[repr(C)]
#[derive(Clone, Copy, Debug, PartialEq, Eq)]
pub struct ebpf_prepare_inputs {
    /// Of this struct, in bytes, as the caller's header has it.
    pub size: usize,
    /// As for ebpf_relocate_types.
    pub types: *const u8,
    /// 0: functions are not relocated, and externs are looked up in the symbols alone.
    pub types_len: usize,
    /// As for ebpf_relocate_maps.
    pub descriptors: *const ebpf_descriptor,
    /// The length in bytes of the text that begins at `descriptors_at`.
    pub descriptors_len: usize,
    /// As for ebpf_resolve_externs.
    pub symbols: *const u8,
    /// The length in bytes of the text that begins at `symbols_at`.
    pub symbols_len: usize,
    /// The kernel's types, if they were read: then `types` is not read.
    pub btf: *const ebpf_btf,
}

//! The calls of the header.
// Made by tools/rust_sys.py of include/ebpf.h.
use crate::structs::*;
use std::ffi::c_char;

extern "C" {
    /// `ebpf_version_number` of the header.
    pub fn ebpf_version_number() -> u32;

    /// Writes the name of a number: the stage and the variant of its error, as "parse: BadMagic". `*len` is its length.
    ///
    /// - A number below 100 has no stage: the name of 2 is "OutOfMemory".
    /// - Each number above has a name, whether a call returns it or not. The name of any other number is empty.
    ///
    /// 64 bytes hold each name. Numbers: 1.
    pub fn ebpf_number_name(number: u32, text: *mut c_char, room: usize, len: *mut usize) -> u32;

    /// Returns what a number says: the text beside it in the table above. It has no names of the object. It is static,
    /// ends in a zero byte, and is never NULL: of other numbers it says that they are unknown.
    pub fn ebpf_strerror(number: u32) -> *const c_char;

    /// Returns the error of the last call that was given the handle, also as const. It is never NULL.
    ///
    /// - Each call with a handle writes it, those too that return a pointer or a count. If nothing was refused, its
    ///   number is 0. `ebpf_last_error`, `ebpf_explain` and `ebpf_close` alone don't write it. `ebpf_clone` writes that
    ///   of the handle that is copied.
    /// - It and its name are the handle's until the next call that is given the handle.
    /// - For NULL it is EBPF_MEMORY: `ebpf_open` and `ebpf_prepare` give out NULL only when out of memory.
    pub fn ebpf_last_error(handle: *const ebpf_handle) -> *const ebpf_error;

    /// Returns a sentence on the last error: the text of `ebpf_strerror`, then the name in quotes and the details, as
    /// `a value does not fit its variable or its map; about the variable: "seen" (size 8, other size 7)`.
    ///
    /// - It ends in a zero byte, and is never NULL. It is the handle's until the next call that is given the handle.
    /// - The command `ebpf` may word the same error otherwise.
    /// - Without memory for a sentence it is the text alone.
    pub fn ebpf_explain(handle: *const ebpf_handle) -> *const c_char;

    /// Opens the object of a file, and gives out a handle. `options` may be NULL: then they are the defaults.
    ///
    /// Also where the file is refused a handle is given out, so that `ebpf_last_error` and `ebpf_explain` say why, as
    /// sqlite3_open does. Such a handle is closed for all other calls (3). Free it by `ebpf_close` too. `*handle` is
    /// NULL only where there is no memory for a handle (2).
    ///
    /// Lenient parsing is the default. It accepts more than strict parsing:
    ///
    /// - Each section of code is a program's, whatever its name. If the library's list lacks the name, the programs
    ///   have the kind EBPF_KIND_OTHER. Strict parsing refuses such a section (144).
    /// - A section with `?` before its name has the kind of the rest.
    /// - An array of programs may be declared with its programs.
    /// - A license ends at its first zero.
    /// - map_extra may be a 64-bit number.
    ///
    /// It refuses a big-endian file with code (156), and a file for another machine (158): e_machine is neither EM_BPF
    /// nor EM_NONE. For any other file that strict parsing accepts, both give the same object.
    ///
    /// Give a limit (`max_bytes`) for a file from strangers: a file of some kilobytes can make an object of gigabytes.
    /// The call counts the bytes that the object would own before it makes it, and returns 157 above the limit.
    /// docs/BEHAVIOUR.md, 'Limits', says what counts.
    ///
    /// Options are refused (EBPF_BAD_OPTIONS) if `size` is less than that of a size_t, if a field has an unknown value,
    /// or if a byte behind the fields that this library knows is not 0. A field that is not wholly within `size` is 0.
    /// Numbers: 2, 90, 100 to 199.
    pub fn ebpf_open(
        file: *const u8,
        file_len: usize,
        options: *const ebpf_open_options,
        handle: *mut *mut ebpf_handle,
    ) -> u32;

    /// Gives out a handle with a copy of what `handle` holds: `*copy` is NULL with other numbers than 0. Numbers: 2, 3.
    pub fn ebpf_clone(handle: *const ebpf_handle, copy: *mut *mut ebpf_handle) -> u32;

    /// Frees the handle and what it holds. NULL is freed as `free` does: nothing happens.
    pub fn ebpf_close(handle: *mut ebpf_handle);

    /// Reads the types of a kernel, and gives them out. `types` is raw BTF in the byte order that its magic number
    /// states: the bytes of /sys/kernel/btf/vmlinux. They are not needed after the call.
    ///
    /// - A call that is given what this gave is the call over these bytes. No call changes it.
    /// - `*btf` is NULL with other numbers than 0.
    ///
    /// Numbers: 2, 200 to 219.
    pub fn ebpf_btf_open(types: *const u8, types_len: usize, btf: *mut *mut ebpf_btf) -> u32;

    /// Frees the types. NULL is freed as `free` does: nothing happens.
    pub fn ebpf_btf_close(btf: *mut ebpf_btf);

    /// Numbers: 3.
    pub fn ebpf_info(handle: *const ebpf_handle, info: *mut ebpf_object_info) -> u32;

    /// The license, without its zero byte. `*len` is its length. Numbers: 1, 3.
    pub fn ebpf_license(handle: *const ebpf_handle, text: *mut c_char, room: usize, len: *mut usize) -> u32;

    /// Sets `*states` to 1 if the file has a section `license`, else to 0: the license is then the default GPL.
    /// Numbers: 3.
    pub fn ebpf_states_license(handle: *const ebpf_handle, states: *mut u32) -> u32;

    /// Lists the programs: a row each, their names one after the other in `text`.
    ///
    /// - Flags, program type and attach type come from the name of the program's section, if libbpf has it ('Program
    ///   Types and ELF Sections'). A `?` before the name is skipped. This holds for EBPF_KIND_OTHER too, as for `tc`
    ///   and `struct_ops/x`.
    /// - The flag EBPF_MULTI always comes from the kind.
    /// - For other names they come from the kind, as for `xdp/cpumap/x`. The kind EBPF_KIND_OTHER gives none: flags 0,
    ///   program type 0 and EBPF_NO_ATTACH_TYPE.
    /// - `ebpf_program_section` gives the name. If it gives none, the kind alone counts. That is so for the earlier of
    ///   two sections with one name.
    ///
    /// Numbers: 1, 2, 3.
    pub fn ebpf_programs(
        handle: *const ebpf_handle,
        rows: *mut ebpf_program,
        rows_room: usize,
        text: *mut c_char,
        text_room: usize,
        counts: *mut ebpf_counts,
    ) -> u32;

    /// Writes the row of the program of a name, as `ebpf_programs` lists it. The text that the row points into is
    /// `name` itself (`name_at` is 0). No list is made. Numbers: 3, 4.
    pub fn ebpf_find_program(
        handle: *const ebpf_handle,
        name: *const c_char,
        name_len: usize,
        row: *mut ebpf_program,
    ) -> u32;

    /// Lists the maps: a row each, their names one after the other in `text`. Ids of types are those of the types that
    /// `ebpf_kernel_types` writes for the file:
    ///
    /// - They are 0 if the object has no types, and for types of maps that the kernel creates without them.
    /// - The value of a map of variables has the DATASEC of the map's name. The id is 0 if there is none, or if the
    ///   sizes of the map's data, of its values and of the DATASEC differ. A DATASEC of size 0 fits any size.
    /// - An inner map has its ids by the same types and rules.
    ///
    /// Numbers: 1, 2, 3.
    pub fn ebpf_maps(
        handle: *const ebpf_handle,
        rows: *mut ebpf_map,
        rows_room: usize,
        text: *mut c_char,
        text_room: usize,
        counts: *mut ebpf_counts,
    ) -> u32;

    /// Writes the row of the map of a name, as `ebpf_maps` lists it. The text that the row points into is `name` itself
    /// (`name_at` is 0). No list is made. Numbers: 3, 5.
    pub fn ebpf_find_map(handle: *const ebpf_handle, name: *const c_char, name_len: usize, row: *mut ebpf_map) -> u32;

    /// The initial data of a map. `*len` is its length. Numbers: 1, 3, 5.
    pub fn ebpf_map_data(
        handle: *const ebpf_handle,
        name: *const c_char,
        name_len: usize,
        data: *mut u8,
        room: usize,
        len: *mut usize,
    ) -> u32;

    /// Lists the externs: a row each, their names one after the other in `text`. Numbers: 1, 2, 3.
    pub fn ebpf_externs(
        handle: *const ebpf_handle,
        rows: *mut ebpf_extern,
        rows_room: usize,
        text: *mut c_char,
        text_room: usize,
        counts: *mut ebpf_counts,
    ) -> u32;

    /// The name of the section of a program, as `ebpf_sections` lists it. `*len` is its length: 0 if the section is not
    /// listed. Numbers: 1, 3, 4.
    pub fn ebpf_program_section(
        handle: *const ebpf_handle,
        name: *const c_char,
        name_len: usize,
        text: *mut c_char,
        room: usize,
        len: *mut usize,
    ) -> u32;

    /// Lists the named sections of the file: a row each, their names one after the other in `text`. The name of a
    /// program's section says what the program is attached to. Of two sections with one name the later one is listed.
    /// Numbers: 1, 2, 3.
    pub fn ebpf_sections(
        handle: *const ebpf_handle,
        rows: *mut ebpf_section,
        rows_room: usize,
        text: *mut c_char,
        text_room: usize,
        counts: *mut ebpf_counts,
    ) -> u32;

    /// Finds the type that the programs of a section of this name are attached to (attach_btf_id).
    ///
    /// - `types` is raw BTF in the byte order that its magic number states. It is the kernel's, or for freplace that of
    ///   the program that is replaced.
    /// - `*answer` is of enum ebpf_target_answer. `*type_id` is 0 if no type is found.
    /// - The name of the target follows the first slash. `vmlinux:` before it and a `?` before the section's name are
    ///   skipped.
    /// - The type is the function of this name. For lsm and iter, bpf_lsm_ or bpf_iter_ is put before the name. For
    ///   tp_btf it is the TYPEDEF btf_trace_NAME.
    /// - Of types of one name the first is found.
    ///
    /// Numbers: 2, 6, 200 to 219.
    pub fn ebpf_attach_target(
        section_name: *const c_char,
        section_name_len: usize,
        types: *const u8,
        types_len: usize,
        answer: *mut u32,
        type_id: *mut u32,
    ) -> u32;

    /// The same over types that were read. Numbers: 2, 3, 6.
    pub fn ebpf_attach_target_with(
        section_name: *const c_char,
        section_name_len: usize,
        btf: *const ebpf_btf,
        answer: *mut u32,
        type_id: *mut u32,
    ) -> u32;

    /// The slots of a program as they stand. `*count` is how many. Numbers: 1, 3, 4.
    pub fn ebpf_slots(
        handle: *const ebpf_handle,
        name: *const c_char,
        name_len: usize,
        slots: *mut ebpf_insn,
        room: usize,
        count: *mut usize,
    ) -> u32;

    /// A program's func info, by slot. `*count` is how many. Numbers: 1, 3, 4.
    pub fn ebpf_func_infos(
        handle: *const ebpf_handle,
        name: *const c_char,
        name_len: usize,
        rows: *mut ebpf_func_info,
        room: usize,
        count: *mut usize,
    ) -> u32;

    /// A program's line info, by slot. `*count` is how many. Numbers: 1, 3, 4.
    pub fn ebpf_line_infos(
        handle: *const ebpf_handle,
        name: *const c_char,
        name_len: usize,
        rows: *mut ebpf_line_info,
        room: usize,
        count: *mut usize,
    ) -> u32;

    /// Writes the value of a variable into the data of the map that holds it. Of symbols with the name the one with the
    /// greatest index counts. If there is none and `must_exist` is 0, the object is unchanged and the number is 0. A
    /// name that is no UTF-8 is refused before all other faults of the value. Numbers: 2, 3, 6, 12, 150 to 152.
    pub fn ebpf_set_value(
        handle: *mut ebpf_handle,
        name: *const c_char,
        name_len: usize,
        value: *const u8,
        value_len: usize,
        must_exist: u32,
    ) -> u32;

    /// Writes the values of many variables, each as `ebpf_set_value` does. All rows are written, or none.
    ///
    /// - Of rows of one name the last counts.
    /// - If variables share bytes, the one with the greater name counts.
    /// - A row is refused first whose name is no UTF-8. Then comes the first fault in byte order of the names.
    /// - The table of the variables' names is made once for all rows. Each `ebpf_set_value` makes it anew, so 1,000 of
    ///   those cost 1,000 tables.
    ///
    /// Numbers: 2, 3, 6, 12, 150 to 152.
    pub fn ebpf_set_values(handle: *mut ebpf_handle, rows: *const ebpf_value_row, rows_len: usize) -> u32;

    /// Lists the kconfig externs (`extern .. __kconfig`): a row each, their names one after the other in `text`. They
    /// are in the order in which the object's types name them, and not by name. Numbers: 1, 2, 3, 900 to 903.
    pub fn ebpf_kconfig(
        handle: *const ebpf_handle,
        rows: *mut ebpf_kconfig_extern,
        rows_room: usize,
        text: *mut c_char,
        text_room: usize,
        counts: *mut ebpf_counts,
    ) -> u32;

    /// Returns the value of a kconfig extern by a kernel's configuration. `config` is its text: /proc/config.gz or
    /// /boot/config-RELEASE, unpacked. The first of its lines that begins with the extern's name and `=` counts.
    ///
    /// - `*len` is the value's length, as `ebpf_kconfig` lists it.
    /// - If there is no such line, NULL is returned and nothing is refused: the number of `ebpf_last_error` is 0. So it
    ///   is for a name that does not begin with CONFIG_.
    /// - The bytes are in the byte order of the object. The handle keeps them, as it keeps lists.
    /// - The first extern of the name counts.
    ///
    /// Numbers: 2, 3, 8, 900 to 903, 907, 908.
    pub fn ebpf_kconfig_value(
        handle: *const ebpf_handle,
        name: *const c_char,
        name_len: usize,
        config: *const c_char,
        config_len: usize,
        len: *mut usize,
    ) -> *const u8;

    /// Returns a number as the value of a kconfig extern: what the loader knows of the kernel. `*len` is the value's
    /// length.
    ///
    /// - LINUX_KERNEL_VERSION is a \<\< 16 | b \<\< 8 | c for the version a.b.c.
    /// - LINUX_HAS_BPF_COOKIE and LINUX_HAS_SYSCALL_WRAPPER are 1 or 0.
    /// - The bytes are in the byte order of the object. The handle keeps them, as it keeps lists.
    /// - The first extern of the name counts.
    ///
    /// Numbers: 2, 3, 8, 900 to 903, 907, 908.
    pub fn ebpf_kconfig_number(
        handle: *const ebpf_handle,
        name: *const c_char,
        name_len: usize,
        number: u64,
        len: *mut usize,
    ) -> *const u8;

    /// Completes the BTF-defined maps as libbpf does it. `file` is what the handle was opened from. `page_size` is the
    /// number of bytes of a page, 4096 on most systems.
    ///
    /// - It refuses pinnings other than 0 and 1, a second map of type 33 (BPF_MAP_TYPE_ARENA), and variables in an
    ///   arena that is not there or is too small.
    /// - The arena gets the bytes of the section `.addr_space.1` as data, and that section. Then `ebpf_relocate_maps`
    ///   writes references to the variables in it (without this call 301), and `ebpf_variable_at` lists them.
    /// - All else is unchanged. The object owns as many bytes more as the section has: they are not in `max_bytes`.
    ///
    /// A loader maps the arena's pages into memory (mmap(2)), at `extra` if it is not 0, and copies the data to their
    /// start. Numbers: 2, 3, 12, 1100 to 1199.
    pub fn ebpf_complete_maps(handle: *mut ebpf_handle, file: *const u8, file_len: usize, page_size: u32) -> u32;

    /// Adds the map `.kconfig`, whose data are the values of the kconfig externs, and makes their symbols variables of
    /// it. `ebpf_maps` lists it. `ebpf_relocate_maps` writes its descriptor. Its flags are BPF_F_RDONLY_PROG: freeze
    /// the map once it is filled.
    ///
    /// - Rows are as those of `ebpf_set_values`; `must_exist` is not read. Of rows of one name the last counts. A row
    ///   whose name no extern has is skipped.
    /// - A weak extern without a row is zeros.
    /// - An object without such externs is unchanged.
    /// - Names that are no UTF-8 are refused first. Then come the faults of the list, then the first of the values.
    ///
    /// Numbers: 2, 3, 6, 12, 900 to 906.
    pub fn ebpf_define_kconfig(handle: *mut ebpf_handle, rows: *const ebpf_value_row, rows_len: usize) -> u32;

    /// Lists the variables in the data of maps: a row each. `text` has the name of each and then that of its map. They
    /// are the symbols that have bytes, all of them inside the data of a map. Of symbols of one name the one with the
    /// greatest index counts. Numbers: 1, 2, 3.
    pub fn ebpf_variables(
        handle: *const ebpf_handle,
        rows: *mut ebpf_variable,
        rows_room: usize,
        text: *mut c_char,
        text_room: usize,
        counts: *mut ebpf_counts,
    ) -> u32;

    /// The bytes of a variable in the data of its map, as they are now. `*len` is how many. Numbers: 1, 2, 3, 10.
    pub fn ebpf_value(
        handle: *const ebpf_handle,
        name: *const c_char,
        name_len: usize,
        value: *mut u8,
        room: usize,
        len: *mut usize,
    ) -> u32;

    /// Sets all of the initial data of a map, which has as many bytes as before. Numbers: 3, 5, 9, 12.
    pub fn ebpf_set_map_data(
        handle: *mut ebpf_handle,
        name: *const c_char,
        name_len: usize,
        data: *const u8,
        data_len: usize,
    ) -> u32;

    /// Sets how many entries a map holds at most. Numbers: 3, 5, 12.
    pub fn ebpf_set_max_entries(handle: *mut ebpf_handle, name: *const c_char, name_len: usize, entries: u32) -> u32;

    /// Sets the size of a map's values, in bytes. Numbers: 3, 5, 12.
    pub fn ebpf_set_value_size(handle: *mut ebpf_handle, name: *const c_char, name_len: usize, size: u32) -> u32;

    /// If `has_newer` is 0, replaces newer helper functions in every function. 4 (probe_read) replaces 112 and 113
    /// (probe_read_user, probe_read_kernel). 45 (probe_read_str) replaces 114 and 115. Numbers: 3, 12.
    pub fn ebpf_sanitize(handle: *mut ebpf_handle, has_newer: u32) -> u32;

    /// Leaves programs out: they are not linked, and what they alone need is not asked for. `names` has `count` names,
    /// each with a zero byte behind it.
    ///
    /// - So a program that calls an extern that the kernel lacks doesn't stop the others.
    /// - A remaining program keeps each function that it reaches, with all relocations there and the externs of these.
    /// - The relocations of other functions are gone, and the externs to which only these referred. Maps stay.
    /// - A name that no program has is refused (4), about the first such name. A name may occur twice.
    ///
    /// Numbers: 2, 3, 4, 6, 12.
    pub fn ebpf_leave_out(handle: *mut ebpf_handle, names: *const *const c_char, count: usize) -> u32;

    /// `ebpf_program_count` of the header.
    pub fn ebpf_program_count(handle: *const ebpf_handle) -> usize;

    /// `ebpf_program_at` of the header.
    pub fn ebpf_program_at(handle: *const ebpf_handle, index: usize, row: *mut ebpf_program) -> *const c_char;

    /// `ebpf_map_count` of the header.
    pub fn ebpf_map_count(handle: *const ebpf_handle) -> usize;

    /// `ebpf_map_at` of the header.
    pub fn ebpf_map_at(handle: *const ebpf_handle, index: usize, row: *mut ebpf_map) -> *const c_char;

    /// `ebpf_extern_count` of the header.
    pub fn ebpf_extern_count(handle: *const ebpf_handle) -> usize;

    /// `ebpf_extern_at` of the header.
    pub fn ebpf_extern_at(handle: *const ebpf_handle, index: usize, row: *mut ebpf_extern) -> *const c_char;

    /// `ebpf_section_count` of the header.
    pub fn ebpf_section_count(handle: *const ebpf_handle) -> usize;

    /// `ebpf_section_at` of the header.
    pub fn ebpf_section_at(handle: *const ebpf_handle, index: usize, row: *mut ebpf_section) -> *const c_char;

    /// `ebpf_kconfig_count` of the header.
    pub fn ebpf_kconfig_count(handle: *const ebpf_handle) -> usize;

    /// `ebpf_kconfig_at` of the header.
    pub fn ebpf_kconfig_at(handle: *const ebpf_handle, index: usize, row: *mut ebpf_kconfig_extern) -> *const c_char;

    /// `ebpf_variable_count` of the header.
    pub fn ebpf_variable_count(handle: *const ebpf_handle) -> usize;

    /// `ebpf_variable_at` of the header.
    pub fn ebpf_variable_at(handle: *const ebpf_handle, index: usize, row: *mut ebpf_variable) -> *const c_char;

    /// Of the program of an index: its slots as they are, its info entries, and the name of its section ("" for none).
    pub fn ebpf_program_slots(handle: *const ebpf_handle, index: usize, count: *mut usize) -> *const ebpf_insn;

    /// `ebpf_program_func_infos` of the header.
    pub fn ebpf_program_func_infos(
        handle: *const ebpf_handle,
        index: usize,
        count: *mut usize,
    ) -> *const ebpf_func_info;

    /// `ebpf_program_line_infos` of the header.
    pub fn ebpf_program_line_infos(
        handle: *const ebpf_handle,
        index: usize,
        count: *mut usize,
    ) -> *const ebpf_line_info;

    /// `ebpf_program_section_name` of the header.
    pub fn ebpf_program_section_name(handle: *const ebpf_handle, index: usize) -> *const c_char;

    /// The initial data of the map of an index. `*len` is its length.
    pub fn ebpf_map_contents(handle: *const ebpf_handle, index: usize, len: *mut usize) -> *const u8;

    /// The license as a C string: the default GPL where `ebpf_states_license` says that the file states none.
    pub fn ebpf_license_text(handle: *const ebpf_handle) -> *const c_char;

    /// The types of a file for BPF_BTF_LOAD: its section .BTF, completed as the kernel takes it.
    ///
    /// - `file` is what the handle was opened from. The handle is given the types and the error.
    /// - Data sections get their sizes and offsets.
    /// - Hidden functions and variables become static.
    /// - The externs of .ksyms and .kconfig become variables.
    /// - Ids and offsets of strings stay. So those of func info, line info and maps fit.
    ///
    /// `*len` is the length of the types: 0 if the file has no .BTF. Numbers: 2, 3, 700 to 799.
    pub fn ebpf_kernel_types(
        handle: *const ebpf_handle,
        file: *const u8,
        file_len: usize,
        len: *mut usize,
    ) -> *const u8;

    /// The types of a kernel that the object's CO-RE relocations ask for, as raw BTF: some kilobytes in place of
    /// megabytes, for a kernel without /sys/kernel/btf/vmlinux. Each relocation has the same outcome over them as over
    /// the kernel's.
    ///
    /// - Their ids are new. An object that needs ids of the kernel's own types is refused.
    /// - Call it before `ebpf_relocate_types`. The handle is given the types and the error.
    ///
    /// `*len` is the length of the types. Numbers: 2, 3, 1000 to 1099.
    pub fn ebpf_least_types(handle: *const ebpf_handle, btf: *const ebpf_btf, len: *mut usize) -> *const u8;

    /// Takes the list of the initial values of the object's maps, by the maps' names in byte order, then by index.
    /// `*count` is how many rows `ebpf_initial_slot_at` has then: it returns the name of the row's map, and that of its
    /// target follows.
    ///
    /// - `file` is what the handle was opened from. Other bytes give their own relocations over this object.
    /// - An object with an array of programs is opened by lenient parsing.
    /// - A loader writes the maps once all are made, and the programs once all are loaded.
    ///
    /// Numbers: 2, 3, 800 to 899.
    pub fn ebpf_initial_slots(handle: *const ebpf_handle, file: *const u8, file_len: usize, count: *mut usize) -> u32;

    /// `ebpf_initial_slot_at` of the header.
    pub fn ebpf_initial_slot_at(handle: *const ebpf_handle, index: usize, row: *mut ebpf_initial_slot) -> *const c_char;

    /// Takes the list of the maps of struct_ops that a loader makes, by the types of the running kernel. `*count` is
    /// how many there are. `file` is what the handle was opened from.
    ///
    /// - The maps are the variables of the sections `.struct_ops` and `.struct_ops.link`, in the order of sections and
    ///   of their types. Those of `?.struct_ops` and `?.struct_ops.link` are not listed: libbpf creates them only where
    ///   it is asked to.
    /// - `ebpf_struct_ops_map_at` returns the name of a map. BPF_MAP_CREATE takes type 26, keys of 4 bytes, one entry,
    ///   the descriptor of the object's types, and the numbers of the row.
    /// - `ebpf_struct_ops_value` returns the bytes of the value of a map; they are zero where descriptors go.
    /// - `ebpf_struct_ops_program_at` returns the name of a program of a map, in the order of the members. Load it with
    ///   the map's `struct_id` and its `member`, and write its descriptor at `offset` of a copy of the value. The value
    ///   goes to key 0. It registers the struct, where no link does.
    /// - Call it before `ebpf_leave_out`, which takes away programs that these maps may name. The object is unchanged.
    ///
    /// Numbers: 2, 3, 1200 to 1299.
    pub fn ebpf_struct_ops_maps(
        handle: *const ebpf_handle,
        file: *const u8,
        file_len: usize,
        btf: *const ebpf_btf,
        count: *mut usize,
    ) -> u32;

    /// `ebpf_struct_ops_map_at` of the header.
    pub fn ebpf_struct_ops_map_at(
        handle: *const ebpf_handle,
        index: usize,
        row: *mut ebpf_struct_ops_map,
    ) -> *const c_char;

    /// `ebpf_struct_ops_program_at` of the header.
    pub fn ebpf_struct_ops_program_at(
        handle: *const ebpf_handle,
        map: usize,
        index: usize,
        row: *mut ebpf_struct_ops_program,
    ) -> *const c_char;

    /// `ebpf_struct_ops_value` of the header.
    pub fn ebpf_struct_ops_value(handle: *const ebpf_handle, map: usize, len: *mut usize) -> *const u8;

    /// Relocates the functions to a kernel's types (CO-RE). `types` is raw BTF in the byte order that its magic number
    /// states. Numbers: 2, 3, 11, 12, 200 to 299.
    pub fn ebpf_relocate_types(handle: *mut ebpf_handle, types: *const u8, types_len: usize) -> u32;

    /// The same over types that were read. Numbers: 2, 3, 11, 12, 220 to 299.
    pub fn ebpf_relocate_types_with(handle: *mut ebpf_handle, btf: *const ebpf_btf) -> u32;

    /// Takes the list of the outcomes of all CO-RE relocations, in the order of .BTF.ext, also behind one that is
    /// refused. Call it before `ebpf_relocate_types`. The object is unchanged. `*count` is how many rows
    /// `ebpf_record_outcome_at` has then: it returns the name of the row's section.
    ///
    /// - `ebpf_relocate_types` refuses by the first row that is refused, else it writes the values. A section of
    ///   .BTF.ext without relocations and with a name that the file lacks is refused there, and has no row here.
    /// - An object without types or CO-RE relocations has no rows.
    ///
    /// Numbers: 2, 3, 200 to 219.
    pub fn ebpf_record_outcomes(
        handle: *const ebpf_handle,
        types: *const u8,
        types_len: usize,
        count: *mut usize,
    ) -> u32;

    /// The same over types that were read. Numbers: 2, 3.
    pub fn ebpf_record_outcomes_with(handle: *const ebpf_handle, btf: *const ebpf_btf, count: *mut usize) -> u32;

    /// `ebpf_record_outcome_at` of the header.
    pub fn ebpf_record_outcome_at(
        handle: *const ebpf_handle,
        index: usize,
        row: *mut ebpf_record_outcome,
    ) -> *const c_char;

    /// Judges the object by a kernel's types, as `ebpf check` does, and takes the list of the reasons for which
    /// programs break: first those of all programs, then those of each program, by their names in byte order. The
    /// number is 0 whatever the verdict is. `ebpf_reason_at` returns the name of the row's program, and that of its
    /// subject follows.
    ///
    /// - With EBPF_VERDICT_OK all passes succeed, given these types and a descriptor of each map. Each program then
    ///   reaches no poisoned slot and no call of what the kernel lacks. The kernel's verifier is not asked.
    /// - Externs without a type and kconfig externs count as found. Helpers and map types are known where the types
    ///   have enum bpf_func_id and enum bpf_map_type. Modules, and targets of freplace, are not looked at.
    /// - Sections with `?` are judged too: leave out what is not loaded (ebpf_leave_out).
    /// - Call it before the passes. The object is unchanged.
    ///
    /// Numbers: 2, 3.
    pub fn ebpf_check(handle: *const ebpf_handle, btf: *const ebpf_btf, summary: *mut ebpf_verdict_summary) -> u32;

    /// `ebpf_reason_at` of the header.
    pub fn ebpf_reason_at(handle: *const ebpf_handle, index: usize, row: *mut ebpf_reason) -> *const c_char;

    /// Takes the list of the slots whose own map has no row here, by their functions' sections and addresses, then by
    /// slot. `*count` is how many rows `ebpf_map_without_descriptor_at` has then: it returns the name of the row's map.
    ///
    /// - With none each slot that refers to a map gets the descriptor of its own map. So a loader that makes only the
    ///   maps that programs refer to calls it with no rows, and makes the maps of these names.
    /// - A slot's own map is that of its symbol, else the map of the symbol's section, as of a variable in .bss. A slot
    ///   that refers to a section without maps has none.
    /// - Call it before `ebpf_relocate_maps`. The object is unchanged.
    /// - Descriptors of the rows are not read. Names that the object lacks are passed over.
    ///
    /// Numbers: 2, 3, 6.
    pub fn ebpf_maps_without_descriptors(
        handle: *const ebpf_handle,
        rows: *const ebpf_descriptor,
        rows_len: usize,
        count: *mut usize,
    ) -> u32;

    /// `ebpf_map_without_descriptor_at` of the header.
    pub fn ebpf_map_without_descriptor_at(
        handle: *const ebpf_handle,
        index: usize,
        row: *mut ebpf_map_slot,
    ) -> *const c_char;

    /// Writes descriptors of maps into the slots that refer to them. A row whose name is no UTF-8 is refused before all
    /// other faults of the rows. Numbers: 2, 3, 6, 11, 12, 300 to 399.
    pub fn ebpf_relocate_maps(handle: *mut ebpf_handle, rows: *const ebpf_descriptor, rows_len: usize) -> u32;

    /// Finds the externs in a kernel's types and in its symbols, which are given as the text of /proc/kallsyms. Types
    /// of length 0 are none. A line that is no UTF-8 is refused if lines are needed. Numbers: 2, 3, 11, 12, 200 to 219,
    /// 400 to 499.
    pub fn ebpf_resolve_externs(
        handle: *mut ebpf_handle,
        types: *const u8,
        types_len: usize,
        symbols: *const u8,
        symbols_len: usize,
    ) -> u32;

    /// The same over types that were read. Numbers: 2, 3, 11, 12, 400 to 499.
    pub fn ebpf_resolve_externs_with(
        handle: *mut ebpf_handle,
        btf: *const ebpf_btf,
        symbols: *const u8,
        symbols_len: usize,
    ) -> u32;

    /// Sets `*wants` to 1 if finding the externs reads the kernel's symbols, else to 0: then give none, and don't read
    /// /proc/kallsyms, which takes long. It is 1 if the object has types, and an extern without a type that is not
    /// found yet. Numbers: 3.
    pub fn ebpf_wants_symbols(handle: *const ebpf_handle, wants: *mut u32) -> u32;

    /// Writes what is known of the externs into the slots that refer to them. Numbers: 2, 3, 11, 12, 500 to 599.
    pub fn ebpf_relocate_externs(handle: *mut ebpf_handle) -> u32;

    /// Links each program with the functions that it reaches. Numbers: 2, 3, 11, 600 to 699.
    pub fn ebpf_relocate_calls(handle: *mut ebpf_handle) -> u32;

    /// Takes the list of the copies of functions in the linked program of a name. The first is the program's own, at
    /// slot 0. One of each function that it reaches follows, in the order of their slots. `*count` is how many rows
    /// `ebpf_code_copy_at` has then: it returns the function's name.
    ///
    /// - Call it before `ebpf_relocate_calls`. Nothing is linked: the object is unchanged.
    /// - A program that can't be linked is refused as `ebpf_relocate_calls` refuses it, about the program. Other
    ///   programs are not looked at.
    ///
    /// Numbers: 2, 3, 4, 600 to 699.
    pub fn ebpf_link_map(handle: *const ebpf_handle, name: *const c_char, name_len: usize, count: *mut usize) -> u32;

    /// `ebpf_code_copy_at` of the header.
    pub fn ebpf_code_copy_at(handle: *const ebpf_handle, index: usize, row: *mut ebpf_code_copy) -> *const c_char;

    /// Lists the slots of the linked program of a name that refer to its copies: a row each, in the order of the slots.
    /// `*count` is how many. Call it before `ebpf_relocate_calls`. It refuses as `ebpf_link_map` does. Numbers: 1, 2,
    /// 3, 4, 600 to 699.
    pub fn ebpf_link_references(
        handle: *const ebpf_handle,
        name: *const c_char,
        name_len: usize,
        rows: *mut ebpf_code_reference,
        room: usize,
        count: *mut usize,
    ) -> u32;

    /// Opens the object of a file by strict parsing, and runs all of these passes over it. It gives out a handle as
    /// `ebpf_open` does, also where it refuses. The descriptors' names are looked at first, then the types are read,
    /// then the file. Rows that are not complete are refused (320, 321) before the first pass. `inputs` may be NULL:
    /// then there are none. They are refused as options are (90). Numbers: 2, 6, 90, 100 to 199, 200 to 299, .., 600 to
    /// 699.
    pub fn ebpf_prepare(
        file: *const u8,
        file_len: usize,
        inputs: *const ebpf_prepare_inputs,
        handle: *mut *mut ebpf_handle,
    ) -> u32;

    /// Runs the same passes over the object that the handle holds, of which no pass was made. Its values and sizes may
    /// be set before. So make the maps as `ebpf_maps` lists them, and prepare the same object with their descriptors.
    /// The names are looked at first, then the types are read. After a refusal the object is unchanged, and no pass was
    /// made. Numbers: 2, 3, 6, 11, 12, 90, 200 to 299, .., 600 to 699.
    pub fn ebpf_prepare_handle(handle: *mut ebpf_handle, inputs: *const ebpf_prepare_inputs) -> u32;
}

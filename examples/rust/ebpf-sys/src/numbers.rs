//! The numbers of the header.
// Made by tools/rust_sys.py of include/ebpf.h.

/// The version of this interface, 0.4.0, as major \* 1000000 + minor \* 1000 + patch. `ebpf_version_number` returns
/// that of the library.
pub const EBPF_VERSION_NUMBER: u32 = 4000;

/// A number of `enum ebpf_number`.
pub type ebpf_number = u32;

/// All is done and written.
pub const EBPF_DONE: u32 = 0;

/// A buffer is too small; the counts say how much is needed.
pub const EBPF_ROOM: u32 = 1;

/// Out of memory.
pub const EBPF_MEMORY: u32 = 2;

/// The handle has no object: it is NULL, or its file was refused; or the types are NULL.
pub const EBPF_CLOSED: u32 = 3;

/// No program has the name.
pub const EBPF_NO_PROGRAM: u32 = 4;

/// No map has the name.
pub const EBPF_NO_MAP: u32 = 5;

/// A name that is given is no UTF-8.
pub const EBPF_BAD_NAME: u32 = 6;

/// A row's value is not inside the bytes beside it; the lower layer alone.
pub const EBPF_BAD_VALUE: u32 = 7;

/// No kconfig extern has the name.
pub const EBPF_NO_EXTERN: u32 = 8;

/// The data has another length than that of the map.
pub const EBPF_WRONG_LENGTH: u32 = 9;

/// No symbol has the name, or its bytes are not inside the data of a map.
pub const EBPF_NO_VARIABLE: u32 = 10;

/// The pass is the last one that was made of the object.
pub const EBPF_PASS_MADE: u32 = 11;

/// A later pass was made of the object; for what sets something, any pass was made.
pub const EBPF_PASS_ORDER: u32 = 12;

/// A struct of options has a size or a value that this library does not know.
pub const EBPF_BAD_OPTIONS: u32 = 90;

/// No row has the index, or the list was not taken.
pub const EBPF_NO_ROW: u32 = 91;

/// The library has another version than the header.
pub const EBPF_OTHER_VERSION: u32 = 92;

/// The file is too short for its header.
pub const EBPF_PARSE_TOO_SHORT: u32 = 100;

/// The file does not begin as ELF does.
pub const EBPF_PARSE_BAD_MAGIC: u32 = 101;

/// The file is no ELF64.
pub const EBPF_PARSE_NOT_ELF64: u32 = 102;

/// The byte order is neither little nor big.
pub const EBPF_PARSE_BAD_BYTE_ORDER: u32 = 103;

/// The section table is not inside the file.
pub const EBPF_PARSE_BAD_SECTION_TABLE: u32 = 104;

/// A section is not inside the file.
pub const EBPF_PARSE_BAD_SECTION_RANGE: u32 = 105;

/// A string table can't be read.
pub const EBPF_PARSE_BAD_STRING_TABLE: u32 = 106;

/// The symbol table can't be read.
pub const EBPF_PARSE_BAD_SYMBOL_TABLE: u32 = 107;

/// A relocation table can't be read.
pub const EBPF_PARSE_BAD_RELOCATION_TABLE: u32 = 108;

/// Sections are numbered in the extended way.
pub const EBPF_PARSE_EXTENDED_NUMBERING: u32 = 109;

/// A section: the file is too short for its header.
pub const EBPF_PARSE_SECTION_TOO_SHORT: u32 = 110;

/// A section: the file does not begin as ELF does.
pub const EBPF_PARSE_SECTION_BAD_MAGIC: u32 = 111;

/// A section: the file is no ELF64.
pub const EBPF_PARSE_SECTION_NOT_ELF64: u32 = 112;

/// A section: the byte order is neither little nor big.
pub const EBPF_PARSE_SECTION_BAD_BYTE_ORDER: u32 = 113;

/// A section: the section table is not inside the file.
pub const EBPF_PARSE_SECTION_BAD_SECTION_TABLE: u32 = 114;

/// A section: a section is not inside the file.
pub const EBPF_PARSE_SECTION_BAD_SECTION_RANGE: u32 = 115;

/// A section: a string table can't be read.
pub const EBPF_PARSE_SECTION_BAD_STRING_TABLE: u32 = 116;

/// A section: the symbol table can't be read.
pub const EBPF_PARSE_SECTION_BAD_SYMBOL_TABLE: u32 = 117;

/// A section: a relocation table can't be read.
pub const EBPF_PARSE_SECTION_BAD_RELOCATION_TABLE: u32 = 118;

/// A section: sections are numbered in the extended way.
pub const EBPF_PARSE_SECTION_EXTENDED_NUMBERING: u32 = 119;

/// The object's types: the header of the types is not valid.
pub const EBPF_PARSE_TYPES_INVALID_HEADER: u32 = 120;

/// The object's types: a type can't be read.
pub const EBPF_PARSE_TYPES_INVALID_TYPE_INFO: u32 = 121;

/// The object's types: info entries can't be read.
pub const EBPF_PARSE_TYPES_INVALID_INFO: u32 = 122;

/// The object's types: a name is not inside the strings.
pub const EBPF_PARSE_TYPES_INVALID_STRING_OFFSET: u32 = 123;

/// The object's types: a CO-RE relocation has an unknown kind.
pub const EBPF_PARSE_TYPES_INVALID_RELOCATION_KIND: u32 = 124;

/// The object's types: a type is of another kind than wanted.
pub const EBPF_PARSE_TYPES_UNEXPECTED_BTF_TYPE: u32 = 125;

/// The object's types: a type id is unknown.
pub const EBPF_PARSE_TYPES_UNKNOWN_BTF_TYPE: u32 = 126;

/// The object's types: a type's name is unknown.
pub const EBPF_PARSE_TYPES_UNKNOWN_BTF_TYPE_NAME: u32 = 127;

/// The object's types: types refer to one another too deep.
pub const EBPF_PARSE_TYPES_MAXIMUM_TYPE_DEPTH: u32 = 128;

/// The object's types: a DATASEC can't be read.
pub const EBPF_PARSE_TYPES_INVALID_DATASEC: u32 = 129;

/// The object's types: a symbol's name can't be read.
pub const EBPF_PARSE_TYPES_INVALID_SYMBOL_NAME: u32 = 130;

/// The object's types: an inner map is pinned.
pub const EBPF_PARSE_TYPES_INNER_MAP_CANNOT_BE_PINNED: u32 = 131;

/// The object's types: maps of maps nest.
pub const EBPF_PARSE_TYPES_MULTI_LEVEL_MAP_IN_MAP_NOT_SUPPORTED: u32 = 132;

/// The object's types: the values of a map are not declared as such.
pub const EBPF_PARSE_TYPES_INVALID_VALUES_SPEC: u32 = 133;

/// The object's types: the types are too large.
pub const EBPF_PARSE_TYPES_TOO_LARGE: u32 = 134;

/// The license has no zero byte at its end.
pub const EBPF_PARSE_LICENSE_NOT_TERMINATED: u32 = 140;

/// The license can't be read.
pub const EBPF_PARSE_LICENSE: u32 = 141;

/// The kernel version is not 4 bytes.
pub const EBPF_PARSE_KERNEL_VERSION: u32 = 142;

/// A relocation without a target.
pub const EBPF_PARSE_RELOCATION_TARGET: u32 = 143;

/// The name of a section of code gives no program type; about the section.
pub const EBPF_PARSE_PROGRAM_SECTION: u32 = 144;

/// The code of a function is no multiple of 8 bytes.
pub const EBPF_PARSE_PROGRAM_CODE: u32 = 145;

/// The definition of a map can't be read; about the map.
pub const EBPF_PARSE_MAP_DEFINITION: u32 = 146;

/// Symbols conflict.
pub const EBPF_PARSE_SYMBOL_CONFLICT: u32 = 147;

/// A symbol is unknown.
pub const EBPF_PARSE_UNKNOWN_SYMBOL: u32 = 148;

/// A symbol has no bytes, or some outside its section; about the symbol.
pub const EBPF_PARSE_INVALID_SYMBOL: u32 = 149;

/// A value does not fit its variable or its map; about the variable.
pub const EBPF_PARSE_GLOBAL_DATA: u32 = 150;

/// No symbol has the name of the variable; about the variable.
pub const EBPF_PARSE_SYMBOL_NOT_FOUND: u32 = 151;

/// No map has the variable's section.
pub const EBPF_PARSE_MAP_NOT_FOUND: u32 = 152;

/// Kept, never returned.
pub const EBPF_PARSE_MAP_SYMBOL_NAME: u32 = 153;

/// No symbol is in a section; about the section.
pub const EBPF_PARSE_NO_SYMBOLS: u32 = 154;

/// The object has no types.
pub const EBPF_PARSE_NO_TYPES: u32 = 155;

/// The file is big-endian and has code: lenient parsing alone.
pub const EBPF_PARSE_BIG_ENDIAN_CODE: u32 = 156;

/// What is made of the file would pass the limit (max_bytes).
pub const EBPF_PARSE_TOO_LARGE: u32 = 157;

/// The file is for another machine than eBPF: lenient parsing alone.
pub const EBPF_PARSE_OTHER_MACHINE: u32 = 158;

/// The kernel's types: the header of the types is not valid.
pub const EBPF_TYPES_READ_INVALID_HEADER: u32 = 200;

/// The kernel's types: a type can't be read.
pub const EBPF_TYPES_READ_INVALID_TYPE_INFO: u32 = 201;

/// The kernel's types: info entries can't be read.
pub const EBPF_TYPES_READ_INVALID_INFO: u32 = 202;

/// The kernel's types: a name is not inside the strings.
pub const EBPF_TYPES_READ_INVALID_STRING_OFFSET: u32 = 203;

/// The kernel's types: a CO-RE relocation has an unknown kind.
pub const EBPF_TYPES_READ_INVALID_RELOCATION_KIND: u32 = 204;

/// The kernel's types: a type is of another kind than wanted.
pub const EBPF_TYPES_READ_UNEXPECTED_BTF_TYPE: u32 = 205;

/// The kernel's types: a type id is unknown.
pub const EBPF_TYPES_READ_UNKNOWN_BTF_TYPE: u32 = 206;

/// The kernel's types: a type's name is unknown.
pub const EBPF_TYPES_READ_UNKNOWN_BTF_TYPE_NAME: u32 = 207;

/// The kernel's types: types refer to one another too deep.
pub const EBPF_TYPES_READ_MAXIMUM_TYPE_DEPTH: u32 = 208;

/// The kernel's types: a DATASEC can't be read.
pub const EBPF_TYPES_READ_INVALID_DATASEC: u32 = 209;

/// The kernel's types: a symbol's name can't be read.
pub const EBPF_TYPES_READ_INVALID_SYMBOL_NAME: u32 = 210;

/// The kernel's types: an inner map is pinned.
pub const EBPF_TYPES_READ_INNER_MAP_CANNOT_BE_PINNED: u32 = 211;

/// The kernel's types: maps of maps nest.
pub const EBPF_TYPES_READ_MULTI_LEVEL_MAP_IN_MAP_NOT_SUPPORTED: u32 = 212;

/// The kernel's types: the values of a map are not declared as such.
pub const EBPF_TYPES_READ_INVALID_VALUES_SPEC: u32 = 213;

/// The kernel's types: the types are too large.
pub const EBPF_TYPES_READ_TOO_LARGE: u32 = 214;

/// CO-RE types: the header of the types is not valid.
pub const EBPF_TYPES_FAULT_INVALID_HEADER: u32 = 220;

/// CO-RE types: a type can't be read.
pub const EBPF_TYPES_FAULT_INVALID_TYPE_INFO: u32 = 221;

/// CO-RE types: info entries can't be read.
pub const EBPF_TYPES_FAULT_INVALID_INFO: u32 = 222;

/// CO-RE types: a name is not inside the strings.
pub const EBPF_TYPES_FAULT_INVALID_STRING_OFFSET: u32 = 223;

/// CO-RE types: a CO-RE relocation has an unknown kind.
pub const EBPF_TYPES_FAULT_INVALID_RELOCATION_KIND: u32 = 224;

/// CO-RE types: a type is of another kind than wanted.
pub const EBPF_TYPES_FAULT_UNEXPECTED_BTF_TYPE: u32 = 225;

/// CO-RE types: a type id is unknown.
pub const EBPF_TYPES_FAULT_UNKNOWN_BTF_TYPE: u32 = 226;

/// CO-RE types: a type's name is unknown.
pub const EBPF_TYPES_FAULT_UNKNOWN_BTF_TYPE_NAME: u32 = 227;

/// CO-RE types: types refer to one another too deep.
pub const EBPF_TYPES_FAULT_MAXIMUM_TYPE_DEPTH: u32 = 228;

/// CO-RE types: a DATASEC can't be read.
pub const EBPF_TYPES_FAULT_INVALID_DATASEC: u32 = 229;

/// CO-RE types: a symbol's name can't be read.
pub const EBPF_TYPES_FAULT_INVALID_SYMBOL_NAME: u32 = 230;

/// CO-RE types: an inner map is pinned.
pub const EBPF_TYPES_FAULT_INNER_MAP_CANNOT_BE_PINNED: u32 = 231;

/// CO-RE types: maps of maps nest.
pub const EBPF_TYPES_FAULT_MULTI_LEVEL_MAP_IN_MAP_NOT_SUPPORTED: u32 = 232;

/// CO-RE types: the values of a map are not declared as such.
pub const EBPF_TYPES_FAULT_INVALID_VALUES_SPEC: u32 = 233;

/// CO-RE types: the types are too large.
pub const EBPF_TYPES_FAULT_TOO_LARGE: u32 = 234;

/// No section has the name that CO-RE relocations are for.
pub const EBPF_TYPES_SECTION_NOT_FOUND: u32 = 240;

/// A CO-RE relocation is for an instruction of no function.
pub const EBPF_TYPES_FUNCTION_NOT_FOUND: u32 = 241;

/// An access string can't be read.
pub const EBPF_TYPES_ACCESS_STRING: u32 = 242;

/// A CO-RE relocation is at no instruction.
pub const EBPF_TYPES_INSTRUCTION_INDEX: u32 = 243;

/// Types of the kernel match and give different values.
pub const EBPF_TYPES_CONFLICTING_CANDIDATES: u32 = 244;

/// Types nest too deep.
pub const EBPF_TYPES_NESTING: u32 = 245;

/// An access string leads out of its type.
pub const EBPF_TYPES_ACCESS_INDEX: u32 = 246;

/// The kind of a CO-RE relocation does not fit its type.
pub const EBPF_TYPES_KIND_FOR_TYPE: u32 = 247;

/// An instruction can't take a value.
pub const EBPF_TYPES_INSTRUCTION: u32 = 248;

/// Kept, never returned.
pub const EBPF_TYPES_NO_TARGET: u32 = 249;

/// Maps: a relocation refers to an unknown symbol.
pub const EBPF_MAPS_UNKNOWN_SYMBOL: u32 = 300;

/// Maps: no descriptor is given for any map of the symbol's section.
pub const EBPF_MAPS_SECTION_NOT_FOUND: u32 = 301;

/// Maps: no function is where a reference leads.
pub const EBPF_MAPS_UNKNOWN_FUNCTION: u32 = 302;

/// Maps: func info does not fit its function.
pub const EBPF_MAPS_FUNCTION_INFO_MISMATCH: u32 = 303;

/// Maps: no function is where the program begins.
pub const EBPF_MAPS_UNKNOWN_PROGRAM: u32 = 304;

/// Maps: a relocation is at no instruction that can take it.
pub const EBPF_MAPS_INVALID_RELOCATION_OFFSET: u32 = 305;

/// Maps: the extern is unknown.
pub const EBPF_MAPS_EXTERN_NOT_FOUND: u32 = 306;

/// Maps: the extern was not found in the kernel.
pub const EBPF_MAPS_UNRESOLVABLE_SYMBOL: u32 = 307;

/// Maps: a symbol of code is of a kind that is not supported.
pub const EBPF_MAPS_UNSUPPORTED_TEXT_SYMBOL: u32 = 308;

/// Maps: line info does not fit its function.
pub const EBPF_MAPS_INVALID_LINE_INFO: u32 = 309;

/// Maps: the linked program is too long.
pub const EBPF_MAPS_PROGRAM_TOO_LONG: u32 = 310;

/// Maps: a place in a map is past 2,147,483,647.
pub const EBPF_MAPS_MAP_ADDRESS_OVERFLOW: u32 = 311;

/// Maps: no row names the map that a slot refers to; about the map.
pub const EBPF_MAPS_MISSING_DESCRIPTOR: u32 = 320;

/// Maps: the object has no map of a row's name; about the name.
pub const EBPF_MAPS_UNKNOWN_MAP: u32 = 321;

/// An extern has a type, and no kernel's types are given.
pub const EBPF_KSYMS_NO_KERNEL_TYPES: u32 = 400;

/// The kernel has no such variable.
pub const EBPF_KSYMS_VARIABLE_NOT_FOUND: u32 = 401;

/// The kernel's function has another signature.
pub const EBPF_KSYMS_FUNCTION_SIGNATURE: u32 = 402;

/// The kernel's variable has another type.
pub const EBPF_KSYMS_VARIABLE_TYPE: u32 = 403;

/// The type of an extern is neither a function nor a variable.
pub const EBPF_KSYMS_EXTERN_TYPE: u32 = 404;

/// The kernel has several of the name.
pub const EBPF_KSYMS_AMBIGUOUS: u32 = 405;

/// A line of the kernel's symbols is no UTF-8.
pub const EBPF_KSYMS_LINE_ACCESS: u32 = 406;

/// A line of the kernel's symbols can't be read; about what is wrong with it.
pub const EBPF_KSYMS_LINE: u32 = 407;

/// The kernel has no such function.
pub const EBPF_KSYMS_FUNCTION_NOT_FOUND: u32 = 408;

/// A type of an extern: the header of the types is not valid.
pub const EBPF_KSYMS_TYPES_INVALID_HEADER: u32 = 420;

/// A type of an extern: a type can't be read.
pub const EBPF_KSYMS_TYPES_INVALID_TYPE_INFO: u32 = 421;

/// A type of an extern: info entries can't be read.
pub const EBPF_KSYMS_TYPES_INVALID_INFO: u32 = 422;

/// A type of an extern: a name is not inside the strings.
pub const EBPF_KSYMS_TYPES_INVALID_STRING_OFFSET: u32 = 423;

/// A type of an extern: a CO-RE relocation has an unknown kind.
pub const EBPF_KSYMS_TYPES_INVALID_RELOCATION_KIND: u32 = 424;

/// A type of an extern: a type is of another kind than wanted.
pub const EBPF_KSYMS_TYPES_UNEXPECTED_BTF_TYPE: u32 = 425;

/// A type of an extern: a type id is unknown.
pub const EBPF_KSYMS_TYPES_UNKNOWN_BTF_TYPE: u32 = 426;

/// A type of an extern: a type's name is unknown.
pub const EBPF_KSYMS_TYPES_UNKNOWN_BTF_TYPE_NAME: u32 = 427;

/// A type of an extern: types refer to one another too deep.
pub const EBPF_KSYMS_TYPES_MAXIMUM_TYPE_DEPTH: u32 = 428;

/// A type of an extern: a DATASEC can't be read.
pub const EBPF_KSYMS_TYPES_INVALID_DATASEC: u32 = 429;

/// A type of an extern: a symbol's name can't be read.
pub const EBPF_KSYMS_TYPES_INVALID_SYMBOL_NAME: u32 = 430;

/// A type of an extern: an inner map is pinned.
pub const EBPF_KSYMS_TYPES_INNER_MAP_CANNOT_BE_PINNED: u32 = 431;

/// A type of an extern: maps of maps nest.
pub const EBPF_KSYMS_TYPES_MULTI_LEVEL_MAP_IN_MAP_NOT_SUPPORTED: u32 = 432;

/// A type of an extern: the values of a map are not declared as such.
pub const EBPF_KSYMS_TYPES_INVALID_VALUES_SPEC: u32 = 433;

/// A type of an extern: the types are too large.
pub const EBPF_KSYMS_TYPES_TOO_LARGE: u32 = 434;

/// Externs: a relocation refers to an unknown symbol.
pub const EBPF_EXTERNS_UNKNOWN_SYMBOL: u32 = 500;

/// Externs: no descriptor is given for any map of the symbol's section.
pub const EBPF_EXTERNS_SECTION_NOT_FOUND: u32 = 501;

/// Externs: no function is where a reference leads.
pub const EBPF_EXTERNS_UNKNOWN_FUNCTION: u32 = 502;

/// Externs: func info does not fit its function.
pub const EBPF_EXTERNS_FUNCTION_INFO_MISMATCH: u32 = 503;

/// Externs: no function is where the program begins.
pub const EBPF_EXTERNS_UNKNOWN_PROGRAM: u32 = 504;

/// Externs: a relocation is at no instruction that can take it.
pub const EBPF_EXTERNS_INVALID_RELOCATION_OFFSET: u32 = 505;

/// Externs: the extern is unknown.
pub const EBPF_EXTERNS_EXTERN_NOT_FOUND: u32 = 506;

/// Externs: the extern was not found in the kernel.
pub const EBPF_EXTERNS_UNRESOLVABLE_SYMBOL: u32 = 507;

/// Externs: a symbol of code is of a kind that is not supported.
pub const EBPF_EXTERNS_UNSUPPORTED_TEXT_SYMBOL: u32 = 508;

/// Externs: line info does not fit its function.
pub const EBPF_EXTERNS_INVALID_LINE_INFO: u32 = 509;

/// Externs: the linked program is too long.
pub const EBPF_EXTERNS_PROGRAM_TOO_LONG: u32 = 510;

/// Externs: a place in a map is past 2,147,483,647.
pub const EBPF_EXTERNS_MAP_ADDRESS_OVERFLOW: u32 = 511;

/// Calls: a relocation refers to an unknown symbol.
pub const EBPF_CALLS_UNKNOWN_SYMBOL: u32 = 600;

/// Calls: no descriptor is given for any map of the symbol's section.
pub const EBPF_CALLS_SECTION_NOT_FOUND: u32 = 601;

/// Calls: no function is where a reference leads.
pub const EBPF_CALLS_UNKNOWN_FUNCTION: u32 = 602;

/// Calls: func info does not fit its function.
pub const EBPF_CALLS_FUNCTION_INFO_MISMATCH: u32 = 603;

/// Calls: no function is where the program begins.
pub const EBPF_CALLS_UNKNOWN_PROGRAM: u32 = 604;

/// Calls: a relocation is at no instruction that can take it.
pub const EBPF_CALLS_INVALID_RELOCATION_OFFSET: u32 = 605;

/// Calls: the extern is unknown.
pub const EBPF_CALLS_EXTERN_NOT_FOUND: u32 = 606;

/// Calls: the extern was not found in the kernel.
pub const EBPF_CALLS_UNRESOLVABLE_SYMBOL: u32 = 607;

/// Calls: a symbol of code is of a kind that is not supported.
pub const EBPF_CALLS_UNSUPPORTED_TEXT_SYMBOL: u32 = 608;

/// Calls: line info does not fit its function.
pub const EBPF_CALLS_INVALID_LINE_INFO: u32 = 609;

/// Calls: the linked program is too long.
pub const EBPF_CALLS_PROGRAM_TOO_LONG: u32 = 610;

/// Calls: a place in a map is past 2,147,483,647.
pub const EBPF_CALLS_MAP_ADDRESS_OVERFLOW: u32 = 611;

/// Calls: no pass has written the call of an extern; about the extern.
pub const EBPF_CALLS_UNWRITTEN_EXTERN: u32 = 620;

/// Kernel types: the file is too short for its header.
pub const EBPF_KERNEL_TYPES_FILE_TOO_SHORT: u32 = 700;

/// Kernel types: the file does not begin as ELF does.
pub const EBPF_KERNEL_TYPES_FILE_BAD_MAGIC: u32 = 701;

/// Kernel types: the file is no ELF64.
pub const EBPF_KERNEL_TYPES_FILE_NOT_ELF64: u32 = 702;

/// Kernel types: the byte order is neither little nor big.
pub const EBPF_KERNEL_TYPES_FILE_BAD_BYTE_ORDER: u32 = 703;

/// Kernel types: the section table is not inside the file.
pub const EBPF_KERNEL_TYPES_FILE_BAD_SECTION_TABLE: u32 = 704;

/// Kernel types: a section is not inside the file.
pub const EBPF_KERNEL_TYPES_FILE_BAD_SECTION_RANGE: u32 = 705;

/// Kernel types: a string table can't be read.
pub const EBPF_KERNEL_TYPES_FILE_BAD_STRING_TABLE: u32 = 706;

/// Kernel types: the symbol table can't be read.
pub const EBPF_KERNEL_TYPES_FILE_BAD_SYMBOL_TABLE: u32 = 707;

/// Kernel types: a relocation table can't be read.
pub const EBPF_KERNEL_TYPES_FILE_BAD_RELOCATION_TABLE: u32 = 708;

/// Kernel types: sections are numbered in the extended way.
pub const EBPF_KERNEL_TYPES_FILE_EXTENDED_NUMBERING: u32 = 709;

/// Kernel types: the header of the types is not valid.
pub const EBPF_KERNEL_TYPES_READ_INVALID_HEADER: u32 = 720;

/// Kernel types: a type can't be read.
pub const EBPF_KERNEL_TYPES_READ_INVALID_TYPE_INFO: u32 = 721;

/// Kernel types: info entries can't be read.
pub const EBPF_KERNEL_TYPES_READ_INVALID_INFO: u32 = 722;

/// Kernel types: a name is not inside the strings.
pub const EBPF_KERNEL_TYPES_READ_INVALID_STRING_OFFSET: u32 = 723;

/// Kernel types: a CO-RE relocation has an unknown kind.
pub const EBPF_KERNEL_TYPES_READ_INVALID_RELOCATION_KIND: u32 = 724;

/// Kernel types: a type is of another kind than wanted.
pub const EBPF_KERNEL_TYPES_READ_UNEXPECTED_BTF_TYPE: u32 = 725;

/// Kernel types: a type id is unknown.
pub const EBPF_KERNEL_TYPES_READ_UNKNOWN_BTF_TYPE: u32 = 726;

/// Kernel types: a type's name is unknown.
pub const EBPF_KERNEL_TYPES_READ_UNKNOWN_BTF_TYPE_NAME: u32 = 727;

/// Kernel types: types refer to one another too deep.
pub const EBPF_KERNEL_TYPES_READ_MAXIMUM_TYPE_DEPTH: u32 = 728;

/// Kernel types: a DATASEC can't be read.
pub const EBPF_KERNEL_TYPES_READ_INVALID_DATASEC: u32 = 729;

/// Kernel types: a symbol's name can't be read.
pub const EBPF_KERNEL_TYPES_READ_INVALID_SYMBOL_NAME: u32 = 730;

/// Kernel types: an inner map is pinned.
pub const EBPF_KERNEL_TYPES_READ_INNER_MAP_CANNOT_BE_PINNED: u32 = 731;

/// Kernel types: maps of maps nest.
pub const EBPF_KERNEL_TYPES_READ_MULTI_LEVEL_MAP_IN_MAP_NOT_SUPPORTED: u32 = 732;

/// Kernel types: the values of a map are not declared as such.
pub const EBPF_KERNEL_TYPES_READ_INVALID_VALUES_SPEC: u32 = 733;

/// Kernel types: the types are too large.
pub const EBPF_KERNEL_TYPES_READ_TOO_LARGE: u32 = 734;

/// Kernel types: no section of the name has a size; about the section.
pub const EBPF_KERNEL_TYPES_NO_SECTION_SIZE: u32 = 740;

/// Kernel types: a section's entry names no variable; about what it names.
pub const EBPF_KERNEL_TYPES_NOT_A_VARIABLE: u32 = 741;

/// Kernel types: a global variable has no symbol; about the variable.
pub const EBPF_KERNEL_TYPES_NO_SYMBOL: u32 = 742;

/// Kernel types: the type of a kconfig extern has no size; about the extern.
pub const EBPF_KERNEL_TYPES_UNSUPPORTED_EXTERN: u32 = 743;

/// Ids, offsets or lengths pass 32 bits.
pub const EBPF_KERNEL_TYPES_TOO_LARGE: u32 = 744;

/// Initial values: the file is too short for its header.
pub const EBPF_INITIAL_SLOTS_FILE_TOO_SHORT: u32 = 800;

/// Initial values: the file does not begin as ELF does.
pub const EBPF_INITIAL_SLOTS_FILE_BAD_MAGIC: u32 = 801;

/// Initial values: the file is no ELF64.
pub const EBPF_INITIAL_SLOTS_FILE_NOT_ELF64: u32 = 802;

/// Initial values: the byte order is neither little nor big.
pub const EBPF_INITIAL_SLOTS_FILE_BAD_BYTE_ORDER: u32 = 803;

/// Initial values: the section table is not inside the file.
pub const EBPF_INITIAL_SLOTS_FILE_BAD_SECTION_TABLE: u32 = 804;

/// Initial values: a section is not inside the file.
pub const EBPF_INITIAL_SLOTS_FILE_BAD_SECTION_RANGE: u32 = 805;

/// Initial values: a string table can't be read.
pub const EBPF_INITIAL_SLOTS_FILE_BAD_STRING_TABLE: u32 = 806;

/// Initial values: the symbol table can't be read.
pub const EBPF_INITIAL_SLOTS_FILE_BAD_SYMBOL_TABLE: u32 = 807;

/// Initial values: a relocation table can't be read.
pub const EBPF_INITIAL_SLOTS_FILE_BAD_RELOCATION_TABLE: u32 = 808;

/// Initial values: sections are numbered in the extended way.
pub const EBPF_INITIAL_SLOTS_FILE_EXTENDED_NUMBERING: u32 = 809;

/// The object lacks a symbol.
pub const EBPF_INITIAL_SLOTS_UNKNOWN_SYMBOL: u32 = 820;

/// A place is in no map.
pub const EBPF_INITIAL_SLOTS_OUTSIDE_MAPS: u32 = 821;

/// The map holds neither maps nor programs.
pub const EBPF_INITIAL_SLOTS_UNSUPPORTED_MAP_TYPE: u32 = 822;

/// A value of a map of maps is not in .maps.
pub const EBPF_INITIAL_SLOTS_NOT_IN_MAPS: u32 = 823;

/// A hash of maps with keys of other than 4 bytes.
pub const EBPF_INITIAL_SLOTS_UNSUPPORTED_KEY_SIZE: u32 = 824;

/// A value is an unknown map.
pub const EBPF_INITIAL_SLOTS_UNKNOWN_MAP: u32 = 825;

/// A value is an unknown program.
pub const EBPF_INITIAL_SLOTS_UNKNOWN_PROGRAM: u32 = 826;

/// A value is not where the program of its name begins.
pub const EBPF_INITIAL_SLOTS_NOT_AN_ENTRY_POINT: u32 = 827;

/// The map's type does not end in `values`.
pub const EBPF_INITIAL_SLOTS_NO_VALUES: u32 = 828;

/// A place is before the map's `values`.
pub const EBPF_INITIAL_SLOTS_OUTSIDE_VALUES: u32 = 829;

/// A place is at no whole value.
pub const EBPF_INITIAL_SLOTS_MISALIGNED: u32 = 830;

/// An entry of .kconfig names no variable.
pub const EBPF_KCONFIG_NOT_A_VARIABLE: u32 = 900;

/// The name of a kconfig extern can't be read.
pub const EBPF_KCONFIG_UNREADABLE_NAME: u32 = 901;

/// The name of a kconfig extern begins neither with CONFIG_ nor with LINUX_.
pub const EBPF_KCONFIG_UNKNOWN_NAME: u32 = 902;

/// The type of a kconfig extern has no values of a configuration.
pub const EBPF_KCONFIG_UNSUPPORTED_TYPE: u32 = 903;

/// A kconfig extern has to have a value and is given none.
pub const EBPF_KCONFIG_NO_VALUE: u32 = 904;

/// The value of a kconfig extern has another size.
pub const EBPF_KCONFIG_WRONG_SIZE: u32 = 905;

/// The values of the kconfig externs together pass 32 bits.
pub const EBPF_KCONFIG_TOO_LARGE: u32 = 906;

/// What the configuration says of a kconfig extern is no value of its type.
pub const EBPF_KCONFIG_UNSUITED_VALUE: u32 = 907;

/// The number of a kconfig extern is out of the range of its type, or of 64 bits.
pub const EBPF_KCONFIG_VALUE_OUT_OF_RANGE: u32 = 908;

/// Least types: a CO-RE relocation asks for the kernel's id of a type.
pub const EBPF_LEAST_TYPES_RELOCATION: u32 = 1000;

/// Least types: an extern needs the kernel's id of its type.
pub const EBPF_LEAST_TYPES_EXTERN: u32 = 1001;

/// Least types: a program needs the kernel's id of what it is attached to.
pub const EBPF_LEAST_TYPES_TARGET: u32 = 1002;

/// Least types: the header of the types is not valid.
pub const EBPF_LEAST_TYPES_WRITE_INVALID_HEADER: u32 = 1020;

/// Least types: a type can't be read.
pub const EBPF_LEAST_TYPES_WRITE_INVALID_TYPE_INFO: u32 = 1021;

/// Least types: info entries can't be read.
pub const EBPF_LEAST_TYPES_WRITE_INVALID_INFO: u32 = 1022;

/// Least types: a name is not inside the strings.
pub const EBPF_LEAST_TYPES_WRITE_INVALID_STRING_OFFSET: u32 = 1023;

/// Least types: a CO-RE relocation has an unknown kind.
pub const EBPF_LEAST_TYPES_WRITE_INVALID_RELOCATION_KIND: u32 = 1024;

/// Least types: a type is of another kind than wanted.
pub const EBPF_LEAST_TYPES_WRITE_UNEXPECTED_BTF_TYPE: u32 = 1025;

/// Least types: a type id is unknown.
pub const EBPF_LEAST_TYPES_WRITE_UNKNOWN_BTF_TYPE: u32 = 1026;

/// Least types: a type's name is unknown.
pub const EBPF_LEAST_TYPES_WRITE_UNKNOWN_BTF_TYPE_NAME: u32 = 1027;

/// Least types: types refer to one another too deep.
pub const EBPF_LEAST_TYPES_WRITE_MAXIMUM_TYPE_DEPTH: u32 = 1028;

/// Least types: a DATASEC can't be read.
pub const EBPF_LEAST_TYPES_WRITE_INVALID_DATASEC: u32 = 1029;

/// Least types: a symbol's name can't be read.
pub const EBPF_LEAST_TYPES_WRITE_INVALID_SYMBOL_NAME: u32 = 1030;

/// Least types: an inner map is pinned.
pub const EBPF_LEAST_TYPES_WRITE_INNER_MAP_CANNOT_BE_PINNED: u32 = 1031;

/// Least types: maps of maps nest.
pub const EBPF_LEAST_TYPES_WRITE_MULTI_LEVEL_MAP_IN_MAP_NOT_SUPPORTED: u32 = 1032;

/// Least types: the values of a map are not declared as such.
pub const EBPF_LEAST_TYPES_WRITE_INVALID_VALUES_SPEC: u32 = 1033;

/// Least types: the types are too large.
pub const EBPF_LEAST_TYPES_WRITE_TOO_LARGE: u32 = 1034;

/// Completed maps: the file is too short for its header.
pub const EBPF_COMPLETED_MAPS_FILE_TOO_SHORT: u32 = 1100;

/// Completed maps: the file does not begin as ELF does.
pub const EBPF_COMPLETED_MAPS_FILE_BAD_MAGIC: u32 = 1101;

/// Completed maps: the file is no ELF64.
pub const EBPF_COMPLETED_MAPS_FILE_NOT_ELF64: u32 = 1102;

/// Completed maps: the byte order is neither little nor big.
pub const EBPF_COMPLETED_MAPS_FILE_BAD_BYTE_ORDER: u32 = 1103;

/// Completed maps: the section table is not inside the file.
pub const EBPF_COMPLETED_MAPS_FILE_BAD_SECTION_TABLE: u32 = 1104;

/// Completed maps: a section is not inside the file.
pub const EBPF_COMPLETED_MAPS_FILE_BAD_SECTION_RANGE: u32 = 1105;

/// Completed maps: a string table can't be read.
pub const EBPF_COMPLETED_MAPS_FILE_BAD_STRING_TABLE: u32 = 1106;

/// Completed maps: the symbol table can't be read.
pub const EBPF_COMPLETED_MAPS_FILE_BAD_SYMBOL_TABLE: u32 = 1107;

/// Completed maps: a relocation table can't be read.
pub const EBPF_COMPLETED_MAPS_FILE_BAD_RELOCATION_TABLE: u32 = 1108;

/// Completed maps: sections are numbered in the extended way.
pub const EBPF_COMPLETED_MAPS_FILE_EXTENDED_NUMBERING: u32 = 1109;

/// A map asks for a pinning that is neither 0 nor 1.
pub const EBPF_COMPLETED_MAPS_UNKNOWN_PINNING: u32 = 1120;

/// A map is a second arena.
pub const EBPF_COMPLETED_MAPS_SECOND_ARENA: u32 = 1121;

/// .addr_space.1 has variables, and no map is an arena.
pub const EBPF_COMPLETED_MAPS_NO_ARENA: u32 = 1122;

/// The arena has fewer bytes than .addr_space.1.
pub const EBPF_COMPLETED_MAPS_ARENA_TOO_SMALL: u32 = 1123;

/// Struct_ops: the file is too short for its header.
pub const EBPF_STRUCT_OPS_FILE_TOO_SHORT: u32 = 1200;

/// Struct_ops: the file does not begin as ELF does.
pub const EBPF_STRUCT_OPS_FILE_BAD_MAGIC: u32 = 1201;

/// Struct_ops: the file is no ELF64.
pub const EBPF_STRUCT_OPS_FILE_NOT_ELF64: u32 = 1202;

/// Struct_ops: the byte order is neither little nor big.
pub const EBPF_STRUCT_OPS_FILE_BAD_BYTE_ORDER: u32 = 1203;

/// Struct_ops: the section table is not inside the file.
pub const EBPF_STRUCT_OPS_FILE_BAD_SECTION_TABLE: u32 = 1204;

/// Struct_ops: a section is not inside the file.
pub const EBPF_STRUCT_OPS_FILE_BAD_SECTION_RANGE: u32 = 1205;

/// Struct_ops: a string table can't be read.
pub const EBPF_STRUCT_OPS_FILE_BAD_STRING_TABLE: u32 = 1206;

/// Struct_ops: the symbol table can't be read.
pub const EBPF_STRUCT_OPS_FILE_BAD_SYMBOL_TABLE: u32 = 1207;

/// Struct_ops: a relocation table can't be read.
pub const EBPF_STRUCT_OPS_FILE_BAD_RELOCATION_TABLE: u32 = 1208;

/// Struct_ops: sections are numbered in the extended way.
pub const EBPF_STRUCT_OPS_FILE_EXTENDED_NUMBERING: u32 = 1209;

/// The object has sections of struct_ops and no types.
pub const EBPF_STRUCT_OPS_NO_TYPES: u32 = 1220;

/// A section of struct_ops has no DATASEC of its name.
pub const EBPF_STRUCT_OPS_NO_DATASEC: u32 = 1221;

/// The kernel lacks a struct that a map of struct_ops wants.
pub const EBPF_STRUCT_OPS_NO_KERNEL_STRUCT: u32 = 1222;

/// The kernel's value of a map does not hold its struct.
pub const EBPF_STRUCT_OPS_NO_DATA_MEMBER: u32 = 1223;

/// Maps use a program for two structs or two members.
pub const EBPF_STRUCT_OPS_OTHER_USE: u32 = 1224;

/// An entry of a section of struct_ops names no variable.
pub const EBPF_STRUCT_OPS_NOT_A_VARIABLE: u32 = 1240;

/// The type of a variable of struct_ops is no struct.
pub const EBPF_STRUCT_OPS_NOT_A_STRUCT: u32 = 1241;

/// The struct of a variable of struct_ops has no name.
pub const EBPF_STRUCT_OPS_ANONYMOUS: u32 = 1242;

/// The section has no symbol of a variable of struct_ops.
pub const EBPF_STRUCT_OPS_NO_SYMBOL: u32 = 1243;

/// A variable of struct_ops passes the end of the section.
pub const EBPF_STRUCT_OPS_OUTSIDE_SECTION: u32 = 1244;

/// The object lacks the symbol of a relocation of struct_ops.
pub const EBPF_STRUCT_OPS_UNKNOWN_SYMBOL: u32 = 1260;

/// A relocation of struct_ops is in no variable.
pub const EBPF_STRUCT_OPS_OUTSIDE_VARIABLES: u32 = 1261;

/// No member begins at a relocation of struct_ops.
pub const EBPF_STRUCT_OPS_NO_MEMBER: u32 = 1262;

/// A relocation of struct_ops is at a member that points to no function.
pub const EBPF_STRUCT_OPS_NO_FUNCTION_POINTER: u32 = 1263;

/// The symbol of a relocation of struct_ops names no program.
pub const EBPF_STRUCT_OPS_UNKNOWN_PROGRAM: u32 = 1264;

/// A program at a member is in no section of struct_ops.
pub const EBPF_STRUCT_OPS_OTHER_PROGRAM: u32 = 1265;

/// The type of a member has no size.
pub const EBPF_STRUCT_OPS_UNKNOWN_SIZE: u32 = 1280;

/// A member is a bit field.
pub const EBPF_STRUCT_OPS_BIT_FIELD: u32 = 1281;

/// A member passes the end of its struct.
pub const EBPF_STRUCT_OPS_OUTSIDE_STRUCT: u32 = 1282;

/// The kernel's struct lacks a member that is not zero.
pub const EBPF_STRUCT_OPS_MISSING_MEMBER: u32 = 1283;

/// A member is of another kind in the kernel.
pub const EBPF_STRUCT_OPS_DIFFERENT_KINDS: u32 = 1284;

/// A member is a pointer to no program.
pub const EBPF_STRUCT_OPS_NOT_A_PROGRAM: u32 = 1285;

/// A member with a program points to no function in the kernel.
pub const EBPF_STRUCT_OPS_KERNEL_NO_FUNCTION: u32 = 1286;

/// A member is of another size in the kernel.
pub const EBPF_STRUCT_OPS_DIFFERENT_SIZES: u32 = 1287;

/// A member passes the end of the map's value in the kernel.
pub const EBPF_STRUCT_OPS_OUTSIDE_VALUE: u32 = 1288;

/// The numbers that an error states, added up in ebpf_refusal.has.
pub type ebpf_detail = u32;

/// `EBPF_HAS_SLOT` of \[`ebpf_detail`\].
pub const EBPF_HAS_SLOT: u32 = 1;

/// `EBPF_HAS_OFFSET` of \[`ebpf_detail`\].
pub const EBPF_HAS_OFFSET: u32 = 2;

/// `EBPF_HAS_SYMBOL` of \[`ebpf_detail`\].
pub const EBPF_HAS_SYMBOL: u32 = 4;

/// `EBPF_HAS_ADDRESS` of \[`ebpf_detail`\].
pub const EBPF_HAS_ADDRESS: u32 = 8;

/// `EBPF_HAS_OTHER_ADDRESS` of \[`ebpf_detail`\].
pub const EBPF_HAS_OTHER_ADDRESS: u32 = 16;

/// `EBPF_HAS_SECTION` of \[`ebpf_detail`\].
pub const EBPF_HAS_SECTION: u32 = 32;

/// `EBPF_HAS_SIZE` of \[`ebpf_detail`\].
pub const EBPF_HAS_SIZE: u32 = 64;

/// `EBPF_HAS_OTHER_SIZE` of \[`ebpf_detail`\].
pub const EBPF_HAS_OTHER_SIZE: u32 = 128;

/// `EBPF_HAS_TYPE` of \[`ebpf_detail`\].
pub const EBPF_HAS_TYPE: u32 = 256;

/// `EBPF_HAS_RELOCATION` of \[`ebpf_detail`\].
pub const EBPF_HAS_RELOCATION: u32 = 512;

/// `EBPF_HAS_INDEX` of \[`ebpf_detail`\].
pub const EBPF_HAS_INDEX: u32 = 1024;

/// `EBPF_HAS_COUNT` of \[`ebpf_detail`\].
pub const EBPF_HAS_COUNT: u32 = 2048;

/// `EBPF_HAS_KIND` of \[`ebpf_detail`\].
pub const EBPF_HAS_KIND: u32 = 4096;

/// A number of `enum ebpf_parsing`.
pub type ebpf_parsing = u32;

/// `EBPF_LENIENT` of \[`ebpf_parsing`\].
pub const EBPF_LENIENT: u32 = 0;

/// `EBPF_STRICT` of \[`ebpf_parsing`\].
pub const EBPF_STRICT: u32 = 1;

/// What a program's section name says, in the order of the library's list.
pub type ebpf_program_kind = u32;

/// `EBPF_KIND_KRETPROBE` of \[`ebpf_program_kind`\].
pub const EBPF_KIND_KRETPROBE: u32 = 0;

/// `EBPF_KIND_KPROBE` of \[`ebpf_program_kind`\].
pub const EBPF_KIND_KPROBE: u32 = 1;

/// `EBPF_KIND_UPROBE` of \[`ebpf_program_kind`\].
pub const EBPF_KIND_UPROBE: u32 = 2;

/// `EBPF_KIND_URETPROBE` of \[`ebpf_program_kind`\].
pub const EBPF_KIND_URETPROBE: u32 = 3;

/// `EBPF_KIND_TRACEPOINT` of \[`ebpf_program_kind`\].
pub const EBPF_KIND_TRACEPOINT: u32 = 4;

/// `EBPF_KIND_SOCKET_FILTER` of \[`ebpf_program_kind`\].
pub const EBPF_KIND_SOCKET_FILTER: u32 = 5;

/// `EBPF_KIND_XDP` of \[`ebpf_program_kind`\].
pub const EBPF_KIND_XDP: u32 = 6;

/// `EBPF_KIND_SK_MSG` of \[`ebpf_program_kind`\].
pub const EBPF_KIND_SK_MSG: u32 = 7;

/// `EBPF_KIND_SK_SKB` of \[`ebpf_program_kind`\].
pub const EBPF_KIND_SK_SKB: u32 = 8;

/// `EBPF_KIND_SOCK_OPS` of \[`ebpf_program_kind`\].
pub const EBPF_KIND_SOCK_OPS: u32 = 9;

/// `EBPF_KIND_SCHED_CLS` of \[`ebpf_program_kind`\].
pub const EBPF_KIND_SCHED_CLS: u32 = 10;

/// `EBPF_KIND_CGROUP_SKB` of \[`ebpf_program_kind`\].
pub const EBPF_KIND_CGROUP_SKB: u32 = 11;

/// `EBPF_KIND_CGROUP_SOCK_ADDR` of \[`ebpf_program_kind`\].
pub const EBPF_KIND_CGROUP_SOCK_ADDR: u32 = 12;

/// `EBPF_KIND_CGROUP_SYSCTL` of \[`ebpf_program_kind`\].
pub const EBPF_KIND_CGROUP_SYSCTL: u32 = 13;

/// `EBPF_KIND_CGROUP_SOCKOPT` of \[`ebpf_program_kind`\].
pub const EBPF_KIND_CGROUP_SOCKOPT: u32 = 14;

/// `EBPF_KIND_LIRC_MODE2` of \[`ebpf_program_kind`\].
pub const EBPF_KIND_LIRC_MODE2: u32 = 15;

/// `EBPF_KIND_PERF_EVENT` of \[`ebpf_program_kind`\].
pub const EBPF_KIND_PERF_EVENT: u32 = 16;

/// `EBPF_KIND_RAW_TRACEPOINT` of \[`ebpf_program_kind`\].
pub const EBPF_KIND_RAW_TRACEPOINT: u32 = 17;

/// `EBPF_KIND_LSM` of \[`ebpf_program_kind`\].
pub const EBPF_KIND_LSM: u32 = 18;

/// `EBPF_KIND_LSM_CGROUP` of \[`ebpf_program_kind`\].
pub const EBPF_KIND_LSM_CGROUP: u32 = 19;

/// `EBPF_KIND_BTF_TRACEPOINT` of \[`ebpf_program_kind`\].
pub const EBPF_KIND_BTF_TRACEPOINT: u32 = 20;

/// `EBPF_KIND_FENTRY` of \[`ebpf_program_kind`\].
pub const EBPF_KIND_FENTRY: u32 = 21;

/// `EBPF_KIND_FEXIT` of \[`ebpf_program_kind`\].
pub const EBPF_KIND_FEXIT: u32 = 22;

/// `EBPF_KIND_FLOW_DISSECTOR` of \[`ebpf_program_kind`\].
pub const EBPF_KIND_FLOW_DISSECTOR: u32 = 23;

/// `EBPF_KIND_EXTENSION` of \[`ebpf_program_kind`\].
pub const EBPF_KIND_EXTENSION: u32 = 24;

/// `EBPF_KIND_SK_LOOKUP` of \[`ebpf_program_kind`\].
pub const EBPF_KIND_SK_LOOKUP: u32 = 25;

/// `EBPF_KIND_SK_REUSEPORT` of \[`ebpf_program_kind`\].
pub const EBPF_KIND_SK_REUSEPORT: u32 = 26;

/// `EBPF_KIND_CGROUP_SOCK` of \[`ebpf_program_kind`\].
pub const EBPF_KIND_CGROUP_SOCK: u32 = 27;

/// `EBPF_KIND_CGROUP_DEVICE` of \[`ebpf_program_kind`\].
pub const EBPF_KIND_CGROUP_DEVICE: u32 = 28;

/// `EBPF_KIND_ITER` of \[`ebpf_program_kind`\].
pub const EBPF_KIND_ITER: u32 = 29;

/// A name that says none of these: lenient parsing alone.
pub const EBPF_KIND_OTHER: u32 = 30;

/// Flags of a program.
pub type ebpf_program_flag = u32;

/// `EBPF_SLEEPABLE` of \[`ebpf_program_flag`\].
pub const EBPF_SLEEPABLE: u32 = 1;

/// Uprobe.multi, uretprobe.multi.
pub const EBPF_MULTI: u32 = 2;

/// `EBPF_FRAGS` of \[`ebpf_program_flag`\].
pub const EBPF_FRAGS: u32 = 4;

/// Loaded with the id of a type of what it is attached to.
pub const EBPF_TARGET: u32 = 8;

/// `?` before its section's name: loaded only where it is asked for.
pub const EBPF_OPTIONAL: u32 = 16;

/// In the place of an attach type: a program of the kind is loaded with none (0 for BPF_PROG_LOAD).
pub const EBPF_NO_ATTACH_TYPE: u32 = 0xffffffff;

/// What the section that declares a map is for.
pub type ebpf_section_kind = u32;

/// `EBPF_SECTION_NONE` of \[`ebpf_section_kind`\].
pub const EBPF_SECTION_NONE: u32 = 0;

/// `EBPF_SECTION_MAPS` of \[`ebpf_section_kind`\].
pub const EBPF_SECTION_MAPS: u32 = 1;

/// `EBPF_SECTION_BTF_MAPS` of \[`ebpf_section_kind`\].
pub const EBPF_SECTION_BTF_MAPS: u32 = 2;

/// `EBPF_SECTION_DATA` of \[`ebpf_section_kind`\].
pub const EBPF_SECTION_DATA: u32 = 4;

/// `EBPF_SECTION_RODATA` of \[`ebpf_section_kind`\].
pub const EBPF_SECTION_RODATA: u32 = 5;

/// `EBPF_SECTION_BSS` of \[`ebpf_section_kind`\].
pub const EBPF_SECTION_BSS: u32 = 6;

/// What is known of the type that a program is attached to.
pub type ebpf_target_answer = u32;

/// Such programs are loaded without the id of a type.
pub const EBPF_TARGET_NOT_WANTED: u32 = 0;

/// They are loaded with one, and the section's name has no name of a target.
pub const EBPF_TARGET_UNNAMED: u32 = 1;

/// `*type_id` is the type's.
pub const EBPF_TARGET_FOUND: u32 = 2;

/// The types have none of the name.
pub const EBPF_TARGET_NOT_FOUND: u32 = 3;

/// What a kconfig extern holds.
pub type ebpf_kconfig_kind = u32;

/// 1 byte: 1 for y, 0 for n.
pub const EBPF_EXTERN_BOOL: u32 = 0;

/// 0 for n, 1 for y, 2 for m.
pub const EBPF_EXTERN_TRISTATE: u32 = 1;

/// 1 byte: a number, or the letter.
pub const EBPF_EXTERN_CHAR: u32 = 2;

/// 2, 4 or 8 bytes.
pub const EBPF_EXTERN_INTEGER: u32 = 3;

/// An array of bytes: a string with a zero byte.
pub const EBPF_EXTERN_STRING: u32 = 4;

/// The outcome of a CO-RE relocation over a kernel's types; the names of this part call it a record.
pub type ebpf_record_result = u32;

/// Its instruction gets `value`: also the 0 that says that something is not there.
pub const EBPF_RECORD_VALUE: u32 = 0;

/// There is no value: its instruction fails if it is reached; `absence` says why.
pub const EBPF_RECORD_ABSENT: u32 = 1;

/// It can't be applied, and ebpf_relocate_types refuses by the number `fault`.
pub const EBPF_RECORD_REFUSED: u32 = 2;

/// What a kernel's types lack.
pub type ebpf_absence = u32;

/// Nothing.
pub const EBPF_ABSENT_NONE: u32 = 0;

/// A type of the kind and the name.
pub const EBPF_ABSENT_TYPE: u32 = 1;

/// Types have the kind and the name; none is compatible with the object's own.
pub const EBPF_ABSENT_TYPE_KIND: u32 = 2;

/// A member of a name on the way to the field, or an element of a number.
pub const EBPF_ABSENT_MEMBER: u32 = 3;

/// A member has the name; its type is not compatible with the object's own.
pub const EBPF_ABSENT_MEMBER_KIND: u32 = 4;

/// A variant of the name.
pub const EBPF_ABSENT_ENUMERATOR: u32 = 5;

/// The field is there, and what is asked of it can't be had.
pub const EBPF_ABSENT_VALUE: u32 = 6;

/// Whether an object runs on a kernel, by the types of both.
pub type ebpf_verdict = u32;

/// All passes succeed, and no program has a reason to break.
pub const EBPF_VERDICT_OK: u32 = 0;

/// There is such a reason.
pub const EBPF_VERDICT_BREAKS: u32 = 1;

/// Why programs break on a kernel.
pub type ebpf_reason_kind = u32;

/// A section of CO-RE relocations has none.
pub const EBPF_REASON_EMPTY_SECTION: u32 = 1;

/// The kernel lacks the extern `subject`, or has another of the name: `fault`.
pub const EBPF_REASON_EXTERN: u32 = 2;

/// A pass before linking refuses the object by the number `fault`, about `subject`.
pub const EBPF_REASON_PASS: u32 = 3;

/// The CO-RE relocation `relocation` is refused by the number `fault`.
pub const EBPF_REASON_RELOCATION: u32 = 4;

/// It can't be linked: the number `fault`, about the function `subject`.
pub const EBPF_REASON_LINKING: u32 = 5;

/// It reaches the slot, and the kernel lacks what `relocation` asks for.
pub const EBPF_REASON_POISONED: u32 = 6;

/// It reaches the slot, and the kernel lacks the helper of `number` (enum bpf_func_id).
pub const EBPF_REASON_HELPER: u32 = 7;

/// It reaches the slot, and the kernel lacks the weak extern `subject` that is called.
pub const EBPF_REASON_FUNCTION: u32 = 8;

/// The kernel lacks the type `number` of the map `subject` that the slot refers to.
pub const EBPF_REASON_MAP_TYPE: u32 = 9;

/// The types have no `subject` that it is attached to; it doesn't break by this alone.
pub const EBPF_REASON_TARGET: u32 = 10;

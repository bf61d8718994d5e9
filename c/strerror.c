/* Made by tools/c_layer.py of include/ebpf.h: what its numbers say. */
#include "ebpf.h"

const char *ebpf_strerror(uint32_t number)
{
	switch (number) {
	case EBPF_DONE:
		return "all is done and written";
	case EBPF_ROOM:
		return "a buffer is too small; the counts say how much is needed";
	case EBPF_MEMORY:
		return "out of memory";
	case EBPF_CLOSED:
		return "the handle has no object: it is NULL, or its file was refused; or the types are NULL";
	case EBPF_NO_PROGRAM:
		return "no program has the name";
	case EBPF_NO_MAP:
		return "no map has the name";
	case EBPF_BAD_NAME:
		return "a name that is given is no UTF-8";
	case EBPF_BAD_VALUE:
		return "a row's value is not inside the bytes beside it; the lower layer alone";
	case EBPF_NO_EXTERN:
		return "no kconfig extern has the name";
	case EBPF_WRONG_LENGTH:
		return "the data has another length than that of the map";
	case EBPF_NO_VARIABLE:
		return "no symbol has the name, or its bytes are not inside the data of a map";
	case EBPF_PASS_MADE:
		return "the pass is the last one that was made of the object";
	case EBPF_PASS_ORDER:
		return "a later pass was made of the object; for what sets something, any pass was made";
	case EBPF_BAD_OPTIONS:
		return "a struct of options has a size or a value that this library does not know";
	case EBPF_NO_ROW:
		return "no row has the index, or the list was not taken";
	case EBPF_OTHER_VERSION:
		return "the library has another version than the header";
	case EBPF_PARSE_TOO_SHORT:
		return "the file is too short for its header";
	case EBPF_PARSE_BAD_MAGIC:
		return "the file does not begin as ELF does";
	case EBPF_PARSE_NOT_ELF64:
		return "the file is no ELF64";
	case EBPF_PARSE_BAD_BYTE_ORDER:
		return "the byte order is neither little nor big";
	case EBPF_PARSE_BAD_SECTION_TABLE:
		return "the section table is not inside the file";
	case EBPF_PARSE_BAD_SECTION_RANGE:
		return "a section is not inside the file";
	case EBPF_PARSE_BAD_STRING_TABLE:
		return "a string table can't be read";
	case EBPF_PARSE_BAD_SYMBOL_TABLE:
		return "the symbol table can't be read";
	case EBPF_PARSE_BAD_RELOCATION_TABLE:
		return "a relocation table can't be read";
	case EBPF_PARSE_EXTENDED_NUMBERING:
		return "sections are numbered in the extended way";
	case EBPF_PARSE_SECTION_TOO_SHORT:
		return "a section: the file is too short for its header";
	case EBPF_PARSE_SECTION_BAD_MAGIC:
		return "a section: the file does not begin as ELF does";
	case EBPF_PARSE_SECTION_NOT_ELF64:
		return "a section: the file is no ELF64";
	case EBPF_PARSE_SECTION_BAD_BYTE_ORDER:
		return "a section: the byte order is neither little nor big";
	case EBPF_PARSE_SECTION_BAD_SECTION_TABLE:
		return "a section: the section table is not inside the file";
	case EBPF_PARSE_SECTION_BAD_SECTION_RANGE:
		return "a section: a section is not inside the file";
	case EBPF_PARSE_SECTION_BAD_STRING_TABLE:
		return "a section: a string table can't be read";
	case EBPF_PARSE_SECTION_BAD_SYMBOL_TABLE:
		return "a section: the symbol table can't be read";
	case EBPF_PARSE_SECTION_BAD_RELOCATION_TABLE:
		return "a section: a relocation table can't be read";
	case EBPF_PARSE_SECTION_EXTENDED_NUMBERING:
		return "a section: sections are numbered in the extended way";
	case EBPF_PARSE_TYPES_INVALID_HEADER:
		return "the object's types: the header of the types is not valid";
	case EBPF_PARSE_TYPES_INVALID_TYPE_INFO:
		return "the object's types: a type can't be read";
	case EBPF_PARSE_TYPES_INVALID_INFO:
		return "the object's types: info entries can't be read";
	case EBPF_PARSE_TYPES_INVALID_STRING_OFFSET:
		return "the object's types: a name is not inside the strings";
	case EBPF_PARSE_TYPES_INVALID_RELOCATION_KIND:
		return "the object's types: a CO-RE relocation has an unknown kind";
	case EBPF_PARSE_TYPES_UNEXPECTED_BTF_TYPE:
		return "the object's types: a type is of another kind than wanted";
	case EBPF_PARSE_TYPES_UNKNOWN_BTF_TYPE:
		return "the object's types: a type id is unknown";
	case EBPF_PARSE_TYPES_UNKNOWN_BTF_TYPE_NAME:
		return "the object's types: a type's name is unknown";
	case EBPF_PARSE_TYPES_MAXIMUM_TYPE_DEPTH:
		return "the object's types: types refer to one another too deep";
	case EBPF_PARSE_TYPES_INVALID_DATASEC:
		return "the object's types: a DATASEC can't be read";
	case EBPF_PARSE_TYPES_INVALID_SYMBOL_NAME:
		return "the object's types: a symbol's name can't be read";
	case EBPF_PARSE_TYPES_INNER_MAP_CANNOT_BE_PINNED:
		return "the object's types: an inner map is pinned";
	case EBPF_PARSE_TYPES_MULTI_LEVEL_MAP_IN_MAP_NOT_SUPPORTED:
		return "the object's types: maps of maps nest";
	case EBPF_PARSE_TYPES_INVALID_VALUES_SPEC:
		return "the object's types: the values of a map are not declared as such";
	case EBPF_PARSE_TYPES_TOO_LARGE:
		return "the object's types: the types are too large";
	case EBPF_PARSE_LICENSE_NOT_TERMINATED:
		return "the license has no zero byte at its end";
	case EBPF_PARSE_LICENSE:
		return "the license can't be read";
	case EBPF_PARSE_KERNEL_VERSION:
		return "the kernel version is not 4 bytes";
	case EBPF_PARSE_RELOCATION_TARGET:
		return "a relocation without a target";
	case EBPF_PARSE_PROGRAM_SECTION:
		return "the name of a section of code gives no program type; about the section";
	case EBPF_PARSE_PROGRAM_CODE:
		return "the code of a function is no multiple of 8 bytes";
	case EBPF_PARSE_MAP_DEFINITION:
		return "the definition of a map can't be read; about the map";
	case EBPF_PARSE_SYMBOL_CONFLICT:
		return "symbols conflict";
	case EBPF_PARSE_UNKNOWN_SYMBOL:
		return "a symbol is unknown";
	case EBPF_PARSE_INVALID_SYMBOL:
		return "a symbol has no bytes, or some outside its section; about the symbol";
	case EBPF_PARSE_GLOBAL_DATA:
		return "a value does not fit its variable or its map; about the variable";
	case EBPF_PARSE_SYMBOL_NOT_FOUND:
		return "no symbol has the name of the variable; about the variable";
	case EBPF_PARSE_MAP_NOT_FOUND:
		return "no map has the variable's section";
	case EBPF_PARSE_MAP_SYMBOL_NAME:
		return "kept, never returned";
	case EBPF_PARSE_NO_SYMBOLS:
		return "no symbol is in a section; about the section";
	case EBPF_PARSE_NO_TYPES:
		return "the object has no types";
	case EBPF_PARSE_BIG_ENDIAN_CODE:
		return "the file is big-endian and has code: lenient parsing alone";
	case EBPF_PARSE_TOO_LARGE:
		return "what is made of the file would pass the limit (max_bytes)";
	case EBPF_PARSE_OTHER_MACHINE:
		return "the file is for another machine than eBPF: lenient parsing alone";
	case EBPF_TYPES_READ_INVALID_HEADER:
		return "the kernel's types: the header of the types is not valid";
	case EBPF_TYPES_READ_INVALID_TYPE_INFO:
		return "the kernel's types: a type can't be read";
	case EBPF_TYPES_READ_INVALID_INFO:
		return "the kernel's types: info entries can't be read";
	case EBPF_TYPES_READ_INVALID_STRING_OFFSET:
		return "the kernel's types: a name is not inside the strings";
	case EBPF_TYPES_READ_INVALID_RELOCATION_KIND:
		return "the kernel's types: a CO-RE relocation has an unknown kind";
	case EBPF_TYPES_READ_UNEXPECTED_BTF_TYPE:
		return "the kernel's types: a type is of another kind than wanted";
	case EBPF_TYPES_READ_UNKNOWN_BTF_TYPE:
		return "the kernel's types: a type id is unknown";
	case EBPF_TYPES_READ_UNKNOWN_BTF_TYPE_NAME:
		return "the kernel's types: a type's name is unknown";
	case EBPF_TYPES_READ_MAXIMUM_TYPE_DEPTH:
		return "the kernel's types: types refer to one another too deep";
	case EBPF_TYPES_READ_INVALID_DATASEC:
		return "the kernel's types: a DATASEC can't be read";
	case EBPF_TYPES_READ_INVALID_SYMBOL_NAME:
		return "the kernel's types: a symbol's name can't be read";
	case EBPF_TYPES_READ_INNER_MAP_CANNOT_BE_PINNED:
		return "the kernel's types: an inner map is pinned";
	case EBPF_TYPES_READ_MULTI_LEVEL_MAP_IN_MAP_NOT_SUPPORTED:
		return "the kernel's types: maps of maps nest";
	case EBPF_TYPES_READ_INVALID_VALUES_SPEC:
		return "the kernel's types: the values of a map are not declared as such";
	case EBPF_TYPES_READ_TOO_LARGE:
		return "the kernel's types: the types are too large";
	case EBPF_TYPES_FAULT_INVALID_HEADER:
		return "CO-RE types: the header of the types is not valid";
	case EBPF_TYPES_FAULT_INVALID_TYPE_INFO:
		return "CO-RE types: a type can't be read";
	case EBPF_TYPES_FAULT_INVALID_INFO:
		return "CO-RE types: info entries can't be read";
	case EBPF_TYPES_FAULT_INVALID_STRING_OFFSET:
		return "CO-RE types: a name is not inside the strings";
	case EBPF_TYPES_FAULT_INVALID_RELOCATION_KIND:
		return "CO-RE types: a CO-RE relocation has an unknown kind";
	case EBPF_TYPES_FAULT_UNEXPECTED_BTF_TYPE:
		return "CO-RE types: a type is of another kind than wanted";
	case EBPF_TYPES_FAULT_UNKNOWN_BTF_TYPE:
		return "CO-RE types: a type id is unknown";
	case EBPF_TYPES_FAULT_UNKNOWN_BTF_TYPE_NAME:
		return "CO-RE types: a type's name is unknown";
	case EBPF_TYPES_FAULT_MAXIMUM_TYPE_DEPTH:
		return "CO-RE types: types refer to one another too deep";
	case EBPF_TYPES_FAULT_INVALID_DATASEC:
		return "CO-RE types: a DATASEC can't be read";
	case EBPF_TYPES_FAULT_INVALID_SYMBOL_NAME:
		return "CO-RE types: a symbol's name can't be read";
	case EBPF_TYPES_FAULT_INNER_MAP_CANNOT_BE_PINNED:
		return "CO-RE types: an inner map is pinned";
	case EBPF_TYPES_FAULT_MULTI_LEVEL_MAP_IN_MAP_NOT_SUPPORTED:
		return "CO-RE types: maps of maps nest";
	case EBPF_TYPES_FAULT_INVALID_VALUES_SPEC:
		return "CO-RE types: the values of a map are not declared as such";
	case EBPF_TYPES_FAULT_TOO_LARGE:
		return "CO-RE types: the types are too large";
	case EBPF_TYPES_SECTION_NOT_FOUND:
		return "no section has the name that CO-RE relocations are for";
	case EBPF_TYPES_FUNCTION_NOT_FOUND:
		return "a CO-RE relocation is for an instruction of no function";
	case EBPF_TYPES_ACCESS_STRING:
		return "an access string can't be read";
	case EBPF_TYPES_INSTRUCTION_INDEX:
		return "a CO-RE relocation is at no instruction";
	case EBPF_TYPES_CONFLICTING_CANDIDATES:
		return "types of the kernel match and give different values";
	case EBPF_TYPES_NESTING:
		return "types nest too deep";
	case EBPF_TYPES_ACCESS_INDEX:
		return "an access string leads out of its type";
	case EBPF_TYPES_KIND_FOR_TYPE:
		return "the kind of a CO-RE relocation does not fit its type";
	case EBPF_TYPES_INSTRUCTION:
		return "an instruction can't take a value";
	case EBPF_TYPES_NO_TARGET:
		return "kept, never returned";
	case EBPF_MAPS_UNKNOWN_SYMBOL:
		return "maps: a relocation refers to an unknown symbol";
	case EBPF_MAPS_SECTION_NOT_FOUND:
		return "maps: no descriptor is given for any map of the symbol's section";
	case EBPF_MAPS_UNKNOWN_FUNCTION:
		return "maps: no function is where a reference leads";
	case EBPF_MAPS_FUNCTION_INFO_MISMATCH:
		return "maps: func info does not fit its function";
	case EBPF_MAPS_UNKNOWN_PROGRAM:
		return "maps: no function is where the program begins";
	case EBPF_MAPS_INVALID_RELOCATION_OFFSET:
		return "maps: a relocation is at no instruction that can take it";
	case EBPF_MAPS_EXTERN_NOT_FOUND:
		return "maps: the extern is unknown";
	case EBPF_MAPS_UNRESOLVABLE_SYMBOL:
		return "maps: the extern was not found in the kernel";
	case EBPF_MAPS_UNSUPPORTED_TEXT_SYMBOL:
		return "maps: a symbol of code is of a kind that is not supported";
	case EBPF_MAPS_INVALID_LINE_INFO:
		return "maps: line info does not fit its function";
	case EBPF_MAPS_PROGRAM_TOO_LONG:
		return "maps: the linked program is too long";
	case EBPF_MAPS_MAP_ADDRESS_OVERFLOW:
		return "maps: a place in a map is past 2,147,483,647";
	case EBPF_MAPS_MISSING_DESCRIPTOR:
		return "maps: no row names the map that a slot refers to; about the map";
	case EBPF_MAPS_UNKNOWN_MAP:
		return "maps: the object has no map of a row's name; about the name";
	case EBPF_KSYMS_NO_KERNEL_TYPES:
		return "an extern has a type, and no kernel's types are given";
	case EBPF_KSYMS_VARIABLE_NOT_FOUND:
		return "the kernel has no such variable";
	case EBPF_KSYMS_FUNCTION_SIGNATURE:
		return "the kernel's function has another signature";
	case EBPF_KSYMS_VARIABLE_TYPE:
		return "the kernel's variable has another type";
	case EBPF_KSYMS_EXTERN_TYPE:
		return "the type of an extern is neither a function nor a variable";
	case EBPF_KSYMS_AMBIGUOUS:
		return "the kernel has several of the name";
	case EBPF_KSYMS_LINE_ACCESS:
		return "a line of the kernel's symbols is no UTF-8";
	case EBPF_KSYMS_LINE:
		return "a line of the kernel's symbols can't be read; about what is wrong with it";
	case EBPF_KSYMS_FUNCTION_NOT_FOUND:
		return "the kernel has no such function";
	case EBPF_KSYMS_TYPES_INVALID_HEADER:
		return "a type of an extern: the header of the types is not valid";
	case EBPF_KSYMS_TYPES_INVALID_TYPE_INFO:
		return "a type of an extern: a type can't be read";
	case EBPF_KSYMS_TYPES_INVALID_INFO:
		return "a type of an extern: info entries can't be read";
	case EBPF_KSYMS_TYPES_INVALID_STRING_OFFSET:
		return "a type of an extern: a name is not inside the strings";
	case EBPF_KSYMS_TYPES_INVALID_RELOCATION_KIND:
		return "a type of an extern: a CO-RE relocation has an unknown kind";
	case EBPF_KSYMS_TYPES_UNEXPECTED_BTF_TYPE:
		return "a type of an extern: a type is of another kind than wanted";
	case EBPF_KSYMS_TYPES_UNKNOWN_BTF_TYPE:
		return "a type of an extern: a type id is unknown";
	case EBPF_KSYMS_TYPES_UNKNOWN_BTF_TYPE_NAME:
		return "a type of an extern: a type's name is unknown";
	case EBPF_KSYMS_TYPES_MAXIMUM_TYPE_DEPTH:
		return "a type of an extern: types refer to one another too deep";
	case EBPF_KSYMS_TYPES_INVALID_DATASEC:
		return "a type of an extern: a DATASEC can't be read";
	case EBPF_KSYMS_TYPES_INVALID_SYMBOL_NAME:
		return "a type of an extern: a symbol's name can't be read";
	case EBPF_KSYMS_TYPES_INNER_MAP_CANNOT_BE_PINNED:
		return "a type of an extern: an inner map is pinned";
	case EBPF_KSYMS_TYPES_MULTI_LEVEL_MAP_IN_MAP_NOT_SUPPORTED:
		return "a type of an extern: maps of maps nest";
	case EBPF_KSYMS_TYPES_INVALID_VALUES_SPEC:
		return "a type of an extern: the values of a map are not declared as such";
	case EBPF_KSYMS_TYPES_TOO_LARGE:
		return "a type of an extern: the types are too large";
	case EBPF_EXTERNS_UNKNOWN_SYMBOL:
		return "externs: a relocation refers to an unknown symbol";
	case EBPF_EXTERNS_SECTION_NOT_FOUND:
		return "externs: no descriptor is given for any map of the symbol's section";
	case EBPF_EXTERNS_UNKNOWN_FUNCTION:
		return "externs: no function is where a reference leads";
	case EBPF_EXTERNS_FUNCTION_INFO_MISMATCH:
		return "externs: func info does not fit its function";
	case EBPF_EXTERNS_UNKNOWN_PROGRAM:
		return "externs: no function is where the program begins";
	case EBPF_EXTERNS_INVALID_RELOCATION_OFFSET:
		return "externs: a relocation is at no instruction that can take it";
	case EBPF_EXTERNS_EXTERN_NOT_FOUND:
		return "externs: the extern is unknown";
	case EBPF_EXTERNS_UNRESOLVABLE_SYMBOL:
		return "externs: the extern was not found in the kernel";
	case EBPF_EXTERNS_UNSUPPORTED_TEXT_SYMBOL:
		return "externs: a symbol of code is of a kind that is not supported";
	case EBPF_EXTERNS_INVALID_LINE_INFO:
		return "externs: line info does not fit its function";
	case EBPF_EXTERNS_PROGRAM_TOO_LONG:
		return "externs: the linked program is too long";
	case EBPF_EXTERNS_MAP_ADDRESS_OVERFLOW:
		return "externs: a place in a map is past 2,147,483,647";
	case EBPF_CALLS_UNKNOWN_SYMBOL:
		return "calls: a relocation refers to an unknown symbol";
	case EBPF_CALLS_SECTION_NOT_FOUND:
		return "calls: no descriptor is given for any map of the symbol's section";
	case EBPF_CALLS_UNKNOWN_FUNCTION:
		return "calls: no function is where a reference leads";
	case EBPF_CALLS_FUNCTION_INFO_MISMATCH:
		return "calls: func info does not fit its function";
	case EBPF_CALLS_UNKNOWN_PROGRAM:
		return "calls: no function is where the program begins";
	case EBPF_CALLS_INVALID_RELOCATION_OFFSET:
		return "calls: a relocation is at no instruction that can take it";
	case EBPF_CALLS_EXTERN_NOT_FOUND:
		return "calls: the extern is unknown";
	case EBPF_CALLS_UNRESOLVABLE_SYMBOL:
		return "calls: the extern was not found in the kernel";
	case EBPF_CALLS_UNSUPPORTED_TEXT_SYMBOL:
		return "calls: a symbol of code is of a kind that is not supported";
	case EBPF_CALLS_INVALID_LINE_INFO:
		return "calls: line info does not fit its function";
	case EBPF_CALLS_PROGRAM_TOO_LONG:
		return "calls: the linked program is too long";
	case EBPF_CALLS_MAP_ADDRESS_OVERFLOW:
		return "calls: a place in a map is past 2,147,483,647";
	case EBPF_CALLS_UNWRITTEN_EXTERN:
		return "calls: no pass has written the call of an extern; about the extern";
	case EBPF_KERNEL_TYPES_FILE_TOO_SHORT:
		return "kernel types: the file is too short for its header";
	case EBPF_KERNEL_TYPES_FILE_BAD_MAGIC:
		return "kernel types: the file does not begin as ELF does";
	case EBPF_KERNEL_TYPES_FILE_NOT_ELF64:
		return "kernel types: the file is no ELF64";
	case EBPF_KERNEL_TYPES_FILE_BAD_BYTE_ORDER:
		return "kernel types: the byte order is neither little nor big";
	case EBPF_KERNEL_TYPES_FILE_BAD_SECTION_TABLE:
		return "kernel types: the section table is not inside the file";
	case EBPF_KERNEL_TYPES_FILE_BAD_SECTION_RANGE:
		return "kernel types: a section is not inside the file";
	case EBPF_KERNEL_TYPES_FILE_BAD_STRING_TABLE:
		return "kernel types: a string table can't be read";
	case EBPF_KERNEL_TYPES_FILE_BAD_SYMBOL_TABLE:
		return "kernel types: the symbol table can't be read";
	case EBPF_KERNEL_TYPES_FILE_BAD_RELOCATION_TABLE:
		return "kernel types: a relocation table can't be read";
	case EBPF_KERNEL_TYPES_FILE_EXTENDED_NUMBERING:
		return "kernel types: sections are numbered in the extended way";
	case EBPF_KERNEL_TYPES_READ_INVALID_HEADER:
		return "kernel types: the header of the types is not valid";
	case EBPF_KERNEL_TYPES_READ_INVALID_TYPE_INFO:
		return "kernel types: a type can't be read";
	case EBPF_KERNEL_TYPES_READ_INVALID_INFO:
		return "kernel types: info entries can't be read";
	case EBPF_KERNEL_TYPES_READ_INVALID_STRING_OFFSET:
		return "kernel types: a name is not inside the strings";
	case EBPF_KERNEL_TYPES_READ_INVALID_RELOCATION_KIND:
		return "kernel types: a CO-RE relocation has an unknown kind";
	case EBPF_KERNEL_TYPES_READ_UNEXPECTED_BTF_TYPE:
		return "kernel types: a type is of another kind than wanted";
	case EBPF_KERNEL_TYPES_READ_UNKNOWN_BTF_TYPE:
		return "kernel types: a type id is unknown";
	case EBPF_KERNEL_TYPES_READ_UNKNOWN_BTF_TYPE_NAME:
		return "kernel types: a type's name is unknown";
	case EBPF_KERNEL_TYPES_READ_MAXIMUM_TYPE_DEPTH:
		return "kernel types: types refer to one another too deep";
	case EBPF_KERNEL_TYPES_READ_INVALID_DATASEC:
		return "kernel types: a DATASEC can't be read";
	case EBPF_KERNEL_TYPES_READ_INVALID_SYMBOL_NAME:
		return "kernel types: a symbol's name can't be read";
	case EBPF_KERNEL_TYPES_READ_INNER_MAP_CANNOT_BE_PINNED:
		return "kernel types: an inner map is pinned";
	case EBPF_KERNEL_TYPES_READ_MULTI_LEVEL_MAP_IN_MAP_NOT_SUPPORTED:
		return "kernel types: maps of maps nest";
	case EBPF_KERNEL_TYPES_READ_INVALID_VALUES_SPEC:
		return "kernel types: the values of a map are not declared as such";
	case EBPF_KERNEL_TYPES_READ_TOO_LARGE:
		return "kernel types: the types are too large";
	case EBPF_KERNEL_TYPES_NO_SECTION_SIZE:
		return "kernel types: no section of the name has a size; about the section";
	case EBPF_KERNEL_TYPES_NOT_A_VARIABLE:
		return "kernel types: a section's entry names no variable; about what it names";
	case EBPF_KERNEL_TYPES_NO_SYMBOL:
		return "kernel types: a global variable has no symbol; about the variable";
	case EBPF_KERNEL_TYPES_UNSUPPORTED_EXTERN:
		return "kernel types: the type of a kconfig extern has no size; about the extern";
	case EBPF_KERNEL_TYPES_TOO_LARGE:
		return "ids, offsets or lengths pass 32 bits";
	case EBPF_INITIAL_SLOTS_FILE_TOO_SHORT:
		return "initial values: the file is too short for its header";
	case EBPF_INITIAL_SLOTS_FILE_BAD_MAGIC:
		return "initial values: the file does not begin as ELF does";
	case EBPF_INITIAL_SLOTS_FILE_NOT_ELF64:
		return "initial values: the file is no ELF64";
	case EBPF_INITIAL_SLOTS_FILE_BAD_BYTE_ORDER:
		return "initial values: the byte order is neither little nor big";
	case EBPF_INITIAL_SLOTS_FILE_BAD_SECTION_TABLE:
		return "initial values: the section table is not inside the file";
	case EBPF_INITIAL_SLOTS_FILE_BAD_SECTION_RANGE:
		return "initial values: a section is not inside the file";
	case EBPF_INITIAL_SLOTS_FILE_BAD_STRING_TABLE:
		return "initial values: a string table can't be read";
	case EBPF_INITIAL_SLOTS_FILE_BAD_SYMBOL_TABLE:
		return "initial values: the symbol table can't be read";
	case EBPF_INITIAL_SLOTS_FILE_BAD_RELOCATION_TABLE:
		return "initial values: a relocation table can't be read";
	case EBPF_INITIAL_SLOTS_FILE_EXTENDED_NUMBERING:
		return "initial values: sections are numbered in the extended way";
	case EBPF_INITIAL_SLOTS_UNKNOWN_SYMBOL:
		return "the object lacks a symbol";
	case EBPF_INITIAL_SLOTS_OUTSIDE_MAPS:
		return "a place is in no map";
	case EBPF_INITIAL_SLOTS_UNSUPPORTED_MAP_TYPE:
		return "the map holds neither maps nor programs";
	case EBPF_INITIAL_SLOTS_NOT_IN_MAPS:
		return "a value of a map of maps is not in .maps";
	case EBPF_INITIAL_SLOTS_UNSUPPORTED_KEY_SIZE:
		return "a hash of maps with keys of other than 4 bytes";
	case EBPF_INITIAL_SLOTS_UNKNOWN_MAP:
		return "a value is an unknown map";
	case EBPF_INITIAL_SLOTS_UNKNOWN_PROGRAM:
		return "a value is an unknown program";
	case EBPF_INITIAL_SLOTS_NOT_AN_ENTRY_POINT:
		return "a value is not where the program of its name begins";
	case EBPF_INITIAL_SLOTS_NO_VALUES:
		return "the map's type does not end in `values`";
	case EBPF_INITIAL_SLOTS_OUTSIDE_VALUES:
		return "a place is before the map's `values`";
	case EBPF_INITIAL_SLOTS_MISALIGNED:
		return "a place is at no whole value";
	case EBPF_KCONFIG_NOT_A_VARIABLE:
		return "an entry of .kconfig names no variable";
	case EBPF_KCONFIG_UNREADABLE_NAME:
		return "the name of a kconfig extern can't be read";
	case EBPF_KCONFIG_UNKNOWN_NAME:
		return "the name of a kconfig extern begins neither with CONFIG_ nor with LINUX_";
	case EBPF_KCONFIG_UNSUPPORTED_TYPE:
		return "the type of a kconfig extern has no values of a configuration";
	case EBPF_KCONFIG_NO_VALUE:
		return "a kconfig extern has to have a value and is given none";
	case EBPF_KCONFIG_WRONG_SIZE:
		return "the value of a kconfig extern has another size";
	case EBPF_KCONFIG_TOO_LARGE:
		return "the values of the kconfig externs together pass 32 bits";
	case EBPF_KCONFIG_UNSUITED_VALUE:
		return "what the configuration says of a kconfig extern is no value of its type";
	case EBPF_KCONFIG_VALUE_OUT_OF_RANGE:
		return "the number of a kconfig extern is out of the range of its type, or of 64 bits";
	case EBPF_LEAST_TYPES_RELOCATION:
		return "least types: a CO-RE relocation asks for the kernel's id of a type";
	case EBPF_LEAST_TYPES_EXTERN:
		return "least types: an extern needs the kernel's id of its type";
	case EBPF_LEAST_TYPES_TARGET:
		return "least types: a program needs the kernel's id of what it is attached to";
	case EBPF_LEAST_TYPES_WRITE_INVALID_HEADER:
		return "least types: the header of the types is not valid";
	case EBPF_LEAST_TYPES_WRITE_INVALID_TYPE_INFO:
		return "least types: a type can't be read";
	case EBPF_LEAST_TYPES_WRITE_INVALID_INFO:
		return "least types: info entries can't be read";
	case EBPF_LEAST_TYPES_WRITE_INVALID_STRING_OFFSET:
		return "least types: a name is not inside the strings";
	case EBPF_LEAST_TYPES_WRITE_INVALID_RELOCATION_KIND:
		return "least types: a CO-RE relocation has an unknown kind";
	case EBPF_LEAST_TYPES_WRITE_UNEXPECTED_BTF_TYPE:
		return "least types: a type is of another kind than wanted";
	case EBPF_LEAST_TYPES_WRITE_UNKNOWN_BTF_TYPE:
		return "least types: a type id is unknown";
	case EBPF_LEAST_TYPES_WRITE_UNKNOWN_BTF_TYPE_NAME:
		return "least types: a type's name is unknown";
	case EBPF_LEAST_TYPES_WRITE_MAXIMUM_TYPE_DEPTH:
		return "least types: types refer to one another too deep";
	case EBPF_LEAST_TYPES_WRITE_INVALID_DATASEC:
		return "least types: a DATASEC can't be read";
	case EBPF_LEAST_TYPES_WRITE_INVALID_SYMBOL_NAME:
		return "least types: a symbol's name can't be read";
	case EBPF_LEAST_TYPES_WRITE_INNER_MAP_CANNOT_BE_PINNED:
		return "least types: an inner map is pinned";
	case EBPF_LEAST_TYPES_WRITE_MULTI_LEVEL_MAP_IN_MAP_NOT_SUPPORTED:
		return "least types: maps of maps nest";
	case EBPF_LEAST_TYPES_WRITE_INVALID_VALUES_SPEC:
		return "least types: the values of a map are not declared as such";
	case EBPF_LEAST_TYPES_WRITE_TOO_LARGE:
		return "least types: the types are too large";
	case EBPF_COMPLETED_MAPS_FILE_TOO_SHORT:
		return "completed maps: the file is too short for its header";
	case EBPF_COMPLETED_MAPS_FILE_BAD_MAGIC:
		return "completed maps: the file does not begin as ELF does";
	case EBPF_COMPLETED_MAPS_FILE_NOT_ELF64:
		return "completed maps: the file is no ELF64";
	case EBPF_COMPLETED_MAPS_FILE_BAD_BYTE_ORDER:
		return "completed maps: the byte order is neither little nor big";
	case EBPF_COMPLETED_MAPS_FILE_BAD_SECTION_TABLE:
		return "completed maps: the section table is not inside the file";
	case EBPF_COMPLETED_MAPS_FILE_BAD_SECTION_RANGE:
		return "completed maps: a section is not inside the file";
	case EBPF_COMPLETED_MAPS_FILE_BAD_STRING_TABLE:
		return "completed maps: a string table can't be read";
	case EBPF_COMPLETED_MAPS_FILE_BAD_SYMBOL_TABLE:
		return "completed maps: the symbol table can't be read";
	case EBPF_COMPLETED_MAPS_FILE_BAD_RELOCATION_TABLE:
		return "completed maps: a relocation table can't be read";
	case EBPF_COMPLETED_MAPS_FILE_EXTENDED_NUMBERING:
		return "completed maps: sections are numbered in the extended way";
	case EBPF_COMPLETED_MAPS_UNKNOWN_PINNING:
		return "a map asks for a pinning that is neither 0 nor 1";
	case EBPF_COMPLETED_MAPS_SECOND_ARENA:
		return "a map is a second arena";
	case EBPF_COMPLETED_MAPS_NO_ARENA:
		return ".addr_space.1 has variables, and no map is an arena";
	case EBPF_COMPLETED_MAPS_ARENA_TOO_SMALL:
		return "the arena has fewer bytes than .addr_space.1";
	case EBPF_STRUCT_OPS_FILE_TOO_SHORT:
		return "struct_ops: the file is too short for its header";
	case EBPF_STRUCT_OPS_FILE_BAD_MAGIC:
		return "struct_ops: the file does not begin as ELF does";
	case EBPF_STRUCT_OPS_FILE_NOT_ELF64:
		return "struct_ops: the file is no ELF64";
	case EBPF_STRUCT_OPS_FILE_BAD_BYTE_ORDER:
		return "struct_ops: the byte order is neither little nor big";
	case EBPF_STRUCT_OPS_FILE_BAD_SECTION_TABLE:
		return "struct_ops: the section table is not inside the file";
	case EBPF_STRUCT_OPS_FILE_BAD_SECTION_RANGE:
		return "struct_ops: a section is not inside the file";
	case EBPF_STRUCT_OPS_FILE_BAD_STRING_TABLE:
		return "struct_ops: a string table can't be read";
	case EBPF_STRUCT_OPS_FILE_BAD_SYMBOL_TABLE:
		return "struct_ops: the symbol table can't be read";
	case EBPF_STRUCT_OPS_FILE_BAD_RELOCATION_TABLE:
		return "struct_ops: a relocation table can't be read";
	case EBPF_STRUCT_OPS_FILE_EXTENDED_NUMBERING:
		return "struct_ops: sections are numbered in the extended way";
	case EBPF_STRUCT_OPS_NO_TYPES:
		return "the object has sections of struct_ops and no types";
	case EBPF_STRUCT_OPS_NO_DATASEC:
		return "a section of struct_ops has no DATASEC of its name";
	case EBPF_STRUCT_OPS_NO_KERNEL_STRUCT:
		return "the kernel lacks a struct that a map of struct_ops wants";
	case EBPF_STRUCT_OPS_NO_DATA_MEMBER:
		return "the kernel's value of a map does not hold its struct";
	case EBPF_STRUCT_OPS_OTHER_USE:
		return "maps use a program for two structs or two members";
	case EBPF_STRUCT_OPS_NOT_A_VARIABLE:
		return "an entry of a section of struct_ops names no variable";
	case EBPF_STRUCT_OPS_NOT_A_STRUCT:
		return "the type of a variable of struct_ops is no struct";
	case EBPF_STRUCT_OPS_ANONYMOUS:
		return "the struct of a variable of struct_ops has no name";
	case EBPF_STRUCT_OPS_NO_SYMBOL:
		return "the section has no symbol of a variable of struct_ops";
	case EBPF_STRUCT_OPS_OUTSIDE_SECTION:
		return "a variable of struct_ops passes the end of the section";
	case EBPF_STRUCT_OPS_UNKNOWN_SYMBOL:
		return "the object lacks the symbol of a relocation of struct_ops";
	case EBPF_STRUCT_OPS_OUTSIDE_VARIABLES:
		return "a relocation of struct_ops is in no variable";
	case EBPF_STRUCT_OPS_NO_MEMBER:
		return "no member begins at a relocation of struct_ops";
	case EBPF_STRUCT_OPS_NO_FUNCTION_POINTER:
		return "a relocation of struct_ops is at a member that points to no function";
	case EBPF_STRUCT_OPS_UNKNOWN_PROGRAM:
		return "the symbol of a relocation of struct_ops names no program";
	case EBPF_STRUCT_OPS_OTHER_PROGRAM:
		return "a program at a member is in no section of struct_ops";
	case EBPF_STRUCT_OPS_UNKNOWN_SIZE:
		return "the type of a member has no size";
	case EBPF_STRUCT_OPS_BIT_FIELD:
		return "a member is a bit field";
	case EBPF_STRUCT_OPS_OUTSIDE_STRUCT:
		return "a member passes the end of its struct";
	case EBPF_STRUCT_OPS_MISSING_MEMBER:
		return "the kernel's struct lacks a member that is not zero";
	case EBPF_STRUCT_OPS_DIFFERENT_KINDS:
		return "a member is of another kind in the kernel";
	case EBPF_STRUCT_OPS_NOT_A_PROGRAM:
		return "a member is a pointer to no program";
	case EBPF_STRUCT_OPS_KERNEL_NO_FUNCTION:
		return "a member with a program points to no function in the kernel";
	case EBPF_STRUCT_OPS_DIFFERENT_SIZES:
		return "a member is of another size in the kernel";
	case EBPF_STRUCT_OPS_OUTSIDE_VALUE:
		return "a member passes the end of the map's value in the kernel";
	default:
		return "an unknown number";
	}
}

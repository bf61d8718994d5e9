/*
 * eBPF object files made ready to load: the C interface of ebpf-object.
 *
 * `pkg-config --cflags --libs ebpf` prints the flags that compile and link a caller. The library needs the C library
 * alone. docs/C.md goes from a file to a running program.
 *
 * What a caller upholds, in one place. No call checks these, and no call asks for more:
 *  - A count is no greater than what lies behind its pointer, and each pointer is aligned for its type.
 *  - What a call may write (each pointer without const) overlaps nothing else that the call is given. No other thread
 *    touches it during the call. What is const does not change during the call: that goes for a mapped file too.
 *  - A handle is what `ebpf_open`, `ebpf_prepare` or `ebpf_clone` gave. It may move from thread to thread, and one call
 *    at a time uses it, also where it is const: a call takes the object out of the handle while it runs, and keeps its
 *    error and its lists there. Two threads that read one object at a time have a handle each (`ebpf_clone`).
 *    `ebpf_close` frees it, once.
 *  - The same holds for the types that `ebpf_btf_open` gave, which `ebpf_btf_close` frees.
 *  - malloc, realloc and free are of one allocator and align as the C standard says. No call is made from a signal
 *    handler, nor in the child that a process with threads forked.
 * Beyond these anything may be passed: any bytes as a file, types, symbols, names or values, any numbers.
 *  - A null array is empty, whatever its count. A null handle is a closed one (3). A null count or row is not written.
 *    Only where a handle is given out (`struct ebpf_handle **`, `struct ebpf_btf **`) the pointer is not null.
 *  - Memory that a call writes needn't be initialised. The calls that give out a handle write it, and never read it.
 *  - No pointer that a call is given is kept behind the call. The object has copies of all that it needs.
 *
 * The calls are two layers. The lower one is proved; its names begin with `exact_`, and it takes no null pointer and a
 * handle in the caller's own memory. The upper one is C (c/), and tested: it puts an empty array, a closed handle or a
 * place of its own where a pointer is null, makes and frees the block that a handle is, keeps errors and lists there,
 * and has the texts of `ebpf_strerror`.
 *
 * A call returns a number. 0 (EBPF_DONE): all is done and written, exactly as the call's text says. Any other number:
 * the object and buffers are unchanged, but for what is said here of counts. `ebpf_last_error` says more of it.
 *
 * Counts: with the numbers 0 and 1 (EBPF_ROOM), a call's counts (*len, *count, *counts) say how much there is. So they
 * say how much room is needed. With any other number they are unchanged.
 *
 * Calls that return a pointer or a count return what the handle keeps ('what a handle keeps for its caller'). They
 * return NULL or 0 where they refuse.
 *
 * Names are UTF-8 with a length. They are compared byte by byte. Lists are in byte order of their names, unless a call
 * says otherwise. Each call that writes into a buffer writes to its front and leaves the rest.
 *
 * What stays:
 *  - A number keeps its meaning. New ones get numbers that were free.
 *  - From 0.4 on a symbol is never given another signature. What is replaced gets another name. If a symbol goes, the
 *    soname is a new one.
 *  - A struct that a caller makes for a call, and that may grow, begins with its size (struct ebpf_open_options). Other
 *    structs that a caller lays out never grow. A struct that the library makes (struct ebpf_error) grows at its end.
 *  - `ebpf_check_version` compares the library with the header. Call it once.
 */
#ifndef EBPF_H
#define EBPF_H

#include <stddef.h>
#include <stdint.h>

/* What compilers check: that an answer is looked at, and where a pointer is not null. EBPF_NO_CHECKS leaves it out. */
#if defined(__GNUC__) && !defined(EBPF_NO_CHECKS)
#define EBPF_CHECKED __attribute__((warn_unused_result))
#define EBPF_NONNULL(number) __attribute__((nonnull(number)))
#else
#define EBPF_CHECKED
#define EBPF_NONNULL(number)
#endif

#ifdef __GNUC__
#define EBPF_INLINE static inline __attribute__((unused))
#else
#define EBPF_INLINE static inline
#endif

#ifdef __cplusplus
extern "C" {
#endif

/*
 * The version of this interface, 0.4.0, as major * 1000000 + minor * 1000 + patch. `ebpf_version_number` returns that
 * of the library.
 */
#define EBPF_VERSION_NUMBER 4000

uint32_t ebpf_version_number(void);

/* ---- numbers that calls return; each keeps its meaning, and new ones get numbers that were free */

enum ebpf_number {
	EBPF_DONE = 0, /* all is done and written */
	EBPF_ROOM = 1, /* a buffer is too small; the counts say how much is needed */
	EBPF_MEMORY = 2, /* out of memory */
	EBPF_CLOSED = 3, /* the handle has no object: it is NULL, or its file was refused; or the types are NULL */
	EBPF_NO_PROGRAM = 4, /* no program has the name */
	EBPF_NO_MAP = 5, /* no map has the name */
	EBPF_BAD_NAME = 6, /* a name that is given is no UTF-8 */
	EBPF_BAD_VALUE = 7, /* a row's value is not inside the bytes beside it; the lower layer alone */
	EBPF_NO_EXTERN = 8, /* no kconfig extern has the name */
	EBPF_WRONG_LENGTH = 9, /* the data has another length than that of the map */
	EBPF_NO_VARIABLE = 10, /* no symbol has the name, or its bytes are not inside the data of a map */
	EBPF_PASS_MADE = 11, /* the pass is the last one that was made of the object */
	EBPF_PASS_ORDER = 12, /* a later pass was made of the object; for what sets something, any pass was made */

	/* 90 to 99: of the layer in C */
	EBPF_BAD_OPTIONS = 90, /* a struct of options has a size or a value that this library does not know */
	EBPF_NO_ROW = 91, /* no row has the index, or the list was not taken */
	EBPF_OTHER_VERSION = 92, /* the library has another version than the header */

	/* 100 to 199: the file can't be parsed, or an object can't be changed by values */
	EBPF_PARSE_TOO_SHORT = 100, /* the file is too short for its header */
	EBPF_PARSE_BAD_MAGIC = 101, /* the file does not begin as ELF does */
	EBPF_PARSE_NOT_ELF64 = 102, /* the file is no ELF64 */
	EBPF_PARSE_BAD_BYTE_ORDER = 103, /* the byte order is neither little nor big */
	EBPF_PARSE_BAD_SECTION_TABLE = 104, /* the section table is not inside the file */
	EBPF_PARSE_BAD_SECTION_RANGE = 105, /* a section is not inside the file */
	EBPF_PARSE_BAD_STRING_TABLE = 106, /* a string table can't be read */
	EBPF_PARSE_BAD_SYMBOL_TABLE = 107, /* the symbol table can't be read */
	EBPF_PARSE_BAD_RELOCATION_TABLE = 108, /* a relocation table can't be read */
	EBPF_PARSE_EXTENDED_NUMBERING = 109, /* sections are numbered in the extended way */
	EBPF_PARSE_SECTION_TOO_SHORT = 110, /* a section: the file is too short for its header */
	EBPF_PARSE_SECTION_BAD_MAGIC = 111, /* a section: the file does not begin as ELF does */
	EBPF_PARSE_SECTION_NOT_ELF64 = 112, /* a section: the file is no ELF64 */
	EBPF_PARSE_SECTION_BAD_BYTE_ORDER = 113, /* a section: the byte order is neither little nor big */
	EBPF_PARSE_SECTION_BAD_SECTION_TABLE = 114, /* a section: the section table is not inside the file */
	EBPF_PARSE_SECTION_BAD_SECTION_RANGE = 115, /* a section: a section is not inside the file */
	EBPF_PARSE_SECTION_BAD_STRING_TABLE = 116, /* a section: a string table can't be read */
	EBPF_PARSE_SECTION_BAD_SYMBOL_TABLE = 117, /* a section: the symbol table can't be read */
	EBPF_PARSE_SECTION_BAD_RELOCATION_TABLE = 118, /* a section: a relocation table can't be read */
	EBPF_PARSE_SECTION_EXTENDED_NUMBERING = 119, /* a section: sections are numbered in the extended way */
	EBPF_PARSE_TYPES_INVALID_HEADER = 120, /* the object's types: the header of the types is not valid */
	EBPF_PARSE_TYPES_INVALID_TYPE_INFO = 121, /* the object's types: a type can't be read */
	EBPF_PARSE_TYPES_INVALID_INFO = 122, /* the object's types: info entries can't be read */
	EBPF_PARSE_TYPES_INVALID_STRING_OFFSET = 123, /* the object's types: a name is not inside the strings */
	EBPF_PARSE_TYPES_INVALID_RELOCATION_KIND = 124, /* the object's types: a CO-RE relocation has an unknown kind */
	EBPF_PARSE_TYPES_UNEXPECTED_BTF_TYPE = 125, /* the object's types: a type is of another kind than wanted */
	EBPF_PARSE_TYPES_UNKNOWN_BTF_TYPE = 126, /* the object's types: a type id is unknown */
	EBPF_PARSE_TYPES_UNKNOWN_BTF_TYPE_NAME = 127, /* the object's types: a type's name is unknown */
	EBPF_PARSE_TYPES_MAXIMUM_TYPE_DEPTH = 128, /* the object's types: types refer to one another too deep */
	EBPF_PARSE_TYPES_INVALID_DATASEC = 129, /* the object's types: a DATASEC can't be read */
	EBPF_PARSE_TYPES_INVALID_SYMBOL_NAME = 130, /* the object's types: a symbol's name can't be read */
	EBPF_PARSE_TYPES_INNER_MAP_CANNOT_BE_PINNED = 131, /* the object's types: an inner map is pinned */
	EBPF_PARSE_TYPES_MULTI_LEVEL_MAP_IN_MAP_NOT_SUPPORTED = 132, /* the object's types: maps of maps nest */
	EBPF_PARSE_TYPES_INVALID_VALUES_SPEC = 133, /* the object's types: the values of a map are not declared as such */
	EBPF_PARSE_TYPES_TOO_LARGE = 134, /* the object's types: the types are too large */
	EBPF_PARSE_LICENSE_NOT_TERMINATED = 140, /* the license has no zero byte at its end */
	EBPF_PARSE_LICENSE = 141, /* the license can't be read */
	EBPF_PARSE_KERNEL_VERSION = 142, /* the kernel version is not 4 bytes */
	EBPF_PARSE_RELOCATION_TARGET = 143, /* a relocation without a target */
	EBPF_PARSE_PROGRAM_SECTION = 144, /* the name of a section of code gives no program type; about the section */
	EBPF_PARSE_PROGRAM_CODE = 145, /* the code of a function is no multiple of 8 bytes */
	EBPF_PARSE_MAP_DEFINITION = 146, /* the definition of a map can't be read; about the map */
	EBPF_PARSE_SYMBOL_CONFLICT = 147, /* symbols conflict */
	EBPF_PARSE_UNKNOWN_SYMBOL = 148, /* a symbol is unknown */
	EBPF_PARSE_INVALID_SYMBOL = 149, /* a symbol has no bytes, or some outside its section; about the symbol */
	EBPF_PARSE_GLOBAL_DATA = 150, /* a value does not fit its variable or its map; about the variable */
	EBPF_PARSE_SYMBOL_NOT_FOUND = 151, /* no symbol has the name of the variable; about the variable */
	EBPF_PARSE_MAP_NOT_FOUND = 152, /* no map has the variable's section */
	EBPF_PARSE_MAP_SYMBOL_NAME = 153, /* kept, never returned */
	EBPF_PARSE_NO_SYMBOLS = 154, /* no symbol is in a section; about the section */
	EBPF_PARSE_NO_TYPES = 155, /* the object has no types */
	EBPF_PARSE_BIG_ENDIAN_CODE = 156, /* the file is big-endian and has code: lenient parsing alone */
	EBPF_PARSE_TOO_LARGE = 157, /* what is made of the file would pass the limit (max_bytes) */
	EBPF_PARSE_OTHER_MACHINE = 158, /* the file is for another machine than eBPF: lenient parsing alone */

	/* 200 to 299: types. About the section, from 220 on */
	EBPF_TYPES_READ_INVALID_HEADER = 200, /* the kernel's types: the header of the types is not valid */
	EBPF_TYPES_READ_INVALID_TYPE_INFO = 201, /* the kernel's types: a type can't be read */
	EBPF_TYPES_READ_INVALID_INFO = 202, /* the kernel's types: info entries can't be read */
	EBPF_TYPES_READ_INVALID_STRING_OFFSET = 203, /* the kernel's types: a name is not inside the strings */
	EBPF_TYPES_READ_INVALID_RELOCATION_KIND = 204, /* the kernel's types: a CO-RE relocation has an unknown kind */
	EBPF_TYPES_READ_UNEXPECTED_BTF_TYPE = 205, /* the kernel's types: a type is of another kind than wanted */
	EBPF_TYPES_READ_UNKNOWN_BTF_TYPE = 206, /* the kernel's types: a type id is unknown */
	EBPF_TYPES_READ_UNKNOWN_BTF_TYPE_NAME = 207, /* the kernel's types: a type's name is unknown */
	EBPF_TYPES_READ_MAXIMUM_TYPE_DEPTH = 208, /* the kernel's types: types refer to one another too deep */
	EBPF_TYPES_READ_INVALID_DATASEC = 209, /* the kernel's types: a DATASEC can't be read */
	EBPF_TYPES_READ_INVALID_SYMBOL_NAME = 210, /* the kernel's types: a symbol's name can't be read */
	EBPF_TYPES_READ_INNER_MAP_CANNOT_BE_PINNED = 211, /* the kernel's types: an inner map is pinned */
	EBPF_TYPES_READ_MULTI_LEVEL_MAP_IN_MAP_NOT_SUPPORTED = 212, /* the kernel's types: maps of maps nest */
	EBPF_TYPES_READ_INVALID_VALUES_SPEC = 213, /* the kernel's types: the values of a map are not declared as such */
	EBPF_TYPES_READ_TOO_LARGE = 214, /* the kernel's types: the types are too large */
	EBPF_TYPES_FAULT_INVALID_HEADER = 220, /* CO-RE types: the header of the types is not valid */
	EBPF_TYPES_FAULT_INVALID_TYPE_INFO = 221, /* CO-RE types: a type can't be read */
	EBPF_TYPES_FAULT_INVALID_INFO = 222, /* CO-RE types: info entries can't be read */
	EBPF_TYPES_FAULT_INVALID_STRING_OFFSET = 223, /* CO-RE types: a name is not inside the strings */
	EBPF_TYPES_FAULT_INVALID_RELOCATION_KIND = 224, /* CO-RE types: a CO-RE relocation has an unknown kind */
	EBPF_TYPES_FAULT_UNEXPECTED_BTF_TYPE = 225, /* CO-RE types: a type is of another kind than wanted */
	EBPF_TYPES_FAULT_UNKNOWN_BTF_TYPE = 226, /* CO-RE types: a type id is unknown */
	EBPF_TYPES_FAULT_UNKNOWN_BTF_TYPE_NAME = 227, /* CO-RE types: a type's name is unknown */
	EBPF_TYPES_FAULT_MAXIMUM_TYPE_DEPTH = 228, /* CO-RE types: types refer to one another too deep */
	EBPF_TYPES_FAULT_INVALID_DATASEC = 229, /* CO-RE types: a DATASEC can't be read */
	EBPF_TYPES_FAULT_INVALID_SYMBOL_NAME = 230, /* CO-RE types: a symbol's name can't be read */
	EBPF_TYPES_FAULT_INNER_MAP_CANNOT_BE_PINNED = 231, /* CO-RE types: an inner map is pinned */
	EBPF_TYPES_FAULT_MULTI_LEVEL_MAP_IN_MAP_NOT_SUPPORTED = 232, /* CO-RE types: maps of maps nest */
	EBPF_TYPES_FAULT_INVALID_VALUES_SPEC = 233, /* CO-RE types: the values of a map are not declared as such */
	EBPF_TYPES_FAULT_TOO_LARGE = 234, /* CO-RE types: the types are too large */
	EBPF_TYPES_SECTION_NOT_FOUND = 240, /* no section has the name that CO-RE relocations are for */
	EBPF_TYPES_FUNCTION_NOT_FOUND = 241, /* a CO-RE relocation is for an instruction of no function */
	EBPF_TYPES_ACCESS_STRING = 242, /* an access string can't be read */
	EBPF_TYPES_INSTRUCTION_INDEX = 243, /* a CO-RE relocation is at no instruction */
	EBPF_TYPES_CONFLICTING_CANDIDATES = 244, /* types of the kernel match and give different values */
	EBPF_TYPES_NESTING = 245, /* types nest too deep */
	EBPF_TYPES_ACCESS_INDEX = 246, /* an access string leads out of its type */
	EBPF_TYPES_KIND_FOR_TYPE = 247, /* the kind of a CO-RE relocation does not fit its type */
	EBPF_TYPES_INSTRUCTION = 248, /* an instruction can't take a value */
	EBPF_TYPES_NO_TARGET = 249, /* kept, never returned */

	/* 300 to 399: descriptors of maps. About the function, but for 320 and 321 */
	EBPF_MAPS_UNKNOWN_SYMBOL = 300, /* maps: a relocation refers to an unknown symbol */
	EBPF_MAPS_SECTION_NOT_FOUND = 301, /* maps: no descriptor is given for any map of the symbol's section */
	EBPF_MAPS_UNKNOWN_FUNCTION = 302, /* maps: no function is where a reference leads */
	EBPF_MAPS_FUNCTION_INFO_MISMATCH = 303, /* maps: func info does not fit its function */
	EBPF_MAPS_UNKNOWN_PROGRAM = 304, /* maps: no function is where the program begins */
	EBPF_MAPS_INVALID_RELOCATION_OFFSET = 305, /* maps: a relocation is at no instruction that can take it */
	EBPF_MAPS_EXTERN_NOT_FOUND = 306, /* maps: the extern is unknown */
	EBPF_MAPS_UNRESOLVABLE_SYMBOL = 307, /* maps: the extern was not found in the kernel */
	EBPF_MAPS_UNSUPPORTED_TEXT_SYMBOL = 308, /* maps: a symbol of code is of a kind that is not supported */
	EBPF_MAPS_INVALID_LINE_INFO = 309, /* maps: line info does not fit its function */
	EBPF_MAPS_PROGRAM_TOO_LONG = 310, /* maps: the linked program is too long */
	EBPF_MAPS_MAP_ADDRESS_OVERFLOW = 311, /* maps: a place in a map is past 2,147,483,647 */
	EBPF_MAPS_MISSING_DESCRIPTOR = 320, /* maps: no row names the map that a slot refers to; about the map */
	EBPF_MAPS_UNKNOWN_MAP = 321, /* maps: the object has no map of a row's name; about the name */

	/* 400 to 499: finding externs. About the extern, where one is named */
	EBPF_KSYMS_NO_KERNEL_TYPES = 400, /* an extern has a type, and no kernel's types are given */
	EBPF_KSYMS_VARIABLE_NOT_FOUND = 401, /* the kernel has no such variable */
	EBPF_KSYMS_FUNCTION_SIGNATURE = 402, /* the kernel's function has another signature */
	EBPF_KSYMS_VARIABLE_TYPE = 403, /* the kernel's variable has another type */
	EBPF_KSYMS_EXTERN_TYPE = 404, /* the type of an extern is neither a function nor a variable */
	EBPF_KSYMS_AMBIGUOUS = 405, /* the kernel has several of the name */
	EBPF_KSYMS_LINE_ACCESS = 406, /* a line of the kernel's symbols is no UTF-8 */
	EBPF_KSYMS_LINE = 407, /* a line of the kernel's symbols can't be read; about what is wrong with it */
	EBPF_KSYMS_FUNCTION_NOT_FOUND = 408, /* the kernel has no such function */
	EBPF_KSYMS_TYPES_INVALID_HEADER = 420, /* a type of an extern: the header of the types is not valid */
	EBPF_KSYMS_TYPES_INVALID_TYPE_INFO = 421, /* a type of an extern: a type can't be read */
	EBPF_KSYMS_TYPES_INVALID_INFO = 422, /* a type of an extern: info entries can't be read */
	EBPF_KSYMS_TYPES_INVALID_STRING_OFFSET = 423, /* a type of an extern: a name is not inside the strings */
	EBPF_KSYMS_TYPES_INVALID_RELOCATION_KIND = 424, /* a type of an extern: a CO-RE relocation has an unknown kind */
	EBPF_KSYMS_TYPES_UNEXPECTED_BTF_TYPE = 425, /* a type of an extern: a type is of another kind than wanted */
	EBPF_KSYMS_TYPES_UNKNOWN_BTF_TYPE = 426, /* a type of an extern: a type id is unknown */
	EBPF_KSYMS_TYPES_UNKNOWN_BTF_TYPE_NAME = 427, /* a type of an extern: a type's name is unknown */
	EBPF_KSYMS_TYPES_MAXIMUM_TYPE_DEPTH = 428, /* a type of an extern: types refer to one another too deep */
	EBPF_KSYMS_TYPES_INVALID_DATASEC = 429, /* a type of an extern: a DATASEC can't be read */
	EBPF_KSYMS_TYPES_INVALID_SYMBOL_NAME = 430, /* a type of an extern: a symbol's name can't be read */
	EBPF_KSYMS_TYPES_INNER_MAP_CANNOT_BE_PINNED = 431, /* a type of an extern: an inner map is pinned */
	EBPF_KSYMS_TYPES_MULTI_LEVEL_MAP_IN_MAP_NOT_SUPPORTED = 432, /* a type of an extern: maps of maps nest */
	EBPF_KSYMS_TYPES_INVALID_VALUES_SPEC = 433, /* a type of an extern: the values of a map are not declared as such */
	EBPF_KSYMS_TYPES_TOO_LARGE = 434, /* a type of an extern: the types are too large */

	/* 500 to 599: writing externs. About the function */
	EBPF_EXTERNS_UNKNOWN_SYMBOL = 500, /* externs: a relocation refers to an unknown symbol */
	EBPF_EXTERNS_SECTION_NOT_FOUND = 501, /* externs: no descriptor is given for any map of the symbol's section */
	EBPF_EXTERNS_UNKNOWN_FUNCTION = 502, /* externs: no function is where a reference leads */
	EBPF_EXTERNS_FUNCTION_INFO_MISMATCH = 503, /* externs: func info does not fit its function */
	EBPF_EXTERNS_UNKNOWN_PROGRAM = 504, /* externs: no function is where the program begins */
	EBPF_EXTERNS_INVALID_RELOCATION_OFFSET = 505, /* externs: a relocation is at no instruction that can take it */
	EBPF_EXTERNS_EXTERN_NOT_FOUND = 506, /* externs: the extern is unknown */
	EBPF_EXTERNS_UNRESOLVABLE_SYMBOL = 507, /* externs: the extern was not found in the kernel */
	EBPF_EXTERNS_UNSUPPORTED_TEXT_SYMBOL = 508, /* externs: a symbol of code is of a kind that is not supported */
	EBPF_EXTERNS_INVALID_LINE_INFO = 509, /* externs: line info does not fit its function */
	EBPF_EXTERNS_PROGRAM_TOO_LONG = 510, /* externs: the linked program is too long */
	EBPF_EXTERNS_MAP_ADDRESS_OVERFLOW = 511, /* externs: a place in a map is past 2,147,483,647 */

	/*
	 * 600 to 699: linking programs with the functions that they reach. About the program. 620: `ebpf_prepare` and
	 * `ebpf_prepare_handle` alone
	 */
	EBPF_CALLS_UNKNOWN_SYMBOL = 600, /* calls: a relocation refers to an unknown symbol */
	EBPF_CALLS_SECTION_NOT_FOUND = 601, /* calls: no descriptor is given for any map of the symbol's section */
	EBPF_CALLS_UNKNOWN_FUNCTION = 602, /* calls: no function is where a reference leads */
	EBPF_CALLS_FUNCTION_INFO_MISMATCH = 603, /* calls: func info does not fit its function */
	EBPF_CALLS_UNKNOWN_PROGRAM = 604, /* calls: no function is where the program begins */
	EBPF_CALLS_INVALID_RELOCATION_OFFSET = 605, /* calls: a relocation is at no instruction that can take it */
	EBPF_CALLS_EXTERN_NOT_FOUND = 606, /* calls: the extern is unknown */
	EBPF_CALLS_UNRESOLVABLE_SYMBOL = 607, /* calls: the extern was not found in the kernel */
	EBPF_CALLS_UNSUPPORTED_TEXT_SYMBOL = 608, /* calls: a symbol of code is of a kind that is not supported */
	EBPF_CALLS_INVALID_LINE_INFO = 609, /* calls: line info does not fit its function */
	EBPF_CALLS_PROGRAM_TOO_LONG = 610, /* calls: the linked program is too long */
	EBPF_CALLS_MAP_ADDRESS_OVERFLOW = 611, /* calls: a place in a map is past 2,147,483,647 */
	EBPF_CALLS_UNWRITTEN_EXTERN = 620, /* calls: no pass has written the call of an extern; about the extern */

	/* 700 to 799: a file's types for the kernel. About the type of the file that is named, where it has a name */
	EBPF_KERNEL_TYPES_FILE_TOO_SHORT = 700, /* kernel types: the file is too short for its header */
	EBPF_KERNEL_TYPES_FILE_BAD_MAGIC = 701, /* kernel types: the file does not begin as ELF does */
	EBPF_KERNEL_TYPES_FILE_NOT_ELF64 = 702, /* kernel types: the file is no ELF64 */
	EBPF_KERNEL_TYPES_FILE_BAD_BYTE_ORDER = 703, /* kernel types: the byte order is neither little nor big */
	EBPF_KERNEL_TYPES_FILE_BAD_SECTION_TABLE = 704, /* kernel types: the section table is not inside the file */
	EBPF_KERNEL_TYPES_FILE_BAD_SECTION_RANGE = 705, /* kernel types: a section is not inside the file */
	EBPF_KERNEL_TYPES_FILE_BAD_STRING_TABLE = 706, /* kernel types: a string table can't be read */
	EBPF_KERNEL_TYPES_FILE_BAD_SYMBOL_TABLE = 707, /* kernel types: the symbol table can't be read */
	EBPF_KERNEL_TYPES_FILE_BAD_RELOCATION_TABLE = 708, /* kernel types: a relocation table can't be read */
	EBPF_KERNEL_TYPES_FILE_EXTENDED_NUMBERING = 709, /* kernel types: sections are numbered in the extended way */
	EBPF_KERNEL_TYPES_READ_INVALID_HEADER = 720, /* kernel types: the header of the types is not valid */
	EBPF_KERNEL_TYPES_READ_INVALID_TYPE_INFO = 721, /* kernel types: a type can't be read */
	EBPF_KERNEL_TYPES_READ_INVALID_INFO = 722, /* kernel types: info entries can't be read */
	EBPF_KERNEL_TYPES_READ_INVALID_STRING_OFFSET = 723, /* kernel types: a name is not inside the strings */
	EBPF_KERNEL_TYPES_READ_INVALID_RELOCATION_KIND = 724, /* kernel types: a CO-RE relocation has an unknown kind */
	EBPF_KERNEL_TYPES_READ_UNEXPECTED_BTF_TYPE = 725, /* kernel types: a type is of another kind than wanted */
	EBPF_KERNEL_TYPES_READ_UNKNOWN_BTF_TYPE = 726, /* kernel types: a type id is unknown */
	EBPF_KERNEL_TYPES_READ_UNKNOWN_BTF_TYPE_NAME = 727, /* kernel types: a type's name is unknown */
	EBPF_KERNEL_TYPES_READ_MAXIMUM_TYPE_DEPTH = 728, /* kernel types: types refer to one another too deep */
	EBPF_KERNEL_TYPES_READ_INVALID_DATASEC = 729, /* kernel types: a DATASEC can't be read */
	EBPF_KERNEL_TYPES_READ_INVALID_SYMBOL_NAME = 730, /* kernel types: a symbol's name can't be read */
	EBPF_KERNEL_TYPES_READ_INNER_MAP_CANNOT_BE_PINNED = 731, /* kernel types: an inner map is pinned */
	EBPF_KERNEL_TYPES_READ_MULTI_LEVEL_MAP_IN_MAP_NOT_SUPPORTED = 732, /* kernel types: maps of maps nest */
	EBPF_KERNEL_TYPES_READ_INVALID_VALUES_SPEC = 733, /* kernel types: the values of a map are not declared as such */
	EBPF_KERNEL_TYPES_READ_TOO_LARGE = 734, /* kernel types: the types are too large */
	EBPF_KERNEL_TYPES_NO_SECTION_SIZE = 740, /* kernel types: no section of the name has a size; about the section */
	EBPF_KERNEL_TYPES_NOT_A_VARIABLE = 741, /* kernel types: a section's entry names no variable; about what it names */
	EBPF_KERNEL_TYPES_NO_SYMBOL = 742, /* kernel types: a global variable has no symbol; about the variable */
	EBPF_KERNEL_TYPES_UNSUPPORTED_EXTERN = 743, /* kernel types: the type of a kconfig extern has no size; about the extern */
	EBPF_KERNEL_TYPES_TOO_LARGE = 744, /* ids, offsets or lengths pass 32 bits */

	/* 800 to 899: initial values of maps of maps and of arrays of programs. About the map, from 822 on */
	EBPF_INITIAL_SLOTS_FILE_TOO_SHORT = 800, /* initial values: the file is too short for its header */
	EBPF_INITIAL_SLOTS_FILE_BAD_MAGIC = 801, /* initial values: the file does not begin as ELF does */
	EBPF_INITIAL_SLOTS_FILE_NOT_ELF64 = 802, /* initial values: the file is no ELF64 */
	EBPF_INITIAL_SLOTS_FILE_BAD_BYTE_ORDER = 803, /* initial values: the byte order is neither little nor big */
	EBPF_INITIAL_SLOTS_FILE_BAD_SECTION_TABLE = 804, /* initial values: the section table is not inside the file */
	EBPF_INITIAL_SLOTS_FILE_BAD_SECTION_RANGE = 805, /* initial values: a section is not inside the file */
	EBPF_INITIAL_SLOTS_FILE_BAD_STRING_TABLE = 806, /* initial values: a string table can't be read */
	EBPF_INITIAL_SLOTS_FILE_BAD_SYMBOL_TABLE = 807, /* initial values: the symbol table can't be read */
	EBPF_INITIAL_SLOTS_FILE_BAD_RELOCATION_TABLE = 808, /* initial values: a relocation table can't be read */
	EBPF_INITIAL_SLOTS_FILE_EXTENDED_NUMBERING = 809, /* initial values: sections are numbered in the extended way */
	EBPF_INITIAL_SLOTS_UNKNOWN_SYMBOL = 820, /* the object lacks a symbol */
	EBPF_INITIAL_SLOTS_OUTSIDE_MAPS = 821, /* a place is in no map */
	EBPF_INITIAL_SLOTS_UNSUPPORTED_MAP_TYPE = 822, /* the map holds neither maps nor programs */
	EBPF_INITIAL_SLOTS_NOT_IN_MAPS = 823, /* a value of a map of maps is not in .maps */
	EBPF_INITIAL_SLOTS_UNSUPPORTED_KEY_SIZE = 824, /* a hash of maps with keys of other than 4 bytes */
	EBPF_INITIAL_SLOTS_UNKNOWN_MAP = 825, /* a value is an unknown map */
	EBPF_INITIAL_SLOTS_UNKNOWN_PROGRAM = 826, /* a value is an unknown program */
	EBPF_INITIAL_SLOTS_NOT_AN_ENTRY_POINT = 827, /* a value is not where the program of its name begins */
	EBPF_INITIAL_SLOTS_NO_VALUES = 828, /* the map's type does not end in `values` */
	EBPF_INITIAL_SLOTS_OUTSIDE_VALUES = 829, /* a place is before the map's `values` */
	EBPF_INITIAL_SLOTS_MISALIGNED = 830, /* a place is at no whole value */

	/* 900 to 999: kconfig externs. About the extern, but for 900, 901 and 906 */
	EBPF_KCONFIG_NOT_A_VARIABLE = 900, /* an entry of .kconfig names no variable */
	EBPF_KCONFIG_UNREADABLE_NAME = 901, /* the name of a kconfig extern can't be read */
	EBPF_KCONFIG_UNKNOWN_NAME = 902, /* the name of a kconfig extern begins neither with CONFIG_ nor with LINUX_ */
	EBPF_KCONFIG_UNSUPPORTED_TYPE = 903, /* the type of a kconfig extern has no values of a configuration */
	EBPF_KCONFIG_NO_VALUE = 904, /* a kconfig extern has to have a value and is given none */
	EBPF_KCONFIG_WRONG_SIZE = 905, /* the value of a kconfig extern has another size */
	EBPF_KCONFIG_TOO_LARGE = 906, /* the values of the kconfig externs together pass 32 bits */
	EBPF_KCONFIG_UNSUITED_VALUE = 907, /* what the configuration says of a kconfig extern is no value of its type */
	EBPF_KCONFIG_VALUE_OUT_OF_RANGE = 908, /* the number of a kconfig extern is out of the range of its type, or of 64 bits */

	/* 1000 to 1099: least types. About the extern or the program, where one needs an id of the kernel's own types */
	EBPF_LEAST_TYPES_RELOCATION = 1000, /* least types: a CO-RE relocation asks for the kernel's id of a type */
	EBPF_LEAST_TYPES_EXTERN = 1001, /* least types: an extern needs the kernel's id of its type */
	EBPF_LEAST_TYPES_TARGET = 1002, /* least types: a program needs the kernel's id of what it is attached to */
	EBPF_LEAST_TYPES_WRITE_INVALID_HEADER = 1020, /* least types: the header of the types is not valid */
	EBPF_LEAST_TYPES_WRITE_INVALID_TYPE_INFO = 1021, /* least types: a type can't be read */
	EBPF_LEAST_TYPES_WRITE_INVALID_INFO = 1022, /* least types: info entries can't be read */
	EBPF_LEAST_TYPES_WRITE_INVALID_STRING_OFFSET = 1023, /* least types: a name is not inside the strings */
	EBPF_LEAST_TYPES_WRITE_INVALID_RELOCATION_KIND = 1024, /* least types: a CO-RE relocation has an unknown kind */
	EBPF_LEAST_TYPES_WRITE_UNEXPECTED_BTF_TYPE = 1025, /* least types: a type is of another kind than wanted */
	EBPF_LEAST_TYPES_WRITE_UNKNOWN_BTF_TYPE = 1026, /* least types: a type id is unknown */
	EBPF_LEAST_TYPES_WRITE_UNKNOWN_BTF_TYPE_NAME = 1027, /* least types: a type's name is unknown */
	EBPF_LEAST_TYPES_WRITE_MAXIMUM_TYPE_DEPTH = 1028, /* least types: types refer to one another too deep */
	EBPF_LEAST_TYPES_WRITE_INVALID_DATASEC = 1029, /* least types: a DATASEC can't be read */
	EBPF_LEAST_TYPES_WRITE_INVALID_SYMBOL_NAME = 1030, /* least types: a symbol's name can't be read */
	EBPF_LEAST_TYPES_WRITE_INNER_MAP_CANNOT_BE_PINNED = 1031, /* least types: an inner map is pinned */
	EBPF_LEAST_TYPES_WRITE_MULTI_LEVEL_MAP_IN_MAP_NOT_SUPPORTED = 1032, /* least types: maps of maps nest */
	EBPF_LEAST_TYPES_WRITE_INVALID_VALUES_SPEC = 1033, /* least types: the values of a map are not declared as such */
	EBPF_LEAST_TYPES_WRITE_TOO_LARGE = 1034, /* least types: the types are too large */

	/* 1100 to 1199: completed maps. About the map, from 1120 on, but for 1122 */
	EBPF_COMPLETED_MAPS_FILE_TOO_SHORT = 1100, /* completed maps: the file is too short for its header */
	EBPF_COMPLETED_MAPS_FILE_BAD_MAGIC = 1101, /* completed maps: the file does not begin as ELF does */
	EBPF_COMPLETED_MAPS_FILE_NOT_ELF64 = 1102, /* completed maps: the file is no ELF64 */
	EBPF_COMPLETED_MAPS_FILE_BAD_BYTE_ORDER = 1103, /* completed maps: the byte order is neither little nor big */
	EBPF_COMPLETED_MAPS_FILE_BAD_SECTION_TABLE = 1104, /* completed maps: the section table is not inside the file */
	EBPF_COMPLETED_MAPS_FILE_BAD_SECTION_RANGE = 1105, /* completed maps: a section is not inside the file */
	EBPF_COMPLETED_MAPS_FILE_BAD_STRING_TABLE = 1106, /* completed maps: a string table can't be read */
	EBPF_COMPLETED_MAPS_FILE_BAD_SYMBOL_TABLE = 1107, /* completed maps: the symbol table can't be read */
	EBPF_COMPLETED_MAPS_FILE_BAD_RELOCATION_TABLE = 1108, /* completed maps: a relocation table can't be read */
	EBPF_COMPLETED_MAPS_FILE_EXTENDED_NUMBERING = 1109, /* completed maps: sections are numbered in the extended way */
	EBPF_COMPLETED_MAPS_UNKNOWN_PINNING = 1120, /* a map asks for a pinning that is neither 0 nor 1 */
	EBPF_COMPLETED_MAPS_SECOND_ARENA = 1121, /* a map is a second arena */
	EBPF_COMPLETED_MAPS_NO_ARENA = 1122, /* .addr_space.1 has variables, and no map is an arena */
	EBPF_COMPLETED_MAPS_ARENA_TOO_SMALL = 1123, /* the arena has fewer bytes than .addr_space.1 */

	/* 1200 to 1299: maps of struct_ops. About the struct (1222), map (1223), program (1224), variable (1240 on), member */
	/* (1280 on) */
	EBPF_STRUCT_OPS_FILE_TOO_SHORT = 1200, /* struct_ops: the file is too short for its header */
	EBPF_STRUCT_OPS_FILE_BAD_MAGIC = 1201, /* struct_ops: the file does not begin as ELF does */
	EBPF_STRUCT_OPS_FILE_NOT_ELF64 = 1202, /* struct_ops: the file is no ELF64 */
	EBPF_STRUCT_OPS_FILE_BAD_BYTE_ORDER = 1203, /* struct_ops: the byte order is neither little nor big */
	EBPF_STRUCT_OPS_FILE_BAD_SECTION_TABLE = 1204, /* struct_ops: the section table is not inside the file */
	EBPF_STRUCT_OPS_FILE_BAD_SECTION_RANGE = 1205, /* struct_ops: a section is not inside the file */
	EBPF_STRUCT_OPS_FILE_BAD_STRING_TABLE = 1206, /* struct_ops: a string table can't be read */
	EBPF_STRUCT_OPS_FILE_BAD_SYMBOL_TABLE = 1207, /* struct_ops: the symbol table can't be read */
	EBPF_STRUCT_OPS_FILE_BAD_RELOCATION_TABLE = 1208, /* struct_ops: a relocation table can't be read */
	EBPF_STRUCT_OPS_FILE_EXTENDED_NUMBERING = 1209, /* struct_ops: sections are numbered in the extended way */
	EBPF_STRUCT_OPS_NO_TYPES = 1220, /* the object has sections of struct_ops and no types */
	EBPF_STRUCT_OPS_NO_DATASEC = 1221, /* a section of struct_ops has no DATASEC of its name */
	EBPF_STRUCT_OPS_NO_KERNEL_STRUCT = 1222, /* the kernel lacks a struct that a map of struct_ops wants */
	EBPF_STRUCT_OPS_NO_DATA_MEMBER = 1223, /* the kernel's value of a map does not hold its struct */
	EBPF_STRUCT_OPS_OTHER_USE = 1224, /* maps use a program for two structs or two members */
	EBPF_STRUCT_OPS_NOT_A_VARIABLE = 1240, /* an entry of a section of struct_ops names no variable */
	EBPF_STRUCT_OPS_NOT_A_STRUCT = 1241, /* the type of a variable of struct_ops is no struct */
	EBPF_STRUCT_OPS_ANONYMOUS = 1242, /* the struct of a variable of struct_ops has no name */
	EBPF_STRUCT_OPS_NO_SYMBOL = 1243, /* the section has no symbol of a variable of struct_ops */
	EBPF_STRUCT_OPS_OUTSIDE_SECTION = 1244, /* a variable of struct_ops passes the end of the section */
	EBPF_STRUCT_OPS_UNKNOWN_SYMBOL = 1260, /* the object lacks the symbol of a relocation of struct_ops */
	EBPF_STRUCT_OPS_OUTSIDE_VARIABLES = 1261, /* a relocation of struct_ops is in no variable */
	EBPF_STRUCT_OPS_NO_MEMBER = 1262, /* no member begins at a relocation of struct_ops */
	EBPF_STRUCT_OPS_NO_FUNCTION_POINTER = 1263, /* a relocation of struct_ops is at a member that points to no function */
	EBPF_STRUCT_OPS_UNKNOWN_PROGRAM = 1264, /* the symbol of a relocation of struct_ops names no program */
	EBPF_STRUCT_OPS_OTHER_PROGRAM = 1265, /* a program at a member is in no section of struct_ops */
	EBPF_STRUCT_OPS_UNKNOWN_SIZE = 1280, /* the type of a member has no size */
	EBPF_STRUCT_OPS_BIT_FIELD = 1281, /* a member is a bit field */
	EBPF_STRUCT_OPS_OUTSIDE_STRUCT = 1282, /* a member passes the end of its struct */
	EBPF_STRUCT_OPS_MISSING_MEMBER = 1283, /* the kernel's struct lacks a member that is not zero */
	EBPF_STRUCT_OPS_DIFFERENT_KINDS = 1284, /* a member is of another kind in the kernel */
	EBPF_STRUCT_OPS_NOT_A_PROGRAM = 1285, /* a member is a pointer to no program */
	EBPF_STRUCT_OPS_KERNEL_NO_FUNCTION = 1286, /* a member with a program points to no function in the kernel */
	EBPF_STRUCT_OPS_DIFFERENT_SIZES = 1287, /* a member is of another size in the kernel */
	EBPF_STRUCT_OPS_OUTSIDE_VALUE = 1288, /* a member passes the end of the map's value in the kernel */
};

/* ---- what a refusal reports beside the name that it is about */

/* the numbers that an error states, added up in ebpf_refusal.has */
enum ebpf_detail {
	EBPF_HAS_SLOT = 1,
	EBPF_HAS_OFFSET = 2,
	EBPF_HAS_SYMBOL = 4,
	EBPF_HAS_ADDRESS = 8,
	EBPF_HAS_OTHER_ADDRESS = 16,
	EBPF_HAS_SECTION = 32,
	EBPF_HAS_SIZE = 64,
	EBPF_HAS_OTHER_SIZE = 128,
	EBPF_HAS_TYPE = 256,
	EBPF_HAS_RELOCATION = 512,
	EBPF_HAS_INDEX = 1024,
	EBPF_HAS_COUNT = 2048,
	EBPF_HAS_KIND = 4096,
};

/*
 * A refusal. Fields that `has` does not name are 0. docs/C.md, 'Refusals', says which numbers have which fields.
 */
struct ebpf_refusal {
	uint32_t number;	/* what the call returns */
	uint32_t has;		/* which of the numbers below the error states: enum ebpf_detail, added up */
	uint64_t slot;		/* the index of an instruction slot in its function */
	uint64_t offset;	/* an offset in bytes: of a relocation in its section, of a string in .BTF's strings */
	uint64_t symbol;	/* the index of a symbol in the file's table */
	uint64_t address;	/* an address in a section, or in the kernel */
	uint64_t other_address; /* the second one, where two differ */
	uint64_t section;	/* the index of a section in the file */
	uint64_t size;		/* a size in bytes: of what is there or wanted */
	uint64_t other_size;	/* the second one, where two differ: of the value that is given */
	uint64_t type_id;	/* the id of a type */
	uint64_t relocation;	/* the index of an ELF or CO-RE relocation among those of its section */
	uint64_t index;		/* the number of a member, an element or a variant that is asked for */
	uint64_t count;		/* how many of them there are, or how many slots */
	uint64_t kind;		/* a map type (enum bpf_map_type), a kind of CO-RE relocation, or a machine (e_machine) */
	size_t name_len;	/* how many bytes the name has: ebpf_error.name */
};

/*
 * Writes the name of a number: the stage and the variant of its error, as "parse: BadMagic". *len is its length.
 *  - A number below 100 has no stage: the name of 2 is "OutOfMemory".
 *  - Each number above has a name, whether a call returns it or not. The name of any other number is empty.
 * 64 bytes hold each name. Numbers: 1.
 */
uint32_t ebpf_number_name(uint32_t number, char *text, size_t room, size_t *len);

/*
 * Returns what a number says: the text beside it in the table above. It has no names of the object. It is static, ends
 * in a zero byte, and is never NULL: of other numbers it says that they are unknown.
 */
const char *ebpf_strerror(uint32_t number);

/* Returns 0 if the library has the version of this header, else EBPF_OTHER_VERSION. The last part may be greater. */
EBPF_INLINE uint32_t ebpf_check_version(void)
{
	uint32_t of_library = ebpf_version_number(), of_header = EBPF_VERSION_NUMBER;

	if (of_library / 1000 != of_header / 1000 || of_library < of_header)
		return EBPF_OTHER_VERSION;
	return EBPF_DONE;
}

/* ---- handles, and the error of the last call */

/* An object that was opened, the last pass that was made of it, its last error, and its lists. */
struct ebpf_handle;

/* The refusal of a call. The library makes it: later versions have more fields at its end. */
struct ebpf_error {
	const char *name;	     /* what the refusal is about: of a function, a map, a section, for example; "" for none */
	size_t name_len;	     /* how many bytes it has; a zero byte is behind them */
	uint32_t number;	     /* what the call returned; 0 where nothing was refused */
	uint32_t is_cut;	     /* 1: there was no memory for all of the name; else 0 */
	struct ebpf_refusal refusal; /* the same number, and the details; all 0 where nothing was refused */
};

/*
 * Returns the error of the last call that was given the handle, also as const. It is never NULL.
 *  - Each call with a handle writes it, those too that return a pointer or a count. If nothing was refused, its number
 *    is 0. `ebpf_last_error`, `ebpf_explain` and `ebpf_close` alone don't write it. `ebpf_clone` writes that of the
 *    handle that is copied.
 *  - It and its name are the handle's until the next call that is given the handle.
 *  - For NULL it is EBPF_MEMORY: `ebpf_open` and `ebpf_prepare` give out NULL only when out of memory.
 */
const struct ebpf_error *ebpf_last_error(const struct ebpf_handle *handle);

/*
 * Returns a sentence on the last error: the text of `ebpf_strerror`, then the name in quotes and the details, as
 * `a value does not fit its variable or its map; about the variable: "seen" (size 8, other size 7)`.
 *  - It ends in a zero byte, and is never NULL. It is the handle's until the next call that is given the handle.
 *  - The command `ebpf` may word the same error otherwise.
 *  - Without memory for a sentence it is the text alone.
 */
const char *ebpf_explain(const struct ebpf_handle *handle);

enum ebpf_parsing {
	EBPF_LENIENT = 0,
	EBPF_STRICT = 1,
};

/* How a file is opened. A new option is a new field at the end, and 0 stands for what was done before. */
struct ebpf_open_options {
	size_t size;	    /* of this struct, in bytes, as the caller's header has it */
	uint64_t max_bytes; /* how many bytes the object may own; 0: no limit */
	uint32_t parsing;   /* enum ebpf_parsing */
	uint32_t reserved;  /* 0 */
};

/* Options with their defaults. Set what differs. */
EBPF_INLINE struct ebpf_open_options ebpf_open_defaults(void)
{
	struct ebpf_open_options options = { sizeof(struct ebpf_open_options), 0, EBPF_LENIENT, 0 };

	return options;
}

/*
 * Opens the object of a file, and gives out a handle. `options` may be NULL: then they are the defaults.
 *
 * Also where the file is refused a handle is given out, so that `ebpf_last_error` and `ebpf_explain` say why, as
 * sqlite3_open does. Such a handle is closed for all other calls (3). Free it by `ebpf_close` too. *handle is NULL only
 * where there is no memory for a handle (2).
 *
 * Lenient parsing is the default. It accepts more than strict parsing:
 *  - Each section of code is a program's, whatever its name. If the library's list lacks the name, the programs have
 *    the kind EBPF_KIND_OTHER. Strict parsing refuses such a section (144).
 *  - A section with `?` before its name has the kind of the rest.
 *  - An array of programs may be declared with its programs.
 *  - A license ends at its first zero.
 *  - map_extra may be a 64-bit number.
 * It refuses a big-endian file with code (156), and a file for another machine (158): e_machine is neither EM_BPF nor
 * EM_NONE. For any other file that strict parsing accepts, both give the same object.
 *
 * Give a limit (`max_bytes`) for a file from strangers: a file of some kilobytes can make an object of gigabytes. The
 * call counts the bytes that the object would own before it makes it, and returns 157 above the limit.
 * docs/BEHAVIOUR.md, 'Limits', says what counts.
 *
 * Options are refused (EBPF_BAD_OPTIONS) if `size` is less than that of a size_t, if a field has an unknown value, or
 * if a byte behind the fields that this library knows is not 0. A field that is not wholly within `size` is 0.
 * Numbers: 2, 90, 100 to 199.
 */
EBPF_CHECKED uint32_t ebpf_open(const uint8_t *file, size_t file_len, const struct ebpf_open_options *options,
			struct ebpf_handle **handle) EBPF_NONNULL(4);

/* Gives out a handle with a copy of what `handle` holds: *copy is NULL with other numbers than 0. Numbers: 2, 3. */
EBPF_CHECKED uint32_t ebpf_clone(const struct ebpf_handle *handle, struct ebpf_handle **copy) EBPF_NONNULL(2);

/* Frees the handle and what it holds. NULL is freed as `free` does: nothing happens. */
void ebpf_close(struct ebpf_handle *handle);

/* ---- a kernel's types, read once for many calls and many objects */

/* The types of a kernel. */
struct ebpf_btf;

/*
 * Reads the types of a kernel, and gives them out. `types` is raw BTF in the byte order that its magic number states:
 * the bytes of /sys/kernel/btf/vmlinux. They are not needed after the call.
 *  - A call that is given what this gave is the call over these bytes. No call changes it.
 *  - *btf is NULL with other numbers than 0.
 * Numbers: 2, 200 to 219.
 */
EBPF_CHECKED uint32_t ebpf_btf_open(const uint8_t *types, size_t types_len, struct ebpf_btf **btf) EBPF_NONNULL(3);

/* Frees the types. NULL is freed as `free` does: nothing happens. */
void ebpf_btf_close(struct ebpf_btf *btf);

/* ---- what an object has */

struct ebpf_object_info {
	uint32_t is_big_endian;	     /* 1 or 0: the byte order of the file */
	uint32_t has_kernel_version; /* 1 or 0 */
	uint32_t kernel_version;     /* 0 where the file states none */
	uint32_t has_types;	     /* 1 or 0: whether the file has .BTF */
	uint32_t has_relocations;    /* 1 or 0: whether it has CO-RE relocations */
	uint32_t has_typed_externs;  /* 1 or 0: whether some extern's type is compared with the kernel's */
};

/* Numbers: 3. */
EBPF_CHECKED uint32_t ebpf_info(const struct ebpf_handle *handle, struct ebpf_object_info *info);

/* The license, without its zero byte. *len is its length. Numbers: 1, 3. */
EBPF_CHECKED uint32_t ebpf_license(const struct ebpf_handle *handle, char *text, size_t room, size_t *len);

/* Sets *states to 1 if the file has a section `license`, else to 0: the license is then the default GPL. Numbers: 3. */
EBPF_CHECKED uint32_t ebpf_states_license(const struct ebpf_handle *handle, uint32_t *states);

/*
 * How many rows a list has, and how many bytes its text has. A row is one C struct of a list. Its name is a place and a
 * length in the text (`name_at`, `name_len`). The names are one after the other, each with a zero byte behind it that
 * `name_len` does not count: text + row.name_at is a C string.
 */
struct ebpf_counts {
	size_t rows;
	size_t text;
};

/* what a program's section name says, in the order of the library's list */
enum ebpf_program_kind {
	EBPF_KIND_KRETPROBE = 0,
	EBPF_KIND_KPROBE = 1,
	EBPF_KIND_UPROBE = 2,
	EBPF_KIND_URETPROBE = 3,
	EBPF_KIND_TRACEPOINT = 4,
	EBPF_KIND_SOCKET_FILTER = 5,
	EBPF_KIND_XDP = 6,
	EBPF_KIND_SK_MSG = 7,
	EBPF_KIND_SK_SKB = 8,
	EBPF_KIND_SOCK_OPS = 9,
	EBPF_KIND_SCHED_CLS = 10,
	EBPF_KIND_CGROUP_SKB = 11,
	EBPF_KIND_CGROUP_SOCK_ADDR = 12,
	EBPF_KIND_CGROUP_SYSCTL = 13,
	EBPF_KIND_CGROUP_SOCKOPT = 14,
	EBPF_KIND_LIRC_MODE2 = 15,
	EBPF_KIND_PERF_EVENT = 16,
	EBPF_KIND_RAW_TRACEPOINT = 17,
	EBPF_KIND_LSM = 18,
	EBPF_KIND_LSM_CGROUP = 19,
	EBPF_KIND_BTF_TRACEPOINT = 20,
	EBPF_KIND_FENTRY = 21,
	EBPF_KIND_FEXIT = 22,
	EBPF_KIND_FLOW_DISSECTOR = 23,
	EBPF_KIND_EXTENSION = 24,
	EBPF_KIND_SK_LOOKUP = 25,
	EBPF_KIND_SK_REUSEPORT = 26,
	EBPF_KIND_CGROUP_SOCK = 27,
	EBPF_KIND_CGROUP_DEVICE = 28,
	EBPF_KIND_ITER = 29,
	EBPF_KIND_OTHER = 30, /* a name that says none of these: lenient parsing alone */
};

/* flags of a program */
enum ebpf_program_flag {
	EBPF_SLEEPABLE = 1,
	EBPF_MULTI = 2, /* uprobe.multi, uretprobe.multi */
	EBPF_FRAGS = 4,
	EBPF_TARGET = 8,    /* loaded with the id of a type of what it is attached to */
	EBPF_OPTIONAL = 16, /* `?` before its section's name: loaded only where it is asked for */
};

/* in the place of an attach type: a program of the kind is loaded with none (0 for BPF_PROG_LOAD) */
#define EBPF_NO_ATTACH_TYPE 0xffffffffu

struct ebpf_program {
	size_t name_at, name_len; /* its name's place in the text */
	size_t section;		  /* the index of its section */
	uint64_t address;	  /* its address there, as its symbol states it */
	size_t slots;		  /* how many slots it has as it stands, linked or not */
	uint32_t kind;		  /* enum ebpf_program_kind */
	uint32_t flags;		  /* of enum ebpf_program_flag, added up */
	uint32_t program_type;	  /* the kernel's enum bpf_prog_type; 0 where neither name nor kind says one */
	uint32_t attach_type;	  /* the kernel's enum bpf_attach_type, else EBPF_NO_ATTACH_TYPE */
};

/*
 * Lists the programs: a row each, their names one after the other in `text`.
 *  - Flags, program type and attach type come from the name of the program's section, if libbpf has it ('Program Types
 *    and ELF Sections'). A `?` before the name is skipped. This holds for EBPF_KIND_OTHER too, as for `tc` and
 *    `struct_ops/x`.
 *  - The flag EBPF_MULTI always comes from the kind.
 *  - For other names they come from the kind, as for `xdp/cpumap/x`. The kind EBPF_KIND_OTHER gives none: flags 0,
 *    program type 0 and EBPF_NO_ATTACH_TYPE.
 *  - `ebpf_program_section` gives the name. If it gives none, the kind alone counts. That is so for the earlier of two
 *    sections with one name.
 * Numbers: 1, 2, 3.
 */
EBPF_CHECKED uint32_t ebpf_programs(const struct ebpf_handle *handle, struct ebpf_program *rows, size_t rows_room,
			char *text, size_t text_room, struct ebpf_counts *counts);

/*
 * Writes the row of the program of a name, as `ebpf_programs` lists it. The text that the row points into is `name`
 * itself (`name_at` is 0). No list is made. Numbers: 3, 4.
 */
EBPF_CHECKED uint32_t ebpf_find_program(const struct ebpf_handle *handle, const char *name, size_t name_len,
			struct ebpf_program *row);

/* what the section that declares a map is for */
enum ebpf_section_kind {
	EBPF_SECTION_NONE = 0,
	EBPF_SECTION_MAPS = 1,
	EBPF_SECTION_BTF_MAPS = 2,
	EBPF_SECTION_DATA = 4,
	EBPF_SECTION_RODATA = 5,
	EBPF_SECTION_BSS = 6,
};

/* the attributes of a map; each number as BPF_MAP_CREATE takes it */
struct ebpf_map_shape {
	uint64_t extra;
	uint32_t type;
	uint32_t key_size;
	uint32_t value_size;
	uint32_t max_entries;
	uint32_t flags;
	uint32_t pinning;	/* 1: by name; 0: not */
	uint32_t key_type_id;	/* as BPF_MAP_CREATE takes it with the types of ebpf_kernel_types; 0: none */
	uint32_t value_type_id; /* as key_type_id */
};

struct ebpf_map {
	size_t name_at, name_len; /* its name's place in the text */
	size_t section;		  /* the index of its section */
	size_t data_len;	  /* how many bytes its initial data has */
	uint32_t section_kind;	  /* enum ebpf_section_kind */
	uint32_t has_inner;	  /* 1 or 0: whether `inner` says something */
	struct ebpf_map_shape shape;
	struct ebpf_map_shape inner; /* of the maps that a map of maps holds; all zero where there are none */
};

/*
 * Lists the maps: a row each, their names one after the other in `text`. Ids of types are those of the types that
 * `ebpf_kernel_types` writes for the file:
 *  - They are 0 if the object has no types, and for types of maps that the kernel creates without them.
 *  - The value of a map of variables has the DATASEC of the map's name. The id is 0 if there is none, or if the sizes
 *    of the map's data, of its values and of the DATASEC differ. A DATASEC of size 0 fits any size.
 *  - An inner map has its ids by the same types and rules.
 * Numbers: 1, 2, 3.
 */
EBPF_CHECKED uint32_t ebpf_maps(const struct ebpf_handle *handle, struct ebpf_map *rows, size_t rows_room,
			char *text, size_t text_room, struct ebpf_counts *counts);

/*
 * Writes the row of the map of a name, as `ebpf_maps` lists it. The text that the row points into is `name` itself
 * (`name_at` is 0). No list is made. Numbers: 3, 5.
 */
EBPF_CHECKED uint32_t ebpf_find_map(const struct ebpf_handle *handle, const char *name, size_t name_len,
			struct ebpf_map *row);

/* The initial data of a map. *len is its length. Numbers: 1, 3, 5. */
EBPF_CHECKED uint32_t ebpf_map_data(const struct ebpf_handle *handle, const char *name, size_t name_len,
			uint8_t *data, size_t room, size_t *len);

struct ebpf_extern {
	size_t name_at, name_len; /* its name's place in the text */
	uint64_t address;	  /* in the kernel; 0 where it is not known */
	uint32_t type_id;	  /* in the object's types */
	uint32_t kernel_type_id;  /* in the kernel's types; 0 where it is not known */
	uint32_t is_typed;	  /* 1 or 0: whether the kernel's type is compared with its own */
	uint32_t is_weak;	  /* 1 or 0: whether it may stay unresolved */
	uint32_t is_resolved;	  /* 1 or 0: whether the kernel has it */
	uint32_t has_address;	  /* 1 or 0: whether `address` is known */
};

/* Lists the externs: a row each, their names one after the other in `text`. Numbers: 1, 2, 3. */
EBPF_CHECKED uint32_t ebpf_externs(const struct ebpf_handle *handle, struct ebpf_extern *rows, size_t rows_room,
			char *text, size_t text_room, struct ebpf_counts *counts);

/*
 * The name of the section of a program, as `ebpf_sections` lists it. *len is its length: 0 if the section is not
 * listed. Numbers: 1, 3, 4.
 */
EBPF_CHECKED uint32_t ebpf_program_section(const struct ebpf_handle *handle, const char *name, size_t name_len,
			char *text, size_t room, size_t *len);

struct ebpf_section {
	size_t name_at, name_len; /* its name's place in the text */
	size_t number;		  /* its index in the file, as in the rows of programs and maps */
};

/*
 * Lists the named sections of the file: a row each, their names one after the other in `text`. The name of a program's
 * section says what the program is attached to. Of two sections with one name the later one is listed.
 * Numbers: 1, 2, 3.
 */
EBPF_CHECKED uint32_t ebpf_sections(const struct ebpf_handle *handle, struct ebpf_section *rows, size_t rows_room,
			char *text, size_t text_room, struct ebpf_counts *counts);

/* ---- what a loader hands to the kernel, laid out as its own structs */

/* what is known of the type that a program is attached to */
enum ebpf_target_answer {
	EBPF_TARGET_NOT_WANTED = 0, /* such programs are loaded without the id of a type */
	EBPF_TARGET_UNNAMED = 1,    /* they are loaded with one, and the section's name has no name of a target */
	EBPF_TARGET_FOUND = 2,	    /* *type_id is the type's */
	EBPF_TARGET_NOT_FOUND = 3,  /* the types have none of the name */
};

/*
 * Finds the type that the programs of a section of this name are attached to (attach_btf_id).
 *  - `types` is raw BTF in the byte order that its magic number states. It is the kernel's, or for freplace that of the
 *    program that is replaced.
 *  - *answer is of enum ebpf_target_answer. *type_id is 0 if no type is found.
 *  - The name of the target follows the first slash. `vmlinux:` before it and a `?` before the section's name are
 *    skipped.
 *  - The type is the function of this name. For lsm and iter, bpf_lsm_ or bpf_iter_ is put before the name. For tp_btf
 *    it is the TYPEDEF btf_trace_NAME.
 *  - Of types of one name the first is found.
 * Numbers: 2, 6, 200 to 219.
 */
EBPF_CHECKED uint32_t ebpf_attach_target(const char *section_name, size_t section_name_len, const uint8_t *types,
			size_t types_len, uint32_t *answer, uint32_t *type_id);

/* The same over types that were read. Numbers: 2, 3, 6. */
EBPF_CHECKED uint32_t ebpf_attach_target_with(const char *section_name, size_t section_name_len,
			const struct ebpf_btf *btf, uint32_t *answer, uint32_t *type_id);

/* struct bpf_insn */
struct ebpf_insn {
	uint8_t code;
	uint8_t regs; /* the destination in the low four bits, the source in the high four */
	int16_t off;
	int32_t imm;
};

/* struct bpf_func_info; the place is counted in slots, as BPF_PROG_LOAD takes it */
struct ebpf_func_info {
	uint32_t insn_off;
	uint32_t type_id;
};

/* struct bpf_line_info; the place is counted in slots, as BPF_PROG_LOAD takes it */
struct ebpf_line_info {
	uint32_t insn_off;
	uint32_t file_name_off;
	uint32_t line_off;
	uint32_t line_col;
};

/* The slots of a program as they stand. *count is how many. Numbers: 1, 3, 4. */
EBPF_CHECKED uint32_t ebpf_slots(const struct ebpf_handle *handle, const char *name, size_t name_len,
			struct ebpf_insn *slots, size_t room, size_t *count);

/* A program's func info, by slot. *count is how many. Numbers: 1, 3, 4. */
EBPF_CHECKED uint32_t ebpf_func_infos(const struct ebpf_handle *handle, const char *name, size_t name_len,
			struct ebpf_func_info *rows, size_t room, size_t *count);

/* A program's line info, by slot. *count is how many. Numbers: 1, 3, 4. */
EBPF_CHECKED uint32_t ebpf_line_infos(const struct ebpf_handle *handle, const char *name, size_t name_len,
			struct ebpf_line_info *rows, size_t room, size_t *count);

/*
 * ---- what is set of an object, before its first pass. After a pass each of these calls is refused (12), and changes
 * nothing
 */

/*
 * Writes the value of a variable into the data of the map that holds it. Of symbols with the name the one with the
 * greatest index counts. If there is none and `must_exist` is 0, the object is unchanged and the number is 0. A name
 * that is no UTF-8 is refused before all other faults of the value. Numbers: 2, 3, 6, 12, 150 to 152.
 */
EBPF_CHECKED uint32_t ebpf_set_value(struct ebpf_handle *handle, const char *name, size_t name_len,
			const uint8_t *value, size_t value_len, uint32_t must_exist);

/* A variable's name and its value. Each may be NULL with the length 0. */
struct ebpf_value_row {
	const char *name;
	size_t name_len;
	const uint8_t *value;
	size_t value_len;
	uint32_t must_exist; /* 0: the row is passed over where no symbol has the name */
};

/*
 * Writes the values of many variables, each as `ebpf_set_value` does. All rows are written, or none.
 *  - Of rows of one name the last counts.
 *  - If variables share bytes, the one with the greater name counts.
 *  - A row is refused first whose name is no UTF-8. Then comes the first fault in byte order of the names.
 *  - The table of the variables' names is made once for all rows. Each `ebpf_set_value` makes it anew, so 1,000 of
 *    those cost 1,000 tables.
 * Numbers: 2, 3, 6, 12, 150 to 152.
 */
EBPF_CHECKED uint32_t ebpf_set_values(struct ebpf_handle *handle, const struct ebpf_value_row *rows, size_t rows_len);

/* what a kconfig extern holds */
enum ebpf_kconfig_kind {
	EBPF_EXTERN_BOOL = 0,	  /* 1 byte: 1 for y, 0 for n */
	EBPF_EXTERN_TRISTATE = 1, /* 0 for n, 1 for y, 2 for m */
	EBPF_EXTERN_CHAR = 2,	  /* 1 byte: a number, or the letter */
	EBPF_EXTERN_INTEGER = 3,  /* 2, 4 or 8 bytes */
	EBPF_EXTERN_STRING = 4,	  /* an array of bytes: a string with a zero byte */
};

struct ebpf_kconfig_extern {
	size_t name_at, name_len; /* its name's place in the text */
	uint32_t size;		  /* of its value, in bytes */
	uint32_t kind;		  /* enum ebpf_kconfig_kind */
	uint32_t is_signed;	  /* 1 or 0: whether its numbers are signed; 0 of other kinds than chars and integers */
	uint32_t is_weak;	  /* 1 or 0: whether it may stay without a value, and is zeros then */
};

/*
 * Lists the kconfig externs (`extern .. __kconfig`): a row each, their names one after the other in `text`. They are in
 * the order in which the object's types name them, and not by name. Numbers: 1, 2, 3, 900 to 903.
 */
EBPF_CHECKED uint32_t ebpf_kconfig(const struct ebpf_handle *handle, struct ebpf_kconfig_extern *rows,
			size_t rows_room, char *text, size_t text_room, struct ebpf_counts *counts);

/*
 * Returns the value of a kconfig extern by a kernel's configuration. `config` is its text: /proc/config.gz or
 * /boot/config-RELEASE, unpacked. The first of its lines that begins with the extern's name and `=` counts.
 *  - *len is the value's length, as `ebpf_kconfig` lists it.
 *  - If there is no such line, NULL is returned and nothing is refused: the number of `ebpf_last_error` is 0. So it is
 *    for a name that does not begin with CONFIG_.
 *  - The bytes are in the byte order of the object. The handle keeps them, as it keeps lists.
 *  - The first extern of the name counts.
 * Numbers: 2, 3, 8, 900 to 903, 907, 908.
 */
const uint8_t *ebpf_kconfig_value(const struct ebpf_handle *handle, const char *name, size_t name_len,
			const char *config, size_t config_len, size_t *len);

/*
 * Returns a number as the value of a kconfig extern: what the loader knows of the kernel. *len is the value's length.
 *  - LINUX_KERNEL_VERSION is a << 16 | b << 8 | c for the version a.b.c.
 *  - LINUX_HAS_BPF_COOKIE and LINUX_HAS_SYSCALL_WRAPPER are 1 or 0.
 *  - The bytes are in the byte order of the object. The handle keeps them, as it keeps lists.
 *  - The first extern of the name counts.
 * Numbers: 2, 3, 8, 900 to 903, 907, 908.
 */
const uint8_t *ebpf_kconfig_number(const struct ebpf_handle *handle, const char *name, size_t name_len, uint64_t number,
			size_t *len);

/*
 * Completes the BTF-defined maps as libbpf does it. `file` is what the handle was opened from. `page_size` is the
 * number of bytes of a page, 4096 on most systems.
 *  - It refuses pinnings other than 0 and 1, a second map of type 33 (BPF_MAP_TYPE_ARENA), and variables in an arena
 *    that is not there or is too small.
 *  - The arena gets the bytes of the section `.addr_space.1` as data, and that section. Then `ebpf_relocate_maps`
 *    writes references to the variables in it (without this call 301), and `ebpf_variable_at` lists them.
 *  - All else is unchanged. The object owns as many bytes more as the section has: they are not in `max_bytes`.
 * A loader maps the arena's pages into memory (mmap(2)), at `extra` if it is not 0, and copies the data to their start.
 * Numbers: 2, 3, 12, 1100 to 1199.
 */
EBPF_CHECKED uint32_t ebpf_complete_maps(struct ebpf_handle *handle, const uint8_t *file, size_t file_len,
			uint32_t page_size);

/*
 * Adds the map `.kconfig`, whose data are the values of the kconfig externs, and makes their symbols variables of it.
 * `ebpf_maps` lists it. `ebpf_relocate_maps` writes its descriptor. Its flags are BPF_F_RDONLY_PROG: freeze the map
 * once it is filled.
 *  - Rows are as those of `ebpf_set_values`; `must_exist` is not read. Of rows of one name the last counts. A row whose
 *    name no extern has is skipped.
 *  - A weak extern without a row is zeros.
 *  - An object without such externs is unchanged.
 *  - Names that are no UTF-8 are refused first. Then come the faults of the list, then the first of the values.
 * Numbers: 2, 3, 6, 12, 900 to 906.
 */
EBPF_CHECKED uint32_t ebpf_define_kconfig(struct ebpf_handle *handle, const struct ebpf_value_row *rows,
			size_t rows_len);

struct ebpf_variable {
	size_t name_at, name_len; /* its name's place in the text */
	size_t map_at, map_len;	  /* the place of the name of its map */
	uint64_t offset;	  /* where it begins in the map's data */
	uint64_t size;		  /* in bytes */
};

/*
 * Lists the variables in the data of maps: a row each. `text` has the name of each and then that of its map. They are
 * the symbols that have bytes, all of them inside the data of a map. Of symbols of one name the one with the greatest
 * index counts. Numbers: 1, 2, 3.
 */
EBPF_CHECKED uint32_t ebpf_variables(const struct ebpf_handle *handle, struct ebpf_variable *rows, size_t rows_room,
			char *text, size_t text_room, struct ebpf_counts *counts);

/* The bytes of a variable in the data of its map, as they are now. *len is how many. Numbers: 1, 2, 3, 10. */
EBPF_CHECKED uint32_t ebpf_value(const struct ebpf_handle *handle, const char *name, size_t name_len,
			uint8_t *value, size_t room, size_t *len);

/* Sets all of the initial data of a map, which has as many bytes as before. Numbers: 3, 5, 9, 12. */
EBPF_CHECKED uint32_t ebpf_set_map_data(struct ebpf_handle *handle, const char *name, size_t name_len,
			const uint8_t *data, size_t data_len);

/* Sets how many entries a map holds at most. Numbers: 3, 5, 12. */
EBPF_CHECKED uint32_t ebpf_set_max_entries(struct ebpf_handle *handle, const char *name, size_t name_len,
			uint32_t entries);

/* Sets the size of a map's values, in bytes. Numbers: 3, 5, 12. */
EBPF_CHECKED uint32_t ebpf_set_value_size(struct ebpf_handle *handle, const char *name, size_t name_len,
			uint32_t size);

/*
 * If `has_newer` is 0, replaces newer helper functions in every function. 4 (probe_read) replaces 112 and 113
 * (probe_read_user, probe_read_kernel). 45 (probe_read_str) replaces 114 and 115. Numbers: 3, 12.
 */
EBPF_CHECKED uint32_t ebpf_sanitize(struct ebpf_handle *handle, uint32_t has_newer);

/*
 * Leaves programs out: they are not linked, and what they alone need is not asked for. `names` has `count` names, each
 * with a zero byte behind it.
 *  - So a program that calls an extern that the kernel lacks doesn't stop the others.
 *  - A remaining program keeps each function that it reaches, with all relocations there and the externs of these.
 *  - The relocations of other functions are gone, and the externs to which only these referred. Maps stay.
 *  - A name that no program has is refused (4), about the first such name. A name may occur twice.
 * Numbers: 2, 3, 4, 6, 12.
 */
EBPF_CHECKED uint32_t ebpf_leave_out(struct ebpf_handle *handle, const char *const *names, size_t count);

/*
 * ---- what a handle keeps for its caller
 *
 * These calls return what the handle has, with no buffer of the caller's.
 *  - What they return is the handle's. It stays until a call that takes the handle without const has returned, or
 *    `ebpf_close`. So a name may be given to such a call, and is gone behind it: between two passes ask again.
 *  - NULL is returned for what is refused. `ebpf_last_error` says why: 2, 3, what the call of the same list returns, or
 *    EBPF_NO_ROW for an index that the list lacks. So a loop may end at NULL:
 *
 *	for (size_t at = 0; (name = ebpf_program_at(handle, at, &program)); at++)
 *
 *  - A count is 0 for what is refused.
 *  - A list is taken once, by the first call that asks for it, and dropped with what it returned.
 *
 * Each `_at` returns the name of a row, a C string, and writes the row, which may be NULL. `name_len` is the name's
 * length, and `name_at` is 0: what is returned is the text that the row points into. So the second name of a row is
 * there too: that of a variable's map is name + row.map_at, that of an initial value's target name + row.target_at.
 */
size_t ebpf_program_count(const struct ebpf_handle *handle);
const char *ebpf_program_at(const struct ebpf_handle *handle, size_t index, struct ebpf_program *row);

size_t ebpf_map_count(const struct ebpf_handle *handle);
const char *ebpf_map_at(const struct ebpf_handle *handle, size_t index, struct ebpf_map *row);

size_t ebpf_extern_count(const struct ebpf_handle *handle);
const char *ebpf_extern_at(const struct ebpf_handle *handle, size_t index, struct ebpf_extern *row);

size_t ebpf_section_count(const struct ebpf_handle *handle);
const char *ebpf_section_at(const struct ebpf_handle *handle, size_t index, struct ebpf_section *row);

size_t ebpf_kconfig_count(const struct ebpf_handle *handle);
const char *ebpf_kconfig_at(const struct ebpf_handle *handle, size_t index, struct ebpf_kconfig_extern *row);

size_t ebpf_variable_count(const struct ebpf_handle *handle);
const char *ebpf_variable_at(const struct ebpf_handle *handle, size_t index, struct ebpf_variable *row);

/* Of the program of an index: its slots as they are, its info entries, and the name of its section ("" for none). */
const struct ebpf_insn *ebpf_program_slots(const struct ebpf_handle *handle, size_t index, size_t *count);
const struct ebpf_func_info *ebpf_program_func_infos(const struct ebpf_handle *handle, size_t index, size_t *count);
const struct ebpf_line_info *ebpf_program_line_infos(const struct ebpf_handle *handle, size_t index, size_t *count);
const char *ebpf_program_section_name(const struct ebpf_handle *handle, size_t index);

/* The initial data of the map of an index. *len is its length. */
const uint8_t *ebpf_map_contents(const struct ebpf_handle *handle, size_t index, size_t *len);

/* The license as a C string: the default GPL where `ebpf_states_license` says that the file states none. */
const char *ebpf_license_text(const struct ebpf_handle *handle);

/*
 * The types of a file for BPF_BTF_LOAD: its section .BTF, completed as the kernel takes it.
 *  - `file` is what the handle was opened from. The handle is given the types and the error.
 *  - Data sections get their sizes and offsets.
 *  - Hidden functions and variables become static.
 *  - The externs of .ksyms and .kconfig become variables.
 *  - Ids and offsets of strings stay. So those of func info, line info and maps fit.
 * *len is the length of the types: 0 if the file has no .BTF. Numbers: 2, 3, 700 to 799.
 */
const uint8_t *ebpf_kernel_types(const struct ebpf_handle *handle, const uint8_t *file, size_t file_len, size_t *len);

/*
 * The types of a kernel that the object's CO-RE relocations ask for, as raw BTF: some kilobytes in place of megabytes, for
 * a kernel without /sys/kernel/btf/vmlinux. Each relocation has the same outcome over them as over the kernel's.
 *  - Their ids are new. An object that needs ids of the kernel's own types is refused.
 *  - Call it before `ebpf_relocate_types`. The handle is given the types and the error.
 * *len is the length of the types. Numbers: 2, 3, 1000 to 1099.
 */
const uint8_t *ebpf_least_types(const struct ebpf_handle *handle, const struct ebpf_btf *btf, size_t *len);

/* An initial value of a map of maps or of an array of programs. */
struct ebpf_initial_slot {
	size_t name_at, name_len;     /* the place of the map's name in the text */
	size_t target_at, target_len; /* the place of the name of what stands there */
	uint32_t index;		      /* in the map, and its key, in the byte order of the machine */
	uint32_t is_program;	      /* 1: the program of this name stands there; 0: the map */
};

/*
 * Takes the list of the initial values of the object's maps, by the maps' names in byte order, then by index. *count is
 * how many rows `ebpf_initial_slot_at` has then: it returns the name of the row's map, and that of its target follows.
 *  - `file` is what the handle was opened from. Other bytes give their own relocations over this object.
 *  - An object with an array of programs is opened by lenient parsing.
 *  - A loader writes the maps once all are made, and the programs once all are loaded.
 * Numbers: 2, 3, 800 to 899.
 */
EBPF_CHECKED uint32_t ebpf_initial_slots(const struct ebpf_handle *handle, const uint8_t *file, size_t file_len,
			size_t *count);
const char *ebpf_initial_slot_at(const struct ebpf_handle *handle, size_t index, struct ebpf_initial_slot *row);

/* A map of struct_ops, as the kernel of some types takes it. */
struct ebpf_struct_ops_map {
	size_t name_at, name_len; /* the place of the name in the text */
	size_t value_len;	  /* the size of the value in bytes */
	size_t programs;	  /* how many programs the value holds */
	uint32_t struct_id;	  /* the id of the kernel's struct: attach_btf_id of its programs */
	uint32_t value_type_id;	  /* the id of the STRUCT that is the value: btf_vmlinux_value_type_id */
	uint32_t is_link;	  /* 1 or 0: whether a link attaches it (BPF_F_LINK) */
};

/* A program whose descriptor the value of such a map holds. */
struct ebpf_struct_ops_program {
	size_t name_at, name_len; /* the place of the program's name in the text */
	uint64_t offset;	  /* where in the value its descriptor goes, in bytes: a number of 8 bytes */
	size_t member;		  /* the index of its member in the kernel's struct: expected_attach_type */
};

/*
 * Takes the list of the maps of struct_ops that a loader makes, by the types of the running kernel. *count is how many
 * there are. `file` is what the handle was opened from.
 *  - The maps are the variables of the sections `.struct_ops` and `.struct_ops.link`, in the order of sections and of
 *    their types. Those of `?.struct_ops` and `?.struct_ops.link` are not listed: libbpf creates them only where it is
 *    asked to.
 *  - `ebpf_struct_ops_map_at` returns the name of a map. BPF_MAP_CREATE takes type 26, keys of 4 bytes, one entry, the
 *    descriptor of the object's types, and the numbers of the row.
 *  - `ebpf_struct_ops_value` returns the bytes of the value of a map; they are zero where descriptors go.
 *  - `ebpf_struct_ops_program_at` returns the name of a program of a map, in the order of the members. Load it with the
 *    map's `struct_id` and its `member`, and write its descriptor at `offset` of a copy of the value. The value goes to
 *    key 0. It registers the struct, where no link does.
 *  - Call it before `ebpf_leave_out`, which takes away programs that these maps may name. The object is unchanged.
 * Numbers: 2, 3, 1200 to 1299.
 */
EBPF_CHECKED uint32_t ebpf_struct_ops_maps(const struct ebpf_handle *handle, const uint8_t *file, size_t file_len,
			const struct ebpf_btf *btf, size_t *count);
const char *ebpf_struct_ops_map_at(const struct ebpf_handle *handle, size_t index, struct ebpf_struct_ops_map *row);
const char *ebpf_struct_ops_program_at(const struct ebpf_handle *handle, size_t map, size_t index,
			struct ebpf_struct_ops_program *row);
const uint8_t *ebpf_struct_ops_value(const struct ebpf_handle *handle, size_t map, size_t *len);

/*
 * ---- relocation, a pass at a time, in this order: ebpf_relocate_types, ebpf_relocate_maps, ebpf_resolve_externs,
 * ebpf_relocate_externs, ebpf_relocate_calls; or all of them by ebpf_prepare_handle
 *
 * A handle knows the last pass that was made of its object. Each pass may be left out, and each is made at most once:
 *  - The pass that was made last is refused (11). So is one that comes before it (12). Nothing is changed.
 *  - A pass that is refused was not made, and may be made again. `ebpf_prepare_handle` begins with the first pass.
 *  - A copy (ebpf_clone) knows what the handle knew.
 * So, whatever calls are made with a handle and whatever they return, its slots are those of the passes that returned
 * 0, each made once and in this order, of the object as it was when the first of them began.
 */

/*
 * A map's name and its descriptor.
 *  - Each map that a slot refers to needs a row, a map of variables too. Else the number is
 *    EBPF_MAPS_MISSING_DESCRIPTOR, about the map. `ebpf_maps_without_descriptors` lists all such slots.
 *  - Each row needs the name of a map of the object. Else the number is EBPF_MAPS_UNKNOWN_MAP, about the name. It comes
 *    first.
 *  - Of two rows for one name, or for maps of one symbol, the later counts.
 */
struct ebpf_descriptor {
	const char *name;
	size_t name_len;
	int32_t descriptor;
};

/*
 * Relocates the functions to a kernel's types (CO-RE). `types` is raw BTF in the byte order that its magic number
 * states. Numbers: 2, 3, 11, 12, 200 to 299.
 */
EBPF_CHECKED uint32_t ebpf_relocate_types(struct ebpf_handle *handle, const uint8_t *types, size_t types_len);

/* The same over types that were read. Numbers: 2, 3, 11, 12, 220 to 299. */
EBPF_CHECKED uint32_t ebpf_relocate_types_with(struct ebpf_handle *handle, const struct ebpf_btf *btf);

/* the outcome of a CO-RE relocation over a kernel's types; the names of this part call it a record */
enum ebpf_record_result {
	EBPF_RECORD_VALUE = 0,	 /* its instruction gets `value`: also the 0 that says that something is not there */
	EBPF_RECORD_ABSENT = 1,	 /* there is no value: its instruction fails if it is reached; `absence` says why */
	EBPF_RECORD_REFUSED = 2, /* it can't be applied, and ebpf_relocate_types refuses by the number `fault` */
};

/* what a kernel's types lack */
enum ebpf_absence {
	EBPF_ABSENT_NONE = 0,	     /* nothing */
	EBPF_ABSENT_TYPE = 1,	     /* a type of the kind and the name */
	EBPF_ABSENT_TYPE_KIND = 2,   /* types have the kind and the name; none is compatible with the object's own */
	EBPF_ABSENT_MEMBER = 3,	     /* a member of a name on the way to the field, or an element of a number */
	EBPF_ABSENT_MEMBER_KIND = 4, /* a member has the name; its type is not compatible with the object's own */
	EBPF_ABSENT_ENUMERATOR = 5,  /* a variant of the name */
	EBPF_ABSENT_VALUE = 6,	     /* the field is there, and what is asked of it can't be had */
};

struct ebpf_record_outcome {
	size_t name_at, name_len; /* the place of its section's name in the text; length 0 if that can't be read */
	size_t number;		  /* its number among the CO-RE relocations of that section in .BTF.ext, from 0 on */
	size_t section;		  /* the index of the section of the function that has its slot; 0 where none has it */
	uint64_t address;	  /* the function's address there, in bytes; 0 where none has it */
	size_t slot;		  /* the number of its slot in the function; 0 where none has it */
	uint64_t value;		  /* 0 where `result` is not EBPF_RECORD_VALUE */
	uint32_t has_slot;	  /* 1 or 0: whether a function of its section has its slot */
	uint32_t result;	  /* enum ebpf_record_result */
	uint32_t absence;	  /* enum ebpf_absence */
	uint32_t fault;		  /* of enum ebpf_number, 220 to 249; 0 where it is not refused */
};

/*
 * Takes the list of the outcomes of all CO-RE relocations, in the order of .BTF.ext, also behind one that is refused.
 * Call it before `ebpf_relocate_types`. The object is unchanged. *count is how many rows `ebpf_record_outcome_at` has
 * then: it returns the name of the row's section.
 *  - `ebpf_relocate_types` refuses by the first row that is refused, else it writes the values. A section of .BTF.ext
 *    without relocations and with a name that the file lacks is refused there, and has no row here.
 *  - An object without types or CO-RE relocations has no rows.
 * Numbers: 2, 3, 200 to 219.
 */
EBPF_CHECKED uint32_t ebpf_record_outcomes(const struct ebpf_handle *handle, const uint8_t *types, size_t types_len,
			size_t *count);

/* The same over types that were read. Numbers: 2, 3. */
EBPF_CHECKED uint32_t ebpf_record_outcomes_with(const struct ebpf_handle *handle, const struct ebpf_btf *btf,
			size_t *count);
const char *ebpf_record_outcome_at(const struct ebpf_handle *handle, size_t index, struct ebpf_record_outcome *row);

/* whether an object runs on a kernel, by the types of both */
enum ebpf_verdict {
	EBPF_VERDICT_OK = 0,	 /* all passes succeed, and no program has a reason to break */
	EBPF_VERDICT_BREAKS = 1, /* there is such a reason */
};

/* why programs break on a kernel */
enum ebpf_reason_kind {
	/* all programs break: the row names no program */
	EBPF_REASON_EMPTY_SECTION = 1, /* a section of CO-RE relocations has none */
	EBPF_REASON_EXTERN = 2,	       /* the kernel lacks the extern `subject`, or has another of the name: `fault` */
	EBPF_REASON_PASS = 3,	       /* a pass before linking refuses the object by the number `fault`, about `subject` */

	/* all programs where the row names none, else one program */
	EBPF_REASON_RELOCATION = 4, /* the CO-RE relocation `relocation` is refused by the number `fault` */

	/* one program */
	EBPF_REASON_LINKING = 5,  /* it can't be linked: the number `fault`, about the function `subject` */
	EBPF_REASON_POISONED = 6, /* it reaches the slot, and the kernel lacks what `relocation` asks for */
	EBPF_REASON_HELPER = 7,	  /* it reaches the slot, and the kernel lacks the helper of `number` (enum bpf_func_id) */
	EBPF_REASON_FUNCTION = 8, /* it reaches the slot, and the kernel lacks the weak extern `subject` that is called */
	EBPF_REASON_MAP_TYPE = 9, /* the kernel lacks the type `number` of the map `subject` that the slot refers to */
	EBPF_REASON_TARGET = 10,  /* the types have no `subject` that it is attached to; it doesn't break by this alone */
};

struct ebpf_reason {
	size_t name_at, name_len;	/* the place of the program's name in the text; length 0: all programs break */
	size_t subject_at, subject_len; /* the place of the name of what is lacking or refused; length 0: it has none */
	size_t slot;			/* the number of the slot in the linked program */
	size_t section;			/* the index of the section of the function that is copied there */
	uint64_t address;		/* the function's address there, in bytes */
	size_t function_slot;		/* the number of the slot in the function */
	size_t relocation;		/* the index of its row, as ebpf_record_outcome_at takes it */
	uint64_t number;		/* of the helper, of the map type, or the index of the extern's symbol; else 0 */
	uint32_t kind;			/* enum ebpf_reason_kind */
	uint32_t fault;			/* of enum ebpf_number; 0 where nothing is refused */
	uint32_t has_slot;		/* 1 or 0: whether `slot` to `function_slot` say something; else these are 0 */
	uint32_t has_relocation;	/* 1 or 0: whether `relocation` says something; else it is 0 */
};

struct ebpf_verdict_summary {
	size_t programs_ok;		/* how many have no reason to break */
	size_t programs_break;		/* how many break */
	size_t programs_without_target; /* how many have no other reason than EBPF_REASON_TARGET */
	size_t reasons;			/* how many rows ebpf_reason_at has */
	uint32_t verdict;		/* enum ebpf_verdict */
};

/*
 * Judges the object by a kernel's types, as `ebpf check` does, and takes the list of the reasons for which programs break:
 * first those of all programs, then those of each program, by their names in byte order. The number is 0 whatever the
 * verdict is. `ebpf_reason_at` returns the name of the row's program, and that of its subject follows.
 *  - With EBPF_VERDICT_OK all passes succeed, given these types and a descriptor of each map. Each program then reaches no
 *    poisoned slot and no call of what the kernel lacks. The kernel's verifier is not asked.
 *  - Externs without a type and kconfig externs count as found. Helpers and map types are known where the types have
 *    enum bpf_func_id and enum bpf_map_type. Modules, and targets of freplace, are not looked at.
 *  - Sections with `?` are judged too: leave out what is not loaded (ebpf_leave_out).
 *  - Call it before the passes. The object is unchanged.
 * Numbers: 2, 3.
 */
EBPF_CHECKED uint32_t ebpf_check(const struct ebpf_handle *handle, const struct ebpf_btf *btf,
			struct ebpf_verdict_summary *summary);
const char *ebpf_reason_at(const struct ebpf_handle *handle, size_t index, struct ebpf_reason *row);

/* A slot that refers to a map. */
struct ebpf_map_slot {
	size_t name_at, name_len; /* the place of the map's name in the text */
	size_t section;		  /* the index of the section of the slot's function */
	uint64_t address;	  /* the function's address there, in bytes */
	size_t slot;		  /* the number of the slot in the function */
};

/*
 * Takes the list of the slots whose own map has no row here, by their functions' sections and addresses, then by slot.
 * *count is how many rows `ebpf_map_without_descriptor_at` has then: it returns the name of the row's map.
 *  - With none each slot that refers to a map gets the descriptor of its own map. So a loader that makes only the maps
 *    that programs refer to calls it with no rows, and makes the maps of these names.
 *  - A slot's own map is that of its symbol, else the map of the symbol's section, as of a variable in .bss. A slot that
 *    refers to a section without maps has none.
 *  - Call it before `ebpf_relocate_maps`. The object is unchanged.
 *  - Descriptors of the rows are not read. Names that the object lacks are passed over.
 * Numbers: 2, 3, 6.
 */
EBPF_CHECKED uint32_t ebpf_maps_without_descriptors(const struct ebpf_handle *handle,
			const struct ebpf_descriptor *rows, size_t rows_len, size_t *count);
const char *ebpf_map_without_descriptor_at(const struct ebpf_handle *handle, size_t index, struct ebpf_map_slot *row);

/*
 * Writes descriptors of maps into the slots that refer to them. A row whose name is no UTF-8 is refused before all
 * other faults of the rows. Numbers: 2, 3, 6, 11, 12, 300 to 399.
 */
EBPF_CHECKED uint32_t ebpf_relocate_maps(struct ebpf_handle *handle, const struct ebpf_descriptor *rows,
			size_t rows_len);

/*
 * Finds the externs in a kernel's types and in its symbols, which are given as the text of /proc/kallsyms. Types of
 * length 0 are none. A line that is no UTF-8 is refused if lines are needed.
 * Numbers: 2, 3, 11, 12, 200 to 219, 400 to 499.
 */
EBPF_CHECKED uint32_t ebpf_resolve_externs(struct ebpf_handle *handle, const uint8_t *types, size_t types_len,
			const uint8_t *symbols, size_t symbols_len);

/* The same over types that were read. Numbers: 2, 3, 11, 12, 400 to 499. */
EBPF_CHECKED uint32_t ebpf_resolve_externs_with(struct ebpf_handle *handle, const struct ebpf_btf *btf,
			const uint8_t *symbols, size_t symbols_len);

/*
 * Sets *wants to 1 if finding the externs reads the kernel's symbols, else to 0: then give none, and don't read
 * /proc/kallsyms, which takes long. It is 1 if the object has types, and an extern without a type that is not found yet.
 * Numbers: 3.
 */
EBPF_CHECKED uint32_t ebpf_wants_symbols(const struct ebpf_handle *handle, uint32_t *wants);

/* Writes what is known of the externs into the slots that refer to them. Numbers: 2, 3, 11, 12, 500 to 599. */
EBPF_CHECKED uint32_t ebpf_relocate_externs(struct ebpf_handle *handle);

/* Links each program with the functions that it reaches. Numbers: 2, 3, 11, 600 to 699. */
EBPF_CHECKED uint32_t ebpf_relocate_calls(struct ebpf_handle *handle);

/* A copy of a function in a linked program. Slots are counted, each 8 bytes. */
struct ebpf_code_copy {
	size_t name_at, name_len; /* the place of the function's name in the text */
	size_t base;		  /* the slot of the linked program at which the copy begins */
	size_t slots;		  /* how many slots it has */
	size_t section;		  /* the index of the function's section */
	uint64_t address;	  /* the function's address there, in bytes */
};

/*
 * Takes the list of the copies of functions in the linked program of a name. The first is the program's own, at slot
 * 0. One of each function that it reaches follows, in the order of their slots. *count is how many rows
 * `ebpf_code_copy_at` has then: it returns the function's name.
 *  - Call it before `ebpf_relocate_calls`. Nothing is linked: the object is unchanged.
 *  - A program that can't be linked is refused as `ebpf_relocate_calls` refuses it, about the program. Other programs
 *    are not looked at.
 * Numbers: 2, 3, 4, 600 to 699.
 */
EBPF_CHECKED uint32_t ebpf_link_map(const struct ebpf_handle *handle, const char *name, size_t name_len,
			size_t *count);
const char *ebpf_code_copy_at(const struct ebpf_handle *handle, size_t index, struct ebpf_code_copy *row);

/* A slot of a linked program that refers to one of its copies. */
struct ebpf_code_reference {
	size_t slot;	  /* its number in the linked program */
	size_t base;	  /* the slot at which the copy begins that it refers to, as in that copy's row */
	uint32_t is_call; /* 1: it calls the function; 0: it loads its address */
};

/*
 * Lists the slots of the linked program of a name that refer to its copies: a row each, in the order of the slots.
 * *count is how many. Call it before `ebpf_relocate_calls`. It refuses as `ebpf_link_map` does.
 * Numbers: 1, 2, 3, 4, 600 to 699.
 */
EBPF_CHECKED uint32_t ebpf_link_references(const struct ebpf_handle *handle, const char *name, size_t name_len,
			struct ebpf_code_reference *rows, size_t room, size_t *count);

/* What the passes are given. Each array may be NULL. A new input is a new field at the end, and 0 is none. */
struct ebpf_prepare_inputs {
	size_t size; /* of this struct, in bytes, as the caller's header has it */
	const uint8_t *types; /* as for ebpf_relocate_types */
	size_t types_len; /* 0: functions are not relocated, and externs are looked up in the symbols alone */
	const struct ebpf_descriptor *descriptors; /* as for ebpf_relocate_maps */
	size_t descriptors_len;
	const uint8_t *symbols; /* as for ebpf_resolve_externs */
	size_t symbols_len;
	const struct ebpf_btf *btf; /* the kernel's types, if they were read: then `types` is not read */
};

/* No inputs. Set what there is. */
EBPF_INLINE struct ebpf_prepare_inputs ebpf_prepare_defaults(void)
{
	struct ebpf_prepare_inputs inputs = { sizeof(struct ebpf_prepare_inputs), NULL, 0, NULL, 0, NULL, 0, NULL };

	return inputs;
}

/*
 * Opens the object of a file by strict parsing, and runs all of these passes over it. It gives out a handle as
 * `ebpf_open` does, also where it refuses. The descriptors' names are looked at first, then the types are read, then
 * the file. Rows that are not complete are refused (320, 321) before the first pass. `inputs` may
 * be NULL: then there are none. They are refused as options are (90).
 * Numbers: 2, 6, 90, 100 to 199, 200 to 299, .., 600 to 699.
 */
EBPF_CHECKED uint32_t ebpf_prepare(const uint8_t *file, size_t file_len, const struct ebpf_prepare_inputs *inputs,
			struct ebpf_handle **handle) EBPF_NONNULL(4);

/*
 * Runs the same passes over the object that the handle holds, of which no pass was made. Its values and sizes may be
 * set before. So make the maps as `ebpf_maps` lists them, and prepare the same object with their descriptors. The
 * names are looked at first, then the types are read. After a refusal the object is unchanged, and no pass was made.
 * Numbers: 2, 3, 6, 11, 12, 90, 200 to 299, .., 600 to 699.
 */
EBPF_CHECKED uint32_t ebpf_prepare_handle(struct ebpf_handle *handle, const struct ebpf_prepare_inputs *inputs);

#ifdef __cplusplus
}
#endif
#endif

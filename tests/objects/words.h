// What the sources here share. Nothing of the system is included.

typedef unsigned char u8;
typedef unsigned short u16;
typedef unsigned int u32;
typedef unsigned long long u64;

#define SEC(name) __attribute__((section(name), used))
#define KSYM __attribute__((section(".ksyms")))
#define WEAK __attribute__((weak))
#define NOINLINE __attribute__((noinline))
#define RELOCATED __attribute__((preserve_access_index))

#define NUMBER(name, value) int (*name)[value]
#define TYPE(name, type) type *name

// Adds to a sum `x` that the compiler can't see through, so that each term is an instruction of its own.
#define ADD(term)                                     \
	do {                                          \
		x += term;                            \
		__asm__ volatile("" : "+r"(x));       \
	} while (0)

#define LOCAL_ID(type) ADD(__builtin_btf_type_id(*(typeof(type) *)0, 0))
#define TARGET_ID(type) ADD(__builtin_btf_type_id(*(typeof(type) *)0, 1))
#define TYPE_EXISTS(type) ADD(__builtin_preserve_type_info(*(typeof(type) *)0, 0))
#define TYPE_SIZE(type) ADD(__builtin_preserve_type_info(*(typeof(type) *)0, 1))
#define HAS_VALUE(type, name) ADD(__builtin_preserve_enum_value(*(typeof(enum type) *)name, 0))
#define VALUE(type, name) ADD(__builtin_preserve_enum_value(*(typeof(enum type) *)name, 1))

#define FIELD(field, what) __builtin_preserve_field_info(field, what)
#define OFFSET(field) ADD(FIELD(field, 0))
#define SIZE(field) ADD(FIELD(field, 1))
#define EXISTS(field) ADD(FIELD(field, 2))
#define IS_SIGNED(field) ADD(FIELD(field, 3))
#define SHIFTS(field)                \
	do {                         \
		ADD(FIELD(field, 4)); \
		ADD(FIELD(field, 5)); \
	} while (0)

char _license[] SEC("license") = "GPL";

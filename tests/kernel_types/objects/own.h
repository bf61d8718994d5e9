#define SEC(name) __attribute__((section(name), used))
#define HIDDEN __attribute__((visibility("hidden")))
#define INTERNAL __attribute__((visibility("internal")))
#define NOINLINE __attribute__((noinline))
#define WEAK __attribute__((weak))
typedef unsigned int u32;
typedef unsigned long long u64;

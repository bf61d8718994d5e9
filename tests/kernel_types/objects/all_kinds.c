// All of it in one object, with maps by types.
#include "own.h"
enum { HASH = 1 };
struct {
	int (*type)[HASH];
	int (*max_entries)[16];
	u32 *key;
	u64 *value;
} counts SEC(".maps");
extern int call(u32, u32 b) SEC(".ksyms") WEAK;
extern const u64 variable SEC(".ksyms") WEAK;
extern int LINUX_KERNEL_VERSION SEC(".kconfig") WEAK;
extern _Bool CONFIG_X SEC(".kconfig") WEAK;
u64 second = 5;
u32 first_of_all = 6;
HIDDEN NOINLINE int helper(int a) { return a * 3 + second; }
char own_license[] SEC("license") = "GPL";
u32 own_version SEC("version") = 6;
static void *(*lookup)(void *, const void *) = (void *)1;
SEC("socket") int program(int *c) {
	u32 key = 0;
	u64 *value = lookup(&counts, &key);
	if (value) *value += helper(*c);
	if (call) call(1, 2);
	return LINUX_KERNEL_VERSION + CONFIG_X + (u64)&variable + first_of_all;
}

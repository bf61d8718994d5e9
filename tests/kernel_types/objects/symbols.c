// The kernel's functions and variables; parameters without names, and one of variable count.
#include "own.h"
struct task;
extern int first_call(struct task *, u32 named, u64) SEC(".ksyms") WEAK;
extern void second_call(void) SEC(".ksyms") WEAK;
extern u64 third_call(u32 a, u32 b) SEC(".ksyms") WEAK;
extern int many_call(u32, ...) SEC(".ksyms") WEAK;
extern const u64 some_address SEC(".ksyms") WEAK;
extern const struct task some_task SEC(".ksyms") WEAK;
char own_license[] SEC("license") = "GPL";
SEC("socket") int uses(void *c) {
	if (first_call) first_call(c, 2, 3);
	if (second_call) second_call();
	if (many_call) many_call(1);
	u64 sum = third_call ? third_call(1, 2) : 0;
	return sum + (u64)&some_address + (u64)&some_task;
}

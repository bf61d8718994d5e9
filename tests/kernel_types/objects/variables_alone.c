// Variables of the kernel and none of its functions.
#include "own.h"
extern const u64 some_address SEC(".ksyms") WEAK;
extern const void another SEC(".ksyms") WEAK;
char own_license[] SEC("license") = "GPL";
SEC("socket") int uses(void *c) { return (u64)&some_address + (u64)&another; }

// A function of the kernel, and no integer of 4 bytes.
#include "own.h"
extern void only_call(void) SEC(".ksyms") WEAK;
char own_license[] SEC("license") = "GPL";
SEC("socket") long long uses(void) { if (only_call) only_call(); return 0; }

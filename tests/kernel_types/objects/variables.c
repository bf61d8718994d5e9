// Variables of each binding and visibility, whose names don't stand in the order of their addresses.
#include "own.h"
u64 zulu = 1;
u32 alpha = 2;
static volatile u32 middle = 3;
HIDDEN u32 unseen = 4;
INTERNAL u64 inner = 5;
WEAK u32 weak_one = 6;
u32 empty_one;
static volatile u64 empty_two;
HIDDEN u64 empty_hidden;
const volatile u32 constant = 7;
static const volatile u64 own_constant = 8;
HIDDEN const volatile u32 hidden_constant = 9;
u32 custom SEC(".data.custom") = 10;
HIDDEN u32 custom_hidden SEC(".data.custom") = 11;
u64 resident SEC(".bss.own");
char own_license[] SEC("license") = "GPL";
SEC("socket") int first(void *c) {
	empty_two += middle + own_constant;
	return zulu + alpha + unseen + inner + weak_one + empty_one + empty_hidden + constant + hidden_constant + custom + custom_hidden + resident;
}

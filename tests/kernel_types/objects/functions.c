// Functions of each binding and visibility, in .text and in a section of programs.
#include "own.h"
char own_license[] SEC("license") = "GPL";
NOINLINE int global_one(int a) { return a + 1; }
HIDDEN NOINLINE int hidden_one(int a) { return a * 3; }
INTERNAL NOINLINE int internal_one(int a) { return a * 5; }
WEAK HIDDEN NOINLINE int weak_hidden(int a) { return a * 7; }
static NOINLINE int static_one(int a) { return a ^ 11; }
SEC("socket") int shown(int *c) { return global_one(*c) + hidden_one(*c) + internal_one(*c) + weak_hidden(*c) + static_one(*c); }
HIDDEN SEC("socket") int hidden_program(int *c) { return hidden_one(*c); }

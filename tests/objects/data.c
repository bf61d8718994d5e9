// References to maps, to parts of data sections of all kinds, and to functions, by calls and by address.
#include "words.h"

static void *(*const lookup)(void *map, const void *key) = (void *)1;
static long (*const trace)(const char *text, u32 size, ...) = (void *)6;
static long (*const tail)(void *context, void *map, u32 index) = (void *)12;
static long (*const each_entry)(void *map, void *callback, void *context, u64 flags) = (void *)164;
static long (*const loop)(u32 count, void *callback, void *context, u64 flags) = (void *)181;

struct {
	NUMBER(type, 3);
	NUMBER(max_entries, 4);
	NUMBER(key_size, 4);
	NUMBER(value_size, 4);
} jumps SEC(".maps");

struct {
	NUMBER(type, 9);
	NUMBER(max_entries, 16);
	TYPE(key, u64);
	TYPE(value, struct {
		u32 a;
		u64 b;
	});
	NUMBER(map_flags, 1);
} recent SEC(".maps");

struct {
	NUMBER(type, 27);
	NUMBER(max_entries, 4096);
} ring SEC(".maps");

int plain = 3;
u64 wide[5] = {1, 2, 3, 4, 5};
static u8 bytes[7] = {9, 8, 7, 6, 5, 4, 3};
u32 zeros[100];
static u64 hidden[3];
int hot SEC(".data.hot") = 5;
int cold SEC(".bss.cold");
const volatile int knob = 4;
static const volatile u32 squares[4] = {1, 4, 9, 16};
const volatile int extra SEC(".rodata.more") = 2;

NOINLINE static int visit(u32 index, void *context)
{
	hidden[index & 1] += squares[index & 3];
	return 0;
}

NOINLINE int visit_all(u32 index, void *context)
{
	zeros[index & 15] += wide[3];
	return loop(knob, visit, context, 0);
}

NOINLINE static long entry(void *map, const void *key, void *value, void *context)
{
	bytes[5] += 1;
	return 0;
}

NOINLINE static int deep(int x)
{
	char text[] = "deep %d and more text to be kept\n";

	trace(text, sizeof(text), x);
	return x + bytes[2];
}

NOINLINE int middle(int x)
{
	return deep(x) + visit_all(x, 0) + zeros[99];
}

NOINLINE int top(int x)
{
	return middle(x) + deep(2) + extra;
}

SEC("xdp")
int one(void *context)
{
	static const char text[] = "one %d\n";

	trace(text, sizeof(text), plain);
	cold += hot;
	tail(context, &jumps, 1);
	return top(1) + wide[4];
}

SEC("xdp")
int two(void *context)
{
	u64 key = 0;
	u64 *value = lookup(&recent, &key);

	if (value)
		*value += hidden[2];
	return middle(2) + loop(3, visit_all, 0, 0);
}

SEC("tp/sched/sched_switch")
int three(void *context)
{
	u64 key[1];

	each_entry(&recent, entry, 0, 0);
	return lookup(&ring, key) ? top(3) : squares[3];
}

SEC("kprobe/do_unlinkat")
int four(void *context)
{
	u64 sum = 0;

	for (int i = 0; i < 5; i++)
		sum += wide[i] + squares[i & 3];
	return sum;
}

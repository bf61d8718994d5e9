// Functions that helpers call back: each step of a loop, and each element of a map.
#include "own.h"

struct {
	NUMBER(type, ARRAY);
	NUMBER(max_entries, 4);
	TYPE(key, u32);
	TYPE(value, u64);
} numbers SEC(".maps");

struct sum {
	u64 of_steps;
};

static long add_step(u32 step, void *context)
{
	struct sum *sum = context;

	sum->of_steps += step;
	return 0;
}

static long add_value(void *map, const void *key, u64 *value, void *context)
{
	struct sum *sum = context;

	sum->of_steps += *value;
	return 0;
}

SEC("tc")
int sum_by_loop(struct __sk_buff *packet)
{
	struct sum sum = { 0 };

	loop(10, add_step, &sum, 0);
	return sum.of_steps;
}

SEC("tc")
int sum_of_map(struct __sk_buff *packet)
{
	struct sum sum = { 0 };
	u32 key = 1;
	u64 value = 30;

	map_update_elem(&numbers, &key, &value, 0);
	key = 3;
	value = 12;
	map_update_elem(&numbers, &key, &value, 0);
	for_each_map_elem(&numbers, add_value, &sum, 0);
	return sum.of_steps;
}

char own_license[] SEC("license") = "GPL";

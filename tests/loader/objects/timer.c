// A timer in a map's value, whose callback writes into that value a bit later.
#include "own.h"

#define MONOTONIC 1

struct bpf_timer {
	u64 opaque[2];
} __attribute__((aligned(8)));

struct element {
	struct bpf_timer timer;
	u64 fired;
};

struct {
	NUMBER(type, ARRAY);
	NUMBER(max_entries, 1);
	TYPE(key, u32);
	TYPE(value, struct element);
} elements SEC(".maps");

static int fire(void *map, u32 *key, struct element *element)
{
	element->fired = 42;
	return 0;
}

SEC("tc")
int start(struct __sk_buff *packet)
{
	u32 key = 0;
	struct element *element = map_lookup_elem(&elements, &key);

	if (!element)
		return 1;
	if (timer_init(&element->timer, &elements, MONOTONIC))
		return 2;
	if (timer_set_callback(&element->timer, fire))
		return 3;
	if (timer_start(&element->timer, 1000000, 0))
		return 4;
	return element->fired;
}

char own_license[] SEC("license") = "GPL";

// A hidden function, which the kernel verifies with its callers: by itself its pointer could be null.
#include "own.h"

struct pair {
	u64 one;
	u64 other;
};

HIDDEN NOINLINE int add_up(struct pair *pair)
{
	return pair->one + pair->other;
}

SEC("tc")
int add(struct __sk_buff *packet)
{
	struct pair pair = { packet->len, 36 };

	return add_up(&pair);
}

char own_license[] SEC("license") = "GPL";

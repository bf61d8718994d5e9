// The same function as in hidden.c, where it is not hidden: the kernel refuses it.
#include "own.h"

struct pair {
	u64 one;
	u64 other;
};

NOINLINE int add_up(struct pair *pair)
{
	return pair->one + pair->other;
}

SEC("tc")
int add(struct __sk_buff *packet)
{
	struct pair pair = { packet->len, 36 };

	return add_up(&pair);
}

char own_license[] SEC("license") = "GPL";

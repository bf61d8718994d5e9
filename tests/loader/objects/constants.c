// Variables of each data section. The kernel takes a constant one as an index only since it knows the values of a map that is
// frozen.
#include "own.h"

const volatile u32 limit = 8;
u32 start = 30;
u32 seen;

SEC("tc")
int add(struct __sk_buff *packet)
{
	char room[16] = { 0 };

	seen += 4;
	room[limit] = 1;
	return start + seen + room[8] * 7;
}

char own_license[] SEC("license") = "GPL";

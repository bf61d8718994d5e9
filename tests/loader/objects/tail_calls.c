// An array of programs that begins with two of them, and a program that goes on in one.
#include "own.h"

IN("tc") int answer(struct __sk_buff *packet);
IN("tc") int other_answer(struct __sk_buff *packet);

struct {
	NUMBER(type, PROG_ARRAY);
	NUMBER(max_entries, 4);
	NUMBER(key_size, 4);
	int (*values[])(struct __sk_buff *packet);
} programs SEC(".maps") = {
	.values = { [1] = answer, [3] = other_answer },
};

SEC("tc")
int enter(struct __sk_buff *packet)
{
	tail_call(packet, &programs, 3);
	return 1;
}

SEC("tc")
int enter_nothing(struct __sk_buff *packet)
{
	tail_call(packet, &programs, 2);
	return 1;
}

SEC("tc")
int answer(struct __sk_buff *packet)
{
	return 41;
}

SEC("tc")
int other_answer(struct __sk_buff *packet)
{
	return 42;
}

char own_license[] SEC("license") = "GPL";

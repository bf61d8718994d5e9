// A program with a function that is called where it throws. Such functions are not linked, and the kernel says so.
#include "own.h"

int catch_all(u64 cookie)
{
	return cookie + 1;
}

SEC("tc")
TAG("exception_callback:catch_all")
int throwing(struct __sk_buff *packet)
{
	return 0;
}

char own_license[] SEC("license") = "GPL";

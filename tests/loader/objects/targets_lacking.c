// Programs without a type that they are attached to: the kernel lacks the one, and the other's section names none.
#include "own.h"

SEC("?fentry/no_such_function")
int on_nothing(u64 *context)
{
	return 0;
}

SEC("?fentry")
int on_unnamed(u64 *context)
{
	return 0;
}

char own_license[] SEC("license") = "GPL";

// Programs that are attached to functions and hooks of the kernel, and to things that it lacks.
#include "own.h"

SEC("fentry/do_exit")
int on_entry(u64 *context)
{
	return 0;
}

SEC("?fexit.s/vmlinux:do_exit")
int on_exit(u64 *context)
{
	return 0;
}

SEC("lsm/file_open")
int on_open(u64 *context)
{
	return 0;
}

SEC("tp_btf/sched_switch")
int on_switch(u64 *context)
{
	return 0;
}

SEC("iter.s/task")
int on_task(u64 *context)
{
	return 0;
}

SEC("?fentry/no_such_function")
int on_nothing(u64 *context)
{
	return 0;
}

SEC("?fentry")
int on_unnamed(u64 *context)
{
	return 0;
}

SEC("tc")
int classify(struct __sk_buff *packet)
{
	return 0;
}

char own_license[] SEC("license") = "GPL";

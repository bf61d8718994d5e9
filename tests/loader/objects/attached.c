// Programs that are attached to functions and hooks of the kernel, with values and fields of theirs.
#include "own.h"

struct file {
	u32 f_flags;
} RELOCATED;

const volatile int wanted = 7;
long seen;

SEC("fentry/do_exit")
int enters(u64 *context)
{
	seen++;
	return 0;
}

SEC("fexit/do_exit")
int exits(u64 *context)
{
	return 0;
}

SEC("fentry.s/vmlinux:vfs_read")
int enters_sleeping(u64 *context)
{
	struct file *file = (void *)context[0];

	seen += file->f_flags;
	return 0;
}

SEC("fmod_ret/security_file_open")
int changes(u64 *context)
{
	return wanted;
}

SEC("lsm/file_open")
int opens(u64 *context)
{
	struct file *file = (void *)context[0];

	return file->f_flags == (u32)wanted;
}

SEC("lsm.s/bprm_check_security")
int checks(u64 *context)
{
	return 0;
}

SEC("lsm_cgroup/socket_bind")
int binds(u64 *context)
{
	return 1;
}

SEC("tp_btf/sched_switch")
int switches(u64 *context)
{
	struct task_struct *next = (void *)context[2];

	seen = next->tgid;
	return 0;
}

SEC("iter/task")
int walks(u64 *context)
{
	return 0;
}

SEC("iter.s/task")
int walks_sleeping(u64 *context)
{
	return 0;
}

char own_license[] SEC("license") = "GPL";

// Functions of the kernel that programs call by their names.
#include "own.h"

extern struct task_struct *bpf_task_from_pid(s32 pid) IN(".ksyms");
extern void bpf_task_release(struct task_struct *task) IN(".ksyms");

static NOINLINE int is_own(s32 pid)
{
	struct task_struct *task = bpf_task_from_pid(pid);
	int same;

	if (!task)
		return 2;
	same = task->pid == pid;
	bpf_task_release(task);
	return same;
}

SEC("tc")
int find_own_task(struct __sk_buff *packet)
{
	return is_own(get_current_pid_tgid());
}

SEC("syscall")
int find_own_task_in_syscall(void *context)
{
	return 10 + is_own(get_current_pid_tgid());
}

char own_license[] SEC("license") = "GPL";

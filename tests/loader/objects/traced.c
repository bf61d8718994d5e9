// Programs that are attached to types of the kernel: to a trace point, and to a walk over tasks.
#include "own.h"

struct bpf_iter_meta {
	void *seq;
} RELOCATED;

struct walk_of_tasks {
	struct bpf_iter_meta *meta;
	struct task_struct *task;
};

u64 entered;

SEC("tp_btf/sys_enter")
int on_enter(u64 *context)
{
	entered = 1;
	return 0;
}

SEC("iter/task")
int on_task(struct walk_of_tasks *context)
{
	struct task_struct *task = context->task;
	char text[8] = "found\n";

	if (task && task->pid == task->tgid && task->tgid == get_current_pid_tgid() >> 32)
		seq_write(context->meta->seq, text, 6);
	return 0;
}

char own_license[] SEC("license") = "GPL";

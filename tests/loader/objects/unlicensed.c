// An object that states no license, so that helpers under the GPL are not for it.
#include "own.h"

SEC("tc")
int count(struct __sk_buff *packet)
{
	return packet->len + 1;
}

SEC("?tc")
int read_task(struct __sk_buff *packet)
{
	struct task_struct *task = (struct task_struct *)get_current_task();
	s32 tgid = 0;

	probe_read_kernel(&tgid, sizeof(tgid), &task->tgid);
	return tgid == get_current_pid_tgid() >> 32;
}

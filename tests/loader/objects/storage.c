// A value that each task has of its own.
#include "own.h"

#define NO_PREALLOC 1
#define CREATE 1

struct {
	NUMBER(type, TASK_STORAGE);
	NUMBER(map_flags, NO_PREALLOC);
	TYPE(key, int);
	TYPE(value, u64);
} of_tasks SEC(".maps");

SEC("raw_tp/task_newtask")
int count_for_task(void *context)
{
	struct task_struct *task = get_current_task_btf();
	u64 *value = task_storage_get(&of_tasks, task, 0, CREATE);

	if (!value)
		return 1;
	*value += 5;
	value = task_storage_get(&of_tasks, task, 0, 0);
	return value ? *value + 1 : 2;
}

char own_license[] SEC("license") = "GPL";

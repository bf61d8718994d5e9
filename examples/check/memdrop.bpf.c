// Two programs that read fields of tasks as kernels have had them at different times. Nothing is included: what is used is
// declared here.

typedef unsigned int u32;
typedef unsigned long long u64;

#define SEC(name) __attribute__((section(name), used))
#define NOINLINE __attribute__((noinline))
#define RELOCATED __attribute__((preserve_access_index))
#define NUMBER(name, value) int (*name)[value]
#define TYPE(name, type) type *name
#define field_exists(field) __builtin_preserve_field_info(field, 2)
#define enum_value(type, name) __builtin_preserve_enum_value(*(typeof(enum type) *)name, 1)
#define read(to, field) probe_read_kernel(to, sizeof(*(to)), &(field))

static void *(*const map_lookup_elem)(void *map, const void *key) = (void *)1;
static u64 (*const get_current_task)(void) = (void *)35;
static long (*const probe_read_kernel)(void *to, u32 size, const void *from) = (void *)113;

struct cfs_rq {
	u32 nr_running;
} RELOCATED;

struct sched_entity {
	struct cfs_rq *cfs_rq;
} RELOCATED;

struct task_struct {
	int pid;
	u32 __state;
	int mm_cid;
	struct sched_entity se;
} RELOCATED;

// As it was before 5.14.
struct task_struct___old {
	long state;
} RELOCATED;

enum cgroup_subsys_id {
	pids_cgrp_id = 11,
};

struct {
	NUMBER(type, 1);
	NUMBER(max_entries, 64);
	TYPE(key, u32);
	TYPE(value, u64);
} counts SEC(".maps");

NOINLINE static long state_of(struct task_struct *task)
{
	struct task_struct___old *old = (void *)task;
	u32 state = 0;
	long before = 0;

	if (field_exists(task->__state)) {
		read(&state, task->__state);
		return state;
	}
	read(&before, old->state);
	return before;
}

NOINLINE static int count(u32 key)
{
	u64 *value = map_lookup_elem(&counts, &key);

	if (!value)
		return 0;
	*value += 1;
	return 1;
}

SEC("tp_btf/sched_switch")
int on_tick(void *context)
{
	struct task_struct *task = (struct task_struct *)get_current_task();
	struct cfs_rq *queue = 0;
	u32 running = 0;

	read(&queue, task->se.cfs_rq);
	read(&running, queue->nr_running);
	return count(running);
}

SEC("fentry/shrink_node")
int on_shrink(void *context)
{
	struct task_struct *task = (struct task_struct *)get_current_task();
	int pid = 0, place = 0;

	read(&pid, task->pid);
	if (field_exists(task->mm_cid))
		read(&place, task->mm_cid);
	return count(pid + place + state_of(task) + enum_value(cgroup_subsys_id, pids_cgrp_id));
}

char _license[] SEC("license") = "GPL";

// Types of a newer kernel, cut to what memdrop.bpf.c asks for: nr_running of a queue has another name.
#include "kernel.h"

struct cfs_rq {
	unsigned long weight;
	unsigned int nr_queued;
};

struct cfs_rq queue;

struct sched_entity {
	unsigned long weight;
	unsigned long deadline;
	struct cfs_rq *cfs_rq;
};

struct task_struct {
	unsigned int __state;
	unsigned int saved_state;
	void *stack;
	struct sched_entity se;
	int mm_cid;
	int pid;
} init_task;

enum cgroup_subsys_id {
	cpuset_cgrp_id = 0,
	pids_cgrp_id = 11,
} cgroup;

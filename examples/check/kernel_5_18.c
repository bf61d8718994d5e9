// Types of an older kernel, cut to what memdrop.bpf.c asks for.
#include "kernel.h"

struct cfs_rq {
	unsigned long weight;
	unsigned int nr_running;
};

struct cfs_rq queue;

struct sched_entity {
	unsigned long runnable_weight;
	struct cfs_rq *cfs_rq;
};

struct task_struct {
	unsigned int __state;
	void *stack;
	struct sched_entity se;
	int pid;
} init_task;

enum cgroup_subsys_id {
	cpuset_cgrp_id = 0,
	pids_cgrp_id = 10,
} cgroup;

// Functions and variables of the kernel, with and without a type. The kernel has the function without what stands
// behind its three underscores.
#include "words.h"

struct rq {
	int cpu;
};

extern void bpf_rcu_read_lock___v2(void) WEAK KSYM;
extern void bpf_rcu_read_unlock(void) KSYM;
extern const unsigned long cpu_loops_per_jiffy KSYM;
extern const struct rq runqueues KSYM;
extern const int no_such_variable WEAK KSYM;
extern const void schedule KSYM;
extern const void no_such_symbol WEAK KSYM;

SEC("raw_tp/sys_enter")
int functions(void *context)
{
	bpf_rcu_read_lock___v2();
	bpf_rcu_read_unlock();
	return 0;
}

SEC("raw_tp/sys_enter")
int variables(void *context)
{
	long x = 0;

	ADD((long)&cpu_loops_per_jiffy);
	ADD((long)&runqueues);
	ADD((long)&no_such_variable);
	ADD((long)&schedule);
	ADD((long)&no_such_symbol);
	return x;
}

// A weak function that takes other values in the kernel: it stays unresolved. libbpf 1.1 refuses the object.
#include "words.h"

extern long bpf_rcu_read_lock(long a, long b) WEAK KSYM;

SEC("raw_tp/sys_enter")
int other_signature(void *context)
{
	return bpf_rcu_read_lock(1, 2);
}

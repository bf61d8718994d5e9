// A load of a signed field that has another size in the kernel: refused. libbpf 1.1 writes poison.
#include "words.h"

struct task_struct {
	long long pid;
} RELOCATED;

SEC("raw_tp/sys_enter")
int other_size(u64 *context)
{
	return ((struct task_struct *)context[0])->pid;
}

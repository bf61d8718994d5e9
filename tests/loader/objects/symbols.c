// What the kernel may lack: a function that is called only where it is there, and addresses of symbols.
#include "own.h"

extern void bpf_no_such_function(struct task_struct *task) IN(".ksyms") WEAK;
extern const void bpf_prog_put IN(".ksyms") WEAK;
extern const void no_such_symbol IN(".ksyms") WEAK;

SEC("tc")
int look(struct __sk_buff *packet)
{
	if (bpf_no_such_function)
		bpf_no_such_function(0);
	return (&bpf_prog_put ? 1 : 0) + (&no_such_symbol ? 2 : 0) + (bpf_no_such_function ? 4 : 0);
}

char own_license[] SEC("license") = "GPL";

// The id of a type of which the kernel has two: refused, as by libbpf.
#include "words.h"

struct dir_entry {
	int a;
};

SEC("raw_tp/sys_enter")
int two_types(void *context)
{
	return __builtin_btf_type_id(*(struct dir_entry *)0, 1);
}

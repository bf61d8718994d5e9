// Ids, sizes and existence of types, which the kernel has or not.
#include "words.h"

struct task_struct {
	int pid;
};
struct task_struct___small {
	int tgid;
};
struct sk_buff {
	int a;
};
struct file {
	void *a;
};
struct hlist_node___v2 {
	void *a;
};
union bpf_attr {
	int a;
};
enum bpf_map_type { BPF_MAP_TYPE_HASH = 77 };
enum cpuhp_state___other { CPUHP_OFFLINE };
typedef struct {
	int counter;
} atomic_t;
typedef int pid_t;
typedef _Bool bool;
typedef int (*initcall_t)(void);

struct no_such_struct {
	int a;
};
union no_such_union {
	int a;
};
enum no_such_enum { NO_SUCH };
typedef int no_such_typedef;

#define ALL(type)                  \
	do {                       \
		LOCAL_ID(type);    \
		TARGET_ID(type);   \
		TYPE_EXISTS(type); \
		TYPE_SIZE(type);   \
	} while (0)

SEC("raw_tp/sys_enter")
int types(void *context)
{
	long x = 0;

	ALL(struct task_struct);
	ALL(struct task_struct___small);
	ALL(struct sk_buff);
	ALL(struct file);
	ALL(struct hlist_node___v2);
	ALL(union bpf_attr);
	ALL(enum bpf_map_type);
	ALL(enum cpuhp_state___other);
	ALL(atomic_t);
	ALL(pid_t);
	ALL(bool);
	return x;
}

SEC("raw_tp/sys_enter")
int missing(void *context)
{
	long x = 0;

	TYPE_EXISTS(struct no_such_struct);
	TYPE_EXISTS(union no_such_union);
	TYPE_EXISTS(enum no_such_enum);
	TYPE_EXISTS(no_such_typedef);
	TYPE_EXISTS(initcall_t);
	LOCAL_ID(struct no_such_struct);
	LOCAL_ID(no_such_typedef);
	return x;
}

// Poison; libbpf 1.1 writes 0.
SEC("raw_tp/sys_enter")
int missing_values(void *context)
{
	long x = 0;

	TYPE_SIZE(struct no_such_struct);
	TYPE_SIZE(union no_such_union);
	TYPE_SIZE(enum no_such_enum);
	TYPE_SIZE(no_such_typedef);
	TARGET_ID(struct no_such_struct);
	TARGET_ID(union no_such_union);
	TARGET_ID(enum no_such_enum);
	TARGET_ID(no_such_typedef);
	return x;
}

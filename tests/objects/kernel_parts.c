// What an object asks of a kernel: fields, types and values by records of each kind, with flavors and types without a name;
// functions and variables, weak and of void; settings of its configuration. Its sections have names of all sorts.
// Nothing is included: what is used is declared here.

typedef unsigned int u32;
typedef unsigned long long u64;

#define SEC(name) __attribute__((section(name), used))
#define KSYM __attribute__((section(".ksyms")))
#define KCONFIG __attribute__((section(".kconfig")))
#define WEAK __attribute__((weak))
#define NUMBER(name, value) int (*name)[value]
#define TYPE(name, type) type *name
#define NOINLINE __attribute__((noinline))
#define RECORDED __attribute__((preserve_access_index))
#define FIELD(field, asked) __builtin_preserve_field_info(field, asked)
#define TYPE_INFO(type, asked) __builtin_preserve_type_info(*(type *)0, asked)
#define TYPE_ID(type, asked) __builtin_btf_type_id(*(type *)0, asked)
#define VALUE(type, value, asked) __builtin_preserve_enum_value(*(type *)value, asked)

struct inner {
	int x;
	struct {
		u64 deep[4];
		union {
			u32 one;
			char bytes[4];
		};
	};
} RECORDED;

struct task_struct {
	u32 flags : 3, state : 9;
	int tgid;
	struct inner parts[2];
	struct task_struct *next;
} RECORDED;

struct task_struct___old {
	int pid;
	struct inner *part;
} RECORDED;

typedef struct RECORDED {
	u64 ino;
	char name[16];
} named_by_typedef;

enum mode { MODE_ONE = 1, MODE_LAST = 0x7fffffff };
enum large { LARGE_ONE = 0x100000000ull, LARGE_LAST = 0xfffffffffffffffeull };

struct rq {
	int cpu;
};

struct {
	NUMBER(type, 1);
	NUMBER(max_entries, 8);
	TYPE(key, u32);
	TYPE(value, u64);
} counts SEC(".maps");

extern void bpf_rcu_read_lock(void) KSYM;
extern struct task_struct *bpf_task_acquire(struct task_struct *task) WEAK KSYM;
extern const struct rq runqueues KSYM;
extern const void init_task WEAK KSYM;
extern int LINUX_KERNEL_VERSION KCONFIG;
extern u64 CONFIG_HZ WEAK KCONFIG;
extern char CONFIG_DEFAULT_HOSTNAME[16] WEAK KCONFIG;

u64 seen;

NOINLINE static u64 of_fields(struct task_struct *task, struct task_struct___old *old, named_by_typedef *file)
{
	u64 found = task->parts[1].deep[2] + task->next->tgid + task->parts[0].bytes[3];

	if (FIELD(old->part->one, 2))
		found += old->pid + FIELD(old->part, 1) + FIELD(task->tgid, 3);
	found += FIELD(task->state, 0) + FIELD(task->state, 1) + FIELD(task->state, 4) + FIELD(task->state, 5);
	return found + file->ino + file->name[3];
}

NOINLINE static u64 of_types(void)
{
	u64 found = TYPE_INFO(struct task_struct___old, 0) + TYPE_INFO(named_by_typedef, 1);

	found += TYPE_ID(struct inner, 0) + TYPE_ID(struct rq, 1);
	found += VALUE(enum mode, MODE_LAST, 0) + VALUE(enum mode, MODE_ONE, 1);
	return found + VALUE(enum large, LARGE_LAST, 1);
}

SEC("tc")
int first(void *context)
{
	bpf_rcu_read_lock();
	seen += of_types() + (u64)&runqueues;
	return LINUX_KERNEL_VERSION;
}

SEC("?kprobe/do_exit")
int unasked(struct task_struct *task)
{
	if (&init_task)
		seen += (u64)&init_task;
	return of_fields(task, (void *)task, (void *)task);
}

SEC("struct_ops/init")
int operation(struct task_struct *task)
{
	if (bpf_task_acquire)
		task = bpf_task_acquire(task);
	return CONFIG_HZ + CONFIG_DEFAULT_HOSTNAME[1] + task->flags;
}

char _license[] SEC("license") = "GPL";

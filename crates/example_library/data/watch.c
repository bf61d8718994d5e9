// Two programs that share a function, maps with and without a name of their own, externs, and fields that a kernel may lack.
// Nothing is included: what is used is declared here.

typedef unsigned int u32;
typedef unsigned long long u64;

#define SEC(name) __attribute__((section(name), used))
#define KSYM __attribute__((section(".ksyms")))
#define NUMBER(name, value) int (*name)[value]
#define TYPE(name, type) type *name
#define NOINLINE __attribute__((noinline))
#define FIELD_EXISTS 2

static void *(*const map_lookup_elem)(void *map, const void *key) = (void *)1;
static u64 (*const get_current_task)(void) = (void *)35;
static long (*const probe_read_kernel)(void *to, u32 size, const void *from) = (void *)113;

struct {
	NUMBER(type, 1);
	NUMBER(max_entries, 64);
	TYPE(key, u32);
	TYPE(value, u64);
} counts SEC(".maps");

struct task_struct {
	int tgid;
	int gone;
} __attribute__((preserve_access_index));

const volatile u32 step = 1;
u64 seen;

extern void bpf_rcu_read_lock(void) KSYM;
extern const void init_task KSYM;

NOINLINE static int count(u32 key)
{
	u64 *value = map_lookup_elem(&counts, &key);

	if (!value)
		return 0;
	*value += step;
	return 1;
}

SEC("kprobe/do_exit")
int on_exit(void *context)
{
	struct task_struct *task = (struct task_struct *)get_current_task();
	int key = 0;

	if (__builtin_preserve_field_info(task->gone, FIELD_EXISTS))
		probe_read_kernel(&key, sizeof(key), &task->gone);
	else
		probe_read_kernel(&key, sizeof(key), &task->tgid);
	bpf_rcu_read_lock();
	return count(key);
}

SEC("raw_tp/sys_enter")
int on_enter(void *context)
{
	seen += (u64)&init_task;
	return count(1);
}

char _license[] SEC("license") = "GPL";

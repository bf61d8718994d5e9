// Two programs over two maps, two functions of their own, and one access that is adjusted to the running kernel.
// Nothing is included: what is used is declared here.

typedef unsigned int u32;
typedef unsigned long long u64;

#define SEC(name) __attribute__((section(name), used))
#define NUMBER(name, value) int (*name)[value]
#define TYPE(name, type) type *name
#define NOINLINE __attribute__((noinline))

static void *(*const map_lookup_elem)(void *map, const void *key) = (void *)1;
static long (*const probe_read_kernel)(void *to, u32 size, const void *from) = (void *)113;

struct {
	NUMBER(type, 1);
	NUMBER(max_entries, 64);
	TYPE(key, u32);
	TYPE(value, u64);
	NUMBER(pinning, 1);
} counts SEC(".maps");

struct inner {
	NUMBER(type, 2);
	NUMBER(max_entries, 4);
	TYPE(key, u32);
	TYPE(value, u32);
};

struct {
	NUMBER(type, 12);
	NUMBER(max_entries, 8);
	NUMBER(key_size, 4);
	struct inner *values[];
} tables SEC(".maps");

struct task_struct {
	int pid;
	int tgid;
} __attribute__((preserve_access_index));

struct pt_regs {
	u64 di;
};

struct xdp_md {
	u32 data;
	u32 data_end;
};

const volatile u32 wanted = 7;
u64 seen;

NOINLINE static int tgid_of(struct task_struct *task)
{
	int tgid = 0;

	probe_read_kernel(&tgid, sizeof(tgid), &task->tgid);
	return tgid;
}

NOINLINE static int count(u32 key)
{
	u64 *value = map_lookup_elem(&counts, &key);

	if (!value)
		return 1;
	__sync_fetch_and_add(value, 1);
	seen += 1;
	return 0;
}

SEC("kprobe/wake_up_new_task")
int on_wake(struct pt_regs *regs)
{
	int tgid = tgid_of((struct task_struct *)regs->di);

	if (tgid != wanted)
		return 0;
	return count(tgid);
}

SEC("xdp")
int on_packet(struct xdp_md *context)
{
	u32 key = 0;

	if (!map_lookup_elem(&tables, &key))
		return 2;
	count(context->data_end - context->data);
	return 2;
}

char _license[] SEC("license") = "GPL";
u32 _version SEC("version") = 0xfffffffe;

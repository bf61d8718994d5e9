// Counts packets and their bytes in a map. Of the running kernel it asks where a task keeps its process, and says in the map
// how often what it read there was what the kernel's own helper says. Nothing is included: what is used is declared here.

typedef unsigned int u32;
typedef unsigned long long u64;

#define SEC(name) __attribute__((section(name), used))
#define NUMBER(name, value) int (*name)[value]
#define TYPE(name, type) type *name
#define NOINLINE __attribute__((noinline))

static void *(*const map_lookup_elem)(void *map, const void *key) = (void *)1;
static u64 (*const get_current_pid_tgid)(void) = (void *)14;
static u64 (*const get_current_task)(void) = (void *)35;
static long (*const probe_read_kernel)(void *to, u32 size, const void *from) = (void *)113;

struct totals {
	u64 packets;
	u64 bytes;
	u64 same;
};

struct {
	NUMBER(type, 2);
	NUMBER(max_entries, 1);
	TYPE(key, u32);
	TYPE(value, struct totals);
} totals SEC(".maps");

struct task_struct {
	int tgid;
} __attribute__((preserve_access_index));

struct xdp_md {
	u32 data;
	u32 data_end;
};

enum { DROP = 1, PASS = 2 };

const volatile u32 step = 1;
u64 seen;

NOINLINE static int process_of(struct task_struct *task)
{
	int tgid = 0;

	probe_read_kernel(&tgid, sizeof(tgid), &task->tgid);
	return tgid;
}

NOINLINE static int add(u64 bytes, u64 same)
{
	u32 key = 0;
	struct totals *all = map_lookup_elem(&totals, &key);

	if (!all)
		return DROP;
	all->packets += step;
	all->bytes += bytes;
	all->same += same;
	return PASS;
}

SEC("xdp")
int count_packet(struct xdp_md *context)
{
	u32 tgid = process_of((struct task_struct *)get_current_task());

	seen += 1;
	return add(context->data_end - context->data, tgid == get_current_pid_tgid() >> 32);
}

char _license[] SEC("license") = "GPL";

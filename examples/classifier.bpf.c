// A classifier of packets, in a section whose name is `tc`: adds up their lengths in a map by a function of its own, and
// reads of the running kernel which process it is, at the place where its types have it. Nothing is included.

typedef unsigned int u32;
typedef unsigned long long u64;

#define SEC(name) __attribute__((section(name), used))
#define NUMBER(name, value) int (*name)[value]
#define TYPE(name, type) type *name
#define NOINLINE __attribute__((noinline))

static void *(*const map_lookup_elem)(void *map, const void *key) = (void *)1;
static u64 (*const get_current_pid_tgid)(void) = (void *)14;
static u64 (*const get_current_task)(void) = (void *)35;
static long (*const probe_read_kernel)(void *to, u32 size, const void *from) = (void *)113;

struct sum {
	u64 bytes;
	u64 same;
};

struct {
	NUMBER(type, 2);
	NUMBER(max_entries, 1);
	TYPE(key, u32);
	TYPE(value, struct sum);
} sums SEC(".maps");

struct task_struct {
	int tgid;
} __attribute__((preserve_access_index));

struct __sk_buff {
	u32 len;
};

enum { OK = 0, SHOT = 2 };

NOINLINE static int add(u64 bytes, u64 same)
{
	u32 key = 0;
	struct sum *sum = map_lookup_elem(&sums, &key);

	if (!sum)
		return SHOT;
	sum->bytes += bytes;
	sum->same += same;
	return OK;
}

SEC("tc")
int classify(struct __sk_buff *packet)
{
	struct task_struct *task = (struct task_struct *)get_current_task();
	int tgid = 0;

	probe_read_kernel(&tgid, sizeof(tgid), &task->tgid);
	return add(packet->len, tgid == get_current_pid_tgid() >> 32);
}

// What no loader of libbpf's takes up unasked.
SEC("?tc")
int classify_nothing(struct __sk_buff *packet)
{
	return OK;
}

char _license[] SEC("license") = "GPL";

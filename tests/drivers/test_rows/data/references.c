// References of every kind: to maps that types declare, to data of all sections, to the kernel's functions and variables,
// weak and strong, with and without a type, and to functions of its own by calls and by address.
// Nothing is included: what is used is declared here.

typedef unsigned int u32;
typedef unsigned long long u64;

#define SEC(name) __attribute__((section(name), used))
#define KSYM __attribute__((section(".ksyms")))
#define WEAK __attribute__((weak))
#define NUMBER(name, value) int (*name)[value]
#define TYPE(name, type) type *name
#define NOINLINE __attribute__((noinline))

static void *(*const map_lookup_elem)(void *map, const void *key) = (void *)1;
static long (*const loop)(u32 count, void *callback, void *context, u64 flags) = (void *)181;

struct {
	NUMBER(type, 2);
	NUMBER(max_entries, 4);
	TYPE(key, u32);
	TYPE(value, u64);
} slots SEC(".maps");

struct {
	NUMBER(type, 1);
	NUMBER(max_entries, 8);
	TYPE(key, u32);
	TYPE(value, u64);
} counts SEC(".maps");

const volatile u32 limits[3] = {5, 6, 7};
u64 total = 9;
static u32 steps = 3;
u64 seen[4];
static u64 last;

struct rq {
	int cpu;
};

extern void bpf_rcu_read_lock(void) KSYM;
extern void bpf_no_such_function(int code) WEAK KSYM;
extern const struct rq runqueues KSYM;
extern const int no_such_variable WEAK KSYM;
extern const void init_task KSYM;
extern const void no_such_symbol WEAK KSYM;

NOINLINE static int each(u32 index, void *context)
{
	seen[index & 3] += limits[1];
	return 0;
}

NOINLINE int look(u32 key)
{
	u64 *value = map_lookup_elem(&slots, &key);

	if (!value)
		value = map_lookup_elem(&counts, &key);
	if (!value)
		return steps;
	last = *value;
	return 0;
}

SEC("raw_tp/sys_enter")
int on_enter(void *context)
{
	bpf_rcu_read_lock();
	if (bpf_no_such_function)
		bpf_no_such_function(1);
	total += (u64)&runqueues;
	if (&no_such_variable)
		total += (u64)&no_such_variable;
	steps += 1;
	return look(limits[2]);
}

SEC("raw_tp/sys_exit")
int on_exit(void *context)
{
	loop(limits[0], each, 0, 0);
	total ^= (u64)&init_task ^ (u64)&no_such_symbol;
	return look(1) + last;
}

char _license[] SEC("license") = "GPL";

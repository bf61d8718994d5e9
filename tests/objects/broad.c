// What lenient parsing takes alone: sections of code of names that say no kind, an array with its programs, a 64-bit
// map_extra, and a license in a longer array.
typedef unsigned char u8;
typedef unsigned int u32;
typedef unsigned long long u64;

#define SEC(name) __attribute__((section(name), used))
#define NOINLINE __attribute__((noinline))
#define NUMBER(name, value) int (*name)[value]
#define PASTED(a, b) a##b
#define NUMBERED(line, number) PASTED(number_, line) = number
#define LARGE(name, number) enum { NUMBERED(__LINE__, number) } name
#define HELD(name, type) typeof(type) *name[]

static void *(*const lookup)(void *map, const void *key) = (void *)1;
static long (*const tail)(void *context, void *map, u32 index) = (void *)12;

int behind(void *context);

struct {
	NUMBER(type, 3);
	NUMBER(max_entries, 2);
	NUMBER(key_size, 4);
	HELD(values, int(void *));
} jumps SEC(".maps") = { .values = { (void *)&behind } };

struct {
	NUMBER(type, 3);
	NUMBER(max_entries, 2);
	NUMBER(key_size, 4);
	HELD(values, int(void *));
} empty SEC(".maps");

struct {
	NUMBER(type, 30);
	NUMBER(max_entries, 8);
	NUMBER(value_size, 4);
	LARGE(map_extra, 3);
} filter SEC(".maps");

struct {
	NUMBER(type, 33);
	NUMBER(max_entries, 8);
	LARGE(map_extra, 0x100000000000);
} large SEC(".maps");

struct task_struct {
	int tgid;
} __attribute__((preserve_access_index));

NOINLINE static int add(int *a, int b)
{
	return *a + b;
}

SEC("tc")
int first(void *context)
{
	int one = 1;

	tail(context, &jumps, 1);
	tail(context, &empty, 1);
	return add(&one, 2);
}

SEC("tc")
int behind(void *context)
{
	return lookup(&filter, context) == 0;
}

SEC("?kprobe/do_exit")
int unasked(struct task_struct *task)
{
	return task->tgid;
}

SEC("struct_ops/init")
int operation(struct task_struct *task)
{
	int two = 2;

	return add(&two, task->tgid);
}

SEC("syscall")
int called(void *context)
{
	return lookup(&large, context) == 0;
}

SEC("a name of one's own")
int own(void *context)
{
	return 0;
}

char _license[16] SEC("license") = "GPL";

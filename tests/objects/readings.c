// What the two readings answer alike and what not, one matter in an object; words of the compiler say which. LIST has the
// programs, each made of program.h.
typedef unsigned int u32;

#define SEC(name) __attribute__((section(name), used))
#define NOINLINE __attribute__((noinline))
#define NUMBER(name, value) int (*name)[value]
#define TYPE(name, type) typeof(type) *name
#define HELD(name, type) typeof(type) *name[]
#define PASTED(a, b) a##b
#define PROGRAM(number) PASTED(program_, number)

#ifndef RECORDED
#define RECORDED __attribute__((preserve_access_index))
#endif
#ifndef LICENSE
#define LICENSE char _license[] SEC("license") = "GPL"
#endif
#ifndef JUMPED
#define JUMPED {}
#endif

static void *(*const lookup)(void *map, const void *key) = (void *)1;

struct task_struct {
#ifdef MOVED
	long before;
#endif
	int tgid;
#ifdef MOVED
	long between;
#endif
	int pid;
} RECORDED;

int program_0(struct task_struct *task);

struct {
	NUMBER(type, 1);
	NUMBER(max_entries, 8);
	NUMBER(map_flags, 1);
	TYPE(key, u32);
	TYPE(value, struct task_struct);
} counts SEC(".maps");

#ifdef JUMPS
struct {
	NUMBER(type, 3);
	NUMBER(max_entries, 2);
	NUMBER(key_size, 4);
	JUMPS;
} jumps SEC(".maps") = JUMPED;
#endif

#ifdef EXTRA
struct {
	NUMBER(type, 30);
	NUMBER(max_entries, 8);
	NUMBER(value_size, 4);
	EXTRA;
} filter SEC(".maps");
#endif

#ifdef BARE
__asm__(".section " BARE ",\"ax\",@progbits\n"
	"r0 = 0\n"
	"exit\n");
#endif

static NOINLINE int add(u32 *a, int b)
{
	return *a + b;
}

#include LIST

LICENSE;

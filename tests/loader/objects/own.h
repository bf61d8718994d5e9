// What these objects use of the kernel and of loaders' conventions; no header is included.
typedef unsigned char u8;
typedef int s32;
typedef unsigned int u32;
typedef unsigned long long u64;

#define SEC(name) __attribute__((section(name), used))
#define IN(name) __attribute__((section(name)))
#define WEAK __attribute__((weak))
#define HIDDEN __attribute__((visibility("hidden")))
#define NOINLINE __attribute__((noinline))
#define RELOCATED __attribute__((preserve_access_index))
#define TAG(text) __attribute__((btf_decl_tag(text)))

// Members of a map's definition.
#define NUMBER(name, value) int (*name)[value]
#define TYPE(name, type) type *name

enum map_type {
	HASH = 1,
	ARRAY = 2,
	PROG_ARRAY = 3,
	PERF_EVENT_ARRAY = 4,
	ARRAY_OF_MAPS = 12,
	RINGBUF = 27,
	TASK_STORAGE = 29,
};

struct __sk_buff {
	u32 len;
};

struct task_struct {
	s32 pid;
	s32 tgid;
} RELOCATED;

// The kernel's helpers, by their numbers.
static void *(*const map_lookup_elem)(void *map, const void *key) = (void *)1;
static long (*const map_update_elem)(void *map, const void *key, const void *value, u64 flags) = (void *)2;
static long (*const tail_call)(void *context, void *map, u32 index) = (void *)12;
static u64 (*const get_current_pid_tgid)(void) = (void *)14;
static u64 (*const get_current_task)(void) = (void *)35;
static long (*const spin_lock)(void *lock) = (void *)93;
static long (*const spin_unlock)(void *lock) = (void *)94;
static long (*const probe_read_kernel)(void *to, u32 size, const void *from) = (void *)113;
static long (*const seq_write)(void *seq, const void *data, u32 size) = (void *)127;
static u64 (*const ringbuf_query)(void *map, u64 flags) = (void *)134;
static void *(*const task_storage_get)(void *map, void *task, void *value, u64 flags) = (void *)156;
static struct task_struct *(*const get_current_task_btf)(void) = (void *)158;
static long (*const for_each_map_elem)(void *map, void *callback, void *context, u64 flags) = (void *)164;
static long (*const timer_init)(void *timer, void *map, u64 flags) = (void *)169;
static long (*const timer_set_callback)(void *timer, void *callback) = (void *)170;
static long (*const timer_start)(void *timer, u64 nanoseconds, u64 flags) = (void *)171;
static long (*const loop)(u32 count, void *callback, void *context, u64 flags) = (void *)181;

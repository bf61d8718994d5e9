// libbpf_types FILE ..: of each object one line, the bytes of btf__raw_data after bpf_object__load, in hexadecimal digits;
// `none` where it has no types, `refused: N` where libbpf opens or loads it not, with its error.
//
// No bpf(2) call reaches the kernel: syscall() is defined here, and answers each command with success and, where one is
// wanted, with a descriptor of /dev/null. So each feature seems to be there, and no type is replaced for an older kernel.
#define _GNU_SOURCE
#include <bpf/bpf.h>
#include <bpf/btf.h>
#include <bpf/libbpf.h>
#include <errno.h>
#include <fcntl.h>
#include <linux/bpf.h>
#include <stdarg.h>
#include <stdio.h>
#include <stdlib.h>
#include <sys/mman.h>
#include <sys/syscall.h>
#include <unistd.h>

static long real_syscall(long number, long a, long b, long c, long d, long e, long f)
{
	long result;
	register long r10 __asm__("r10") = d;
	register long r8 __asm__("r8") = e;
	register long r9 __asm__("r9") = f;
	__asm__ volatile("syscall" : "=a"(result)
		: "a"(number), "D"(a), "S"(b), "d"(c), "r"(r10), "r"(r8), "r"(r9)
		: "rcx", "r11", "memory");
	if (result < 0 && result > -4096) {
		errno = -result;
		return -1;
	}
	return result;
}

static int some_descriptor(void) { return open("/dev/null", O_RDONLY | O_CLOEXEC); }

/* a map: libbpf maps the bytes of some over the descriptor */
static int map_descriptor(void)
{
	int fd = memfd_create("map", MFD_CLOEXEC);
	if (fd >= 0 && ftruncate(fd, 1L << 36)) {
		close(fd);
		return some_descriptor();
	}
	return fd;
}

static long answer(long command)
{
	switch (command) {
	case BPF_MAP_CREATE:
		return map_descriptor();
	case BPF_PROG_LOAD:
	case BPF_BTF_LOAD:
	case BPF_LINK_CREATE:
	case BPF_RAW_TRACEPOINT_OPEN:
	case BPF_MAP_GET_FD_BY_ID:
	case BPF_PROG_GET_FD_BY_ID:
	case BPF_BTF_GET_FD_BY_ID:
		return some_descriptor();
	case BPF_OBJ_GET:
	case BPF_BTF_GET_NEXT_ID:
	case BPF_PROG_GET_NEXT_ID:
	case BPF_MAP_GET_NEXT_ID:
		errno = ENOENT;
		return -1;
	case BPF_OBJ_PIN:
	case BPF_MAP_UPDATE_ELEM:
	case BPF_MAP_FREEZE:
	case BPF_PROG_BIND_MAP:
	case BPF_OBJ_GET_INFO_BY_FD:
		return 0;
	default:
		errno = EINVAL;
		return -1;
	}
}

long syscall(long number, ...)
{
	long words[6];
	va_list list;
	va_start(list, number);
	for (int i = 0; i < 6; i++)
		words[i] = va_arg(list, long);
	va_end(list);
	if (number == __NR_bpf)
		return answer(words[0]);
	return real_syscall(number, words[0], words[1], words[2], words[3], words[4], words[5]);
}

static int quiet(enum libbpf_print_level level, const char *format, va_list list) { return 0; }
static int loud(enum libbpf_print_level level, const char *format, va_list list) { return vfprintf(stderr, format, list); }

/* Sections whose programs attach to types of the kernel, and those of unknown names: without a target to look for. */
static void register_sections(void)
{
	static const char *names[] = {
		"fentry+", "fexit+", "fentry.s+", "fexit.s+", "fmod_ret+", "fmod_ret.s+", "lsm+", "lsm.s+", "lsm_cgroup+",
		"iter+", "iter.s+", "tp_btf+", "freplace+", "raw_tp+", "raw_tracepoint+", NULL,
	};
	for (int i = 0; ; i++) {
		libbpf_register_prog_handler(names[i], BPF_PROG_TYPE_KPROBE, 0, NULL);
		if (!names[i])
			break;
	}
}

static void prepare(struct bpf_object *object)
{
	struct bpf_program *program;
	bpf_object__for_each_program(program, object) {
		bpf_program__set_autoload(program, false);
		if (bpf_program__type(program) == BPF_PROG_TYPE_UNSPEC)
			bpf_program__set_type(program, BPF_PROG_TYPE_KPROBE);
	}
	struct bpf_map *map;
	bpf_object__for_each_map(map, object) {
		bpf_map__set_pin_path(map, NULL);
		if (bpf_map__max_entries(map) == 0 && !bpf_map__is_internal(map))
			bpf_map__set_max_entries(map, 1);
	}
}

/* The types are made ready before maps and programs are, so that they stand also where a load fails behind. Where it fails
 * before, for a strong extern or a configuration, hidden functions have stayed global. */
static void print_types(const char *path)
{
	LIBBPF_OPTS(bpf_object_open_opts, options, .object_name = "x", .kconfig = "");
	struct bpf_object *object = bpf_object__open_file(path, &options);
	if (!object) {
		printf("refused: %d\n", errno);
		return;
	}
	prepare(object);
	int error = bpf_object__load(object);
	struct btf *types = bpf_object__btf(object);
	unsigned int size = 0;
	const unsigned char *bytes = types ? btf__raw_data(types, &size) : NULL;
	if (error && getenv("STRICT"))
		printf("refused: %d", error);
	else if (!bytes)
		printf("none");
	else
		for (unsigned int i = 0; i < size; i++)
			printf("%02x", bytes[i]);
	printf("\n");
	bpf_object__close(object);
}

int main(int count, char **words)
{
	setvbuf(stdout, NULL, _IOLBF, 0);
	libbpf_set_print(getenv("LOUD") ? loud : quiet);
	register_sections();
	for (int i = 1; i < count; i++)
		print_types(words[i]);
	return 0;
}

/*
 * How long libbpf takes to open an object and make its programs ready to load.
 *
 *   load_times FILE RUNS     prints 'times N N .. us', a number for each run, and 'least N us' of all but the first
 *
 * No program's attach target is looked up, which is no part of what is measured. No call of bpf(2) reaches the kernel:
 * syscall() is defined here, libbpf.so binds to it, and each command is answered with success, and with a descriptor where
 * one is wanted. So the time is libbpf's own, and what it makes doesn't depend on what the kernel would accept.
 */
#define _GNU_SOURCE
#include <bpf/libbpf.h>
#include <errno.h>
#include <fcntl.h>
#include <linux/bpf.h>
#include <stdarg.h>
#include <stdio.h>
#include <stdlib.h>
#include <sys/mman.h>
#include <sys/syscall.h>
#include <time.h>
#include <unistd.h>

static long kernel(long number, const long *a)
{
	long answer;
	register long d __asm__("r10") = a[3];
	register long e __asm__("r8") = a[4];
	register long f __asm__("r9") = a[5];

	__asm__ volatile("syscall"
			 : "=a"(answer)
			 : "a"(number), "D"(a[0]), "S"(a[1]), "d"(a[2]), "r"(d), "r"(e), "r"(f)
			 : "rcx", "r11", "memory");
	if (answer < 0 && answer > -4096) {
		errno = -answer;
		return -1;
	}
	return answer;
}

static long refused(int error)
{
	errno = error;
	return -1;
}

/* From 1.5 on libbpf puts a map's bytes in place over its descriptor. */
static long map_of_any_size(void)
{
	int map = memfd_create("map", MFD_CLOEXEC);

	return ftruncate(map, 1L << 36) ? refused(ENOMEM) : map;
}

static long answered(long command)
{
	switch (command) {
	case BPF_MAP_CREATE:
		return map_of_any_size();
	case BPF_PROG_LOAD:
	case BPF_BTF_LOAD:
	case BPF_LINK_CREATE:
	case BPF_RAW_TRACEPOINT_OPEN:
	case BPF_MAP_GET_FD_BY_ID:
	case BPF_PROG_GET_FD_BY_ID:
	case BPF_BTF_GET_FD_BY_ID:
		return open("/dev/null", O_RDONLY | O_CLOEXEC);
	case BPF_OBJ_GET:
	case BPF_BTF_GET_NEXT_ID:
	case BPF_PROG_GET_NEXT_ID:
	case BPF_MAP_GET_NEXT_ID:
		return refused(ENOENT);
	case BPF_OBJ_PIN:
	case BPF_MAP_UPDATE_ELEM:
	case BPF_MAP_FREEZE:
	case BPF_PROG_BIND_MAP:
	case BPF_OBJ_GET_INFO_BY_FD:
		return 0;
	default:
		return refused(EINVAL);
	}
}

long syscall(long number, ...)
{
	long a[6];
	va_list list;

	va_start(list, number);
	for (int at = 0; at < 6; at++)
		a[at] = va_arg(list, long);
	va_end(list);
	return number == __NR_bpf ? answered(a[0]) : kernel(number, a);
}

static int say_nothing(enum libbpf_print_level level, const char *format, va_list list)
{
	return 0;
}

/* Programs of these sections, and of those that libbpf doesn't know, have then no attach target that is looked up. */
static void register_sections(void)
{
	static const char *const names[] = {
		"fentry+", "fexit+", "fentry.s+", "fexit.s+", "fmod_ret+", "fmod_ret.s+", "lsm+", "lsm.s+", "lsm_cgroup+",
		"iter+", "iter.s+", "tp_btf+", "freplace+", "raw_tp+", "raw_tracepoint+", NULL,
	};

	for (int at = 0;; at++) {
		libbpf_register_prog_handler(names[at], BPF_PROG_TYPE_KPROBE, 0, NULL);
		if (!names[at])
			return;
	}
}

/* Makes the programs and maps of an object ready. Tools set the sizes of some maps when they run. */
static int load(struct bpf_object *object)
{
	struct bpf_program *program;
	struct bpf_map *map;

	bpf_object__for_each_program(program, object) {
		bpf_program__set_autoload(program, true);
		if (bpf_program__type(program) == BPF_PROG_TYPE_UNSPEC)
			bpf_program__set_type(program, BPF_PROG_TYPE_KPROBE);
	}
	bpf_object__for_each_map(map, object) {
		bpf_map__set_pin_path(map, NULL);
		bpf_map__set_autocreate(map, true);
		if (!bpf_map__max_entries(map) && !bpf_map__is_internal(map))
			bpf_map__set_max_entries(map, 1);
	}
	return bpf_object__load(object);
}

/* Opens the object and makes its programs ready; the time in microseconds. */
static double once(const char *path)
{
	LIBBPF_OPTS(bpf_object_open_opts, options, .object_name = "x", .kconfig = "");
	struct timespec begin, end;
	struct bpf_object *object;

	clock_gettime(CLOCK_MONOTONIC, &begin);
	object = bpf_object__open_file(path, &options);
	if (!object || load(object)) {
		fprintf(stderr, "load_times: %s is refused\n", path);
		exit(1);
	}
	clock_gettime(CLOCK_MONOTONIC, &end);
	bpf_object__close(object);
	return (end.tv_sec - begin.tv_sec) * 1e6 + (end.tv_nsec - begin.tv_nsec) / 1e3;
}

int main(int count, char **words)
{
	double least = 0;

	if (count != 3) {
		fprintf(stderr, "usage: load_times FILE RUNS\n");
		return 2;
	}
	libbpf_set_print(say_nothing);
	register_sections();
	printf("times");
	/* the first run asks the kernel what it can do */
	for (int at = 0; at < atoi(words[2]); at++) {
		double time = once(words[1]);

		printf(" %.0f", time);
		if (at == 1 || (at > 1 && time < least))
			least = time;
	}
	printf(" us\nleast %.0f us\n", least);
	return 0;
}

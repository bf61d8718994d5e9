// Answers bpf(2) in the kernel's place, and writes a line for each program that is loaded to the file that RECORD names: its
// name, type, attach type, flags, the id of what it is attached to, and its slots in hexadecimal digits. It is linked into the
// loader and into a program over libbpf, whose lines have to be the same.
#define _GNU_SOURCE
#include <errno.h>
#include <fcntl.h>
#include <linux/bpf.h>
#include <stdarg.h>
#include <stdint.h>
#include <stdio.h>
#include <stdlib.h>
#include <sys/mman.h>
#include <sys/syscall.h>
#include <unistd.h>

static long real_syscall(long number, const long *words)
{
	long result;
	register long r10 __asm__("r10") = words[3];
	register long r8 __asm__("r8") = words[4];
	register long r9 __asm__("r9") = words[5];
	__asm__ volatile("syscall" : "=a"(result)
		: "a"(number), "D"(words[0]), "S"(words[1]), "d"(words[2]), "r"(r10), "r"(r8), "r"(r9)
		: "rcx", "r11", "memory");
	if (result < 0 && result > -4096) {
		errno = -result;
		return -1;
	}
	return result;
}

static void record(const union bpf_attr *attr)
{
	const char *path = getenv("RECORD");
	FILE *file = path ? fopen(path, "a") : NULL;
	const uint8_t *slots = (const uint8_t *)(uintptr_t)attr->insns;

	if (!file)
		return;
	fprintf(file, "%.16s %u %u %u %u ", attr->prog_name, attr->prog_type, attr->expected_attach_type, attr->prog_flags,
		attr->attach_btf_id);
	for (uint32_t at = 0; at < 8 * attr->insn_cnt; at++)
		fprintf(file, "%02x", slots[at]);
	fputc('\n', file);
	fclose(file);
}

static long some_descriptor(void)
{
	return open("/dev/null", O_RDONLY | O_CLOEXEC);
}

/* A map: libbpf maps the bytes of some over the descriptor. */
static long map_descriptor(void)
{
	int fd = memfd_create("map", MFD_CLOEXEC);

	return fd >= 0 && ftruncate(fd, 1L << 32) ? some_descriptor() : fd;
}

static long answer(long command, const union bpf_attr *attr)
{
	switch (command) {
	case BPF_PROG_LOAD:
		record(attr);
		return some_descriptor();
	case BPF_MAP_CREATE:
		return map_descriptor();
	case BPF_BTF_LOAD:
	case BPF_LINK_CREATE:
	case BPF_RAW_TRACEPOINT_OPEN:
		return some_descriptor();
	case BPF_MAP_UPDATE_ELEM:
	case BPF_MAP_FREEZE:
	case BPF_PROG_BIND_MAP:
	case BPF_PROG_TEST_RUN:
		return 0;
	default:
		errno = ENOENT;
		return -1;
	}
}

long syscall(long number, ...)
{
	long words[6];
	va_list list;

	va_start(list, number);
	for (int i = 0; i < 6; i++)
		words[i] = va_arg(list, long);
	va_end(list);
	if (number == __NR_bpf)
		return answer(words[0], (const union bpf_attr *)words[1]);
	return real_syscall(number, words);
}

/* A program that runs: by itself, as a walk over what the kernel has, or attached to one of its trace points. */
#include "loader.h"
#include <errno.h>
#include <time.h>
#include <unistd.h>

/* The kernel's ENOTSUPP, which no header of its users has. */
#define NOT_RUN 524

static void pause_for(unsigned milliseconds)
{
	struct timespec left = { milliseconds / 1000, milliseconds % 1000 * 1000000L };

	while (nanosleep(&left, &left) && errno == EINTR)
		;
}

/* Runs a program once on given bytes: its context where it takes one from who runs it, else a packet. */
static void run_once(int loaded, const struct ebpf_program *program, struct bytes given)
{
	union bpf_attr attr;

	clear(&attr);
	attr.test.prog_fd = loaded;
	if (program->program_type == BPF_PROG_TYPE_RAW_TRACEPOINT || program->program_type == BPF_PROG_TYPE_SYSCALL) {
		attr.test.ctx_in = (uintptr_t)given.at;
		attr.test.ctx_size_in = given.len;
	} else {
		attr.test.data_in = (uintptr_t)given.at;
		attr.test.data_size_in = given.len;
		attr.test.repeat = 1;
	}
	if (bpf(BPF_PROG_TEST_RUN, &attr)) {
		if (errno == NOT_RUN)
			errx(1, "the kernel runs no program of this kind by itself");
		err(1, "the kernel doesn't run the program");
	}
	printf("returned %u\n", attr.test.retval);
}

/* Prints what a program writes while the kernel calls it for each thing that it walks over. */
static void walk(int loaded)
{
	union bpf_attr attr;
	int link, walked;
	char part[4096];
	ssize_t len;

	clear(&attr);
	attr.link_create.prog_fd = loaded;
	attr.link_create.attach_type = BPF_TRACE_ITER;
	link = bpf(BPF_LINK_CREATE, &attr);
	if (link < 0)
		err(1, "the kernel doesn't attach the program");
	clear(&attr);
	attr.iter_create.link_fd = link;
	walked = bpf(BPF_ITER_CREATE, &attr);
	if (walked < 0)
		err(1, "the kernel doesn't begin the walk");
	while ((len = read(walked, part, sizeof(part))) != 0) {
		if (len < 0 && errno != EAGAIN)
			err(1, "the walk");
		if (len > 0)
			fwrite(part, 1, len, stdout);
	}
	close(walked);
	close(link);
}

/* Lets the kernel call a program at its trace point for some time. */
static void attach(int loaded, unsigned milliseconds)
{
	union bpf_attr attr;
	int link;

	clear(&attr);
	attr.raw_tracepoint.prog_fd = loaded;
	link = bpf(BPF_RAW_TRACEPOINT_OPEN, &attr);
	if (link < 0)
		err(1, "the kernel doesn't attach the program");
	puts("attached");
	pause_for(milliseconds);
	close(link);
}

/* Runs a program as its kind is run, and waits: what it began may go on for a while. */
void run(int loaded, const struct ebpf_program *program, struct bytes given, unsigned milliseconds)
{
	int is_tracing = program->program_type == BPF_PROG_TYPE_TRACING;

	if (is_tracing && program->attach_type == BPF_TRACE_ITER) {
		walk(loaded);
	} else if (is_tracing && program->attach_type == BPF_TRACE_RAW_TP) {
		attach(loaded, milliseconds);
	} else {
		run_once(loaded, program, given);
		pause_for(milliseconds);
	}
}

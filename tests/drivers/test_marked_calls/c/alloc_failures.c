/*
 * Makes each allocation of one call fail in turn, each in a child process of its own.
 *
 * alloc_failures_row forks a process for each row of a folder, so many at once. In it, standard output and standard error go
 * to the files ROW.out and ROW.err of the folder, and its status to ROW.status in the end.
 *
 * alloc_failures_begin forks a child that counts the call's allocations, and then one child for each allocation that fails
 * alone and, where both ways are chosen, one for each that fails with all behind it; last one behind the last allocation.
 * Each child makes the call, up to alloc_failures_end, and ends with the program. Of each child a line stands on standard
 * output, "== run N MET FAILED STATUS ID OUT ERR" (N with '-' where all behind it fail), and where no earlier child printed
 * the same (ID is new), the OUT bytes of its standard output and the ERR bytes of its standard error. Then the parent makes
 * the call with memory.
 *
 * An allocation is a call of rattle_alloc, or of rattle_realloc for more bytes than are kept: the functions by which a
 * Rattle program takes memory. The program is linked with them, so their first bytes are overwritten by a jump.
 */
#define _GNU_SOURCE
#include <fcntl.h>
#include <stdint.h>
#include <stdio.h>
#include <stdlib.h>
#include <string.h>
#include <sys/mman.h>
#include <sys/wait.h>
#include <unistd.h>

/* A call takes milliseconds; a child that takes longer than this, in seconds, is ended. */
#define LONGEST 20

struct block {
	uint64_t is_some;
	void *start;
};

struct block rattle_alloc(size_t size, size_t align);
struct block rattle_realloc(void *block, size_t kept, size_t size, size_t align);

/* What a child tells its parent. */
struct counts {
	unsigned long met, failed;
};

/* What a child printed on both outputs. */
struct text {
	size_t out, err;
	char *bytes;
};

static struct counts *counts;
static unsigned long first;
static int goes_on, is_counting, both_ways;
static struct text *texts;
static size_t text_count;

static void stop(const char *what)
{
	perror(what);
	_exit(3);
}

static int fails(void)
{
	if (!is_counting)
		return 0;
	counts->met++;
	if (first == 0 || counts->met < first || (counts->met > first && !goes_on))
		return 0;
	counts->failed++;
	return 1;
}

static struct block block_at(void *start)
{
	struct block block = {start != NULL, start ? start : (void *)16};

	return block;
}

static struct block failing_alloc(size_t size, size_t align)
{
	return block_at(fails() ? NULL : malloc(size ? size : align));
}

static struct block failing_realloc(void *block, size_t kept, size_t size, size_t align)
{
	if (size > kept && fails())
		return block_at(NULL);
	return block_at(realloc(block, size ? size : align));
}

/* Overwrites the beginning of a function by `movabs $to, %rax; jmp *%rax`. */
static void lead(void *from, void *to)
{
	unsigned char jump[12] = {0x48, 0xb8, [10] = 0xff, 0xe0};
	uintptr_t page = (uintptr_t)sysconf(_SC_PAGESIZE);

	memcpy(jump + 2, &to, sizeof(to));
	if (mprotect((void *)((uintptr_t)from & ~(page - 1)), 2 * page, PROT_READ | PROT_WRITE | PROT_EXEC))
		stop("mprotect");
	memcpy(from, jump, sizeof(jump));
}

static void prepare(void)
{
	counts = mmap(NULL, sizeof(*counts), PROT_READ | PROT_WRITE, MAP_SHARED | MAP_ANONYMOUS, -1, 0);
	if (counts == MAP_FAILED)
		stop("mmap");
	lead((void *)rattle_alloc, (void *)failing_alloc);
	lead((void *)rattle_realloc, (void *)failing_realloc);
}

static int memory_file(void)
{
	int file = memfd_create("output", 0);

	if (file < 0)
		stop("memfd_create");
	return file;
}

/* The text of both outputs. */
static struct text text_of(int out, int err)
{
	struct text text = {(size_t)lseek(out, 0, SEEK_END), (size_t)lseek(err, 0, SEEK_END), NULL};

	text.bytes = malloc(text.out + text.err + 1);
	if (pread(out, text.bytes, text.out, 0) < 0 || pread(err, text.bytes + text.out, text.err, 0) < 0)
		stop("pread");
	return text;
}

static int are_same(struct text a, struct text b)
{
	return a.out == b.out && a.err == b.err && !memcmp(a.bytes, b.bytes, a.out + a.err);
}

/* The number of a text, and whether it is new. */
static size_t number_of(struct text text, int *is_new)
{
	size_t number = 0;

	while (number < text_count && !are_same(texts[number], text))
		number++;
	*is_new = number == text_count;
	if (*is_new) {
		texts = realloc(texts, ++text_count * sizeof(text));
		texts[number] = text;
	} else {
		free(text.bytes);
	}
	return number;
}

static void print(const char *bytes, size_t size)
{
	while (size) {
		ssize_t written = write(1, bytes, size);

		if (written <= 0)
			stop("write");
		bytes += written;
		size -= (size_t)written;
	}
}

static void report(unsigned long number, int status, struct text text)
{
	int is_new;
	size_t id = number_of(text, &is_new);
	char line[160];
	int size = snprintf(line, sizeof(line), "== run %lu%s %lu %lu %d %zu %zu %zu\n", number, goes_on ? "-" : "", counts->met,
			    counts->failed, status, id, texts[id].out, texts[id].err);

	print(line, (size_t)size);
	if (is_new)
		print(text.bytes, text.out + text.err);
}

/* Forks a child whose allocation of this number fails; returns 1 in the child. */
static int run_child(unsigned long number)
{
	int out = memory_file(), err = memory_file(), status;
	pid_t child;

	memset(counts, 0, sizeof(*counts));
	child = fork();
	if (child < 0)
		stop("fork");
	if (child == 0) {
		alarm(LONGEST);
		dup2(out, 1);
		dup2(err, 2);
		first = number;
		is_counting = 1;
		return 1;
	}
	if (waitpid(child, &status, 0) != child)
		stop("waitpid");
	report(number, WIFEXITED(status) ? WEXITSTATUS(status) : -WTERMSIG(status), text_of(out, err));
	close(out);
	close(err);
	return 0;
}

/* The path of a row's file. */
static char *path_of(const char *folder, size_t size, long row, const char *ending)
{
	static char path[4096];

	snprintf(path, sizeof(path), "%.*s/%ld.%s", (int)size, folder, row, ending);
	return path;
}

static void lead_to(int file, const char *path)
{
	int opened = open(path, O_WRONLY | O_CREAT | O_TRUNC, 0600);

	if (opened < 0 || dup2(opened, file) < 0)
		stop(path);
	close(opened);
}

/* Waits for the process of a row to end, and writes its status. `processes` has the process of each row. */
static void end_row(const char *folder, size_t size, pid_t *processes, long rows)
{
	int status;
	long row = 0;
	pid_t process = wait(&status);
	FILE *file;

	if (process < 0)
		stop("wait");
	while (row < rows && processes[row] != process)
		row++;
	if (row == rows)
		stop("an unknown process");
	processes[row] = 0;
	file = fopen(path_of(folder, size, row, "status"), "w");
	if (!file || fprintf(file, "%d\n", WIFEXITED(status) ? WEXITSTATUS(status) : -WTERMSIG(status)) < 0 || fclose(file))
		stop("status");
}

/* In the process of each of so many rows of a folder the row's number; -1 in the first process, once all have ended. */
long alloc_failures_row(const char *folder, size_t size, long rows, long at_once)
{
	pid_t *processes = calloc((size_t)rows + 1, sizeof(*processes));
	long running = 0;

	for (long row = 0; row < rows; row++) {
		if (running == at_once) {
			end_row(folder, size, processes, rows);
			running--;
		}
		processes[row] = fork();
		if (processes[row] < 0)
			stop("fork");
		if (processes[row] == 0) {
			lead_to(1, path_of(folder, size, row, "out"));
			lead_to(2, path_of(folder, size, row, "err"));
			return row;
		}
		running++;
	}
	for (; running; running--)
		end_row(folder, size, processes, rows);
	return -1;
}

/* Chooses whether an allocation also fails with all behind it. */
void alloc_failures_choose(int both)
{
	both_ways = both;
}

void alloc_failures_begin(void)
{
	unsigned long all;

	prepare();
	if (run_child(0))
		return;
	all = counts->met;
	for (goes_on = 0; goes_on <= both_ways; goes_on++)
		for (unsigned long number = 1; number <= all + 1; number++)
			if (run_child(number))
				return;
	alarm(LONGEST);
}

void alloc_failures_end(void)
{
	is_counting = 0;
}

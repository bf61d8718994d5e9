/*
 * What C programmers do by habit: a pass made twice, results that were not initialised, null arrays, a handle that is moved,
 * in memory and to another thread, and threads with a handle each. habits.py runs it under sanitizers and under valgrind.
 *
 * usage: habits OBJECT TYPES      an object with the maps of counter.o, and a kernel's types
 *
 * Prints a line for each fault, and at the end 'N passed, M failed'.
 */
#include "shared.h"
#include <pthread.h>

struct given {
	struct bytes file, types;
};

/* What one thread counts. */
struct counted {
	const struct given *given;
	size_t passed, failed;
};

static void count_check(struct counted *of, int holds, const char *what, int line)
{
	of->passed += holds;
	of->failed += !holds;
	if (!holds)
		fprintf(stderr, "FAILED %s (line %d)\n", what, line);
}

#define CHECK(of, holds) count_check(of, holds, #holds, __LINE__)

/* Descriptors of all maps. */
static size_t rows_of(const struct ebpf_handle *of, struct ebpf_descriptor *rows, size_t room)
{
	struct ebpf_map map;
	size_t at = 0;

	for (; at < room && (rows[at].name = ebpf_map_at(of, at, &map)); at++) {
		rows[at].name_len = map.name_len;
		rows[at].descriptor = (int32_t)at + 3;
	}
	return at;
}

/* The sum of the immediates of all slots. */
static uint64_t sum_of(const struct ebpf_handle *of)
{
	uint64_t sum = 0;

	for (size_t at = 0; at < ebpf_program_count(of); at++) {
		size_t count = 0;
		const struct ebpf_insn *slots = ebpf_program_slots(of, at, &count);

		for (size_t slot = 0; slots && slot < count; slot++)
			sum += (uint32_t)slots[slot].imm;
	}
	return sum;
}

/* The natural retry: a pass that returned 0 is made again. */
static void make_twice(struct counted *of)
{
	struct ebpf_descriptor rows[16];
	struct ebpf_handle *handle;
	uint64_t sum;
	size_t count;

	CHECK(of, ebpf_open(of->given->file.at, of->given->file.len, NULL, &handle) == EBPF_DONE);
	count = rows_of(handle, rows, 16);
	CHECK(of, ebpf_relocate_maps(handle, rows, count) == EBPF_DONE);
	sum = sum_of(handle);
	count = rows_of(handle, rows, 16);
	CHECK(of, ebpf_relocate_maps(handle, rows, count) == EBPF_PASS_MADE && sum_of(handle) == sum);
	CHECK(of, ebpf_relocate_types(handle, of->given->types.at, of->given->types.len) == EBPF_PASS_ORDER);
	CHECK(of, ebpf_prepare_handle(handle, NULL) == EBPF_PASS_ORDER && sum_of(handle) == sum);
	CHECK(of, ebpf_relocate_calls(handle) == EBPF_DONE && ebpf_relocate_calls(handle) == EBPF_PASS_MADE);
	ebpf_close(handle);
}

/* Nothing that a call writes is initialised, and nothing is read that a call did not write. */
static void give_uninitialised(struct counted *of)
{
	struct ebpf_handle *handle, *copy, *refused;
	struct ebpf_btf *btf, *none;
	struct ebpf_object_info info;
	struct ebpf_counts counts;
	struct ebpf_map_slot slot;
	struct ebpf_program program;
	struct ebpf_program *rows;
	struct ebpf_verdict_summary verdict;
	uint32_t answer, id, wants;
	size_t count;
	char *text;

	CHECK(of, ebpf_open(of->given->file.at, of->given->file.len, NULL, &handle) == EBPF_DONE);
	CHECK(of, ebpf_open(of->given->file.at, 9, NULL, &refused) == EBPF_PARSE_TOO_SHORT && refused);
	CHECK(of, ebpf_clone(handle, &copy) == EBPF_DONE && ebpf_info(copy, &info) == EBPF_DONE && info.has_types == 1);
	CHECK(of, ebpf_programs(handle, NULL, 0, NULL, 0, &counts) == EBPF_ROOM && counts.rows && counts.text);
	rows = malloc(counts.rows * sizeof(*rows));
	text = malloc(counts.text);
	CHECK(of, rows && text && ebpf_programs(handle, rows, counts.rows, text, counts.text, &counts) == EBPF_DONE);
	CHECK(of, rows && text && strlen(text + rows[0].name_at) == rows[0].name_len);
	free(rows);
	free(text);
	CHECK(of, ebpf_find_program(handle, "on_packet", 9, &program) == EBPF_DONE && program.slots == 15);
	CHECK(of, ebpf_btf_open(of->given->types.at, of->given->types.len, &btf) == EBPF_DONE);
	CHECK(of, ebpf_btf_open(of->given->types.at, 5, &none) == EBPF_TYPES_READ_INVALID_HEADER && !none);
	CHECK(of, ebpf_attach_target_with("xdp", 3, btf, &answer, &id) == EBPF_DONE && answer == EBPF_TARGET_NOT_WANTED && !id);
	CHECK(of, ebpf_record_outcomes_with(handle, btf, &count) == EBPF_DONE && count);
	CHECK(of, ebpf_check(handle, btf, &verdict) == EBPF_DONE && verdict.programs_ok + verdict.programs_break);
	CHECK(of, ebpf_maps_without_descriptors(handle, NULL, 0, &count) == EBPF_DONE && count);
	CHECK(of, ebpf_map_without_descriptor_at(handle, count - 1, &slot) && slot.name_len);
	CHECK(of, ebpf_wants_symbols(handle, &wants) == EBPF_DONE && wants <= 1);
	ebpf_btf_close(btf);
	ebpf_close(refused);
	ebpf_close(copy);
	ebpf_close(handle);
}

/* Arrays of no values are null, and so are results that nobody wants. */
static void give_nulls(struct counted *of)
{
	struct ebpf_handle *handle;
	struct ebpf_btf *btf;

	CHECK(of, ebpf_open(NULL, 0, NULL, &handle) == EBPF_PARSE_TOO_SHORT);
	ebpf_close(handle);
	CHECK(of, ebpf_btf_open(NULL, 0, &btf) == EBPF_TYPES_READ_INVALID_HEADER && !btf);
	CHECK(of, ebpf_open(of->given->file.at, of->given->file.len, NULL, &handle) == EBPF_DONE);
	CHECK(of, ebpf_set_values(handle, NULL, 0) == EBPF_DONE && ebpf_define_kconfig(handle, NULL, 0) == EBPF_DONE);
	CHECK(of, ebpf_maps_without_descriptors(handle, NULL, 0, NULL) == EBPF_DONE);
	CHECK(of, ebpf_find_map(handle, NULL, 0, NULL) == EBPF_NO_MAP);
	CHECK(of, ebpf_set_value(handle, "none", 4, NULL, 0, 0) == EBPF_DONE);
	CHECK(of, ebpf_relocate_types_with(handle, NULL) == EBPF_CLOSED);
	CHECK(of, ebpf_resolve_externs(handle, NULL, 0, NULL, 0) == EBPF_DONE);
	ebpf_close(handle);
	ebpf_btf_close(NULL);
	ebpf_close(NULL);
}

/* The struct that has the handle is moved, and its old place is gone. */
static void move(struct counted *of)
{
	struct held {
		struct ebpf_handle *handle;
		struct ebpf_btf *btf;
	} *first = malloc(sizeof(*first)), *second = malloc(sizeof(*second));

	if (!first || !second)
		errx(3, "no memory");
	CHECK(of, ebpf_open(of->given->file.at, of->given->file.len, NULL, &first->handle) == EBPF_DONE);
	CHECK(of, ebpf_btf_open(of->given->types.at, of->given->types.len, &first->btf) == EBPF_DONE);
	CHECK(of, ebpf_program_count(first->handle) == 2);
	memcpy(second, first, sizeof(*second));
	memset(first, 0xff, sizeof(*first));
	free(first);
	CHECK(of, !strcmp(ebpf_program_at(second->handle, 0, NULL), "on_packet"));
	CHECK(of, ebpf_relocate_types_with(second->handle, second->btf) == EBPF_DONE);
	CHECK(of, ebpf_relocate_types_with(second->handle, second->btf) == EBPF_PASS_MADE);
	ebpf_btf_close(second->btf);
	ebpf_close(second->handle);
	free(second);
}

/* What is made on one thread, used on a second and freed on a third. */
struct handed {
	struct counted *of;
	struct ebpf_handle *handle;
	struct ebpf_btf *btf;
};

static void *use_handed(void *given)
{
	struct handed *at = given;

	CHECK(at->of, ebpf_program_count(at->handle) == 2);
	CHECK(at->of, ebpf_relocate_types_with(at->handle, at->btf) == EBPF_DONE);
	CHECK(at->of, ebpf_relocate_types_with(at->handle, at->btf) == EBPF_PASS_MADE);
	return NULL;
}

static void *free_handed(void *given)
{
	struct handed *at = given;

	CHECK(at->of, ebpf_last_error(at->handle)->number == EBPF_PASS_MADE);
	CHECK(at->of, !strcmp(ebpf_program_at(at->handle, 0, NULL), "on_packet"));
	ebpf_btf_close(at->btf);
	ebpf_close(at->handle);
	return NULL;
}

static void run_on_a_thread(void *(*body)(void *), struct handed *at)
{
	pthread_t thread;

	if (pthread_create(&thread, NULL, body, at))
		errx(3, "no thread");
	pthread_join(thread, NULL);
}

static void hand_over(struct counted *of)
{
	struct handed at = { .of = of };

	CHECK(of, ebpf_open(of->given->file.at, of->given->file.len, NULL, &at.handle) == EBPF_DONE);
	CHECK(of, ebpf_btf_open(of->given->types.at, of->given->types.len, &at.btf) == EBPF_DONE);
	run_on_a_thread(use_handed, &at);
	run_on_a_thread(free_handed, &at);
}

static void *of_thread(void *counted)
{
	make_twice(counted);
	give_uninitialised(counted);
	give_nulls(counted);
	move(counted);
	hand_over(counted);
	return NULL;
}

#define THREADS 4

int main(int words, char **word)
{
	struct counted counted[THREADS];
	pthread_t threads[THREADS];
	struct given given;
	size_t passed = 0, failed = 0;

	if (words != 3)
		errx(2, "usage: habits OBJECT TYPES");
	given.file = read_file(word[1]);
	given.types = read_file(word[2]);
	for (size_t at = 0; at < THREADS; at++) {
		counted[at] = (struct counted){ &given, 0, 0 };
		if (pthread_create(&threads[at], NULL, of_thread, &counted[at]))
			errx(3, "no thread");
	}
	for (size_t at = 0; at < THREADS; at++) {
		pthread_join(threads[at], NULL);
		passed += counted[at].passed;
		failed += counted[at].failed;
	}
	free(given.file.at);
	free(given.types.at);
	printf("%zu passed, %zu failed\n", passed, failed);
	return failed != 0;
}

/*
 * What each call of the C interface writes and where, over memory that ends at the end of a page.
 *
 * usage: bounds SMALL COUNTER REFERENCES TYPES SYMBOLS LOADED    object files of the repository, a kernel's types and
 *                                                                symbols, and an object that a loader has settings for
 *
 * Prints a line for each fault, and at the end 'N passed, M failed'.
 */
#include "checked.h"
#include "listed.h"
#include "told.h"
#include <pthread.h>

size_t passed, failed;

void count_check(int holds, const char *of, const char *what, int line)
{
	if (holds)
		passed++;
	else
		printf("FAILED %s: %s (line %d)\n", of, what, line);
	failed += !holds;
}

struct ebpf_handle *opened(const struct guarded *file)
{
	struct ebpf_handle *handle = NULL;

	if (open_strictly(file->at, file->size, &handle) != EBPF_DONE)
		errx(3, "a file of the repository can't be opened");
	return handle;
}

/* ---- lists of rows with names */

typedef uint32_t list_call(struct ebpf_handle *, void *, size_t, char *, size_t, struct ebpf_counts *);

static uint32_t programs(struct ebpf_handle *of, void *rows, size_t room, char *text, size_t text_room,
			 struct ebpf_counts *counts)
{
	return ebpf_programs(of, rows, room, text, text_room, counts);
}

static uint32_t maps(struct ebpf_handle *of, void *rows, size_t room, char *text, size_t text_room,
		     struct ebpf_counts *counts)
{
	return ebpf_maps(of, rows, room, text, text_room, counts);
}

static uint32_t externs(struct ebpf_handle *of, void *rows, size_t room, char *text, size_t text_room,
			struct ebpf_counts *counts)
{
	return ebpf_externs(of, rows, room, text, text_room, counts);
}

static uint32_t variables(struct ebpf_handle *of, void *rows, size_t room, char *text, size_t text_room,
			  struct ebpf_counts *counts)
{
	return ebpf_variables(of, rows, room, text, text_room, counts);
}

static uint32_t sections(struct ebpf_handle *of, void *rows, size_t room, char *text, size_t text_room,
			 struct ebpf_counts *counts)
{
	return ebpf_sections(of, rows, room, text, text_room, counts);
}

struct list {
	const char *name;
	list_call *call;
	size_t row;
};

static const struct list lists[] = {
	{ "ebpf_programs", programs, sizeof(struct ebpf_program) },
	{ "ebpf_maps", maps, sizeof(struct ebpf_map) },
	{ "ebpf_externs", externs, sizeof(struct ebpf_extern) },
	{ "ebpf_sections", sections, sizeof(struct ebpf_section) },
	{ "ebpf_variables", variables, sizeof(struct ebpf_variable) },
};

/* Each row begins with its name's place. */
struct named {
	size_t name_at, name_len;
};

/* Names lie in the text, a zero byte behind each, and come in byte order. */
static void check_names(const struct list *list, const uint8_t *rows, const char *text, struct ebpf_counts counts)
{
	const char *before = "";
	int is_inside = 1, is_ordered = 1;

	for (size_t at = 0; at < counts.rows; at++) {
		struct named name;

		memcpy(&name, rows + at * list->row, sizeof(name));
		if (name.name_at >= counts.text || name.name_len >= counts.text - name.name_at) {
			is_inside = 0;
			break;
		}
		is_inside &= text[name.name_at + name.name_len] == 0 && strlen(text + name.name_at) == name.name_len;
		is_ordered &= at == 0 || strcmp(before, text + name.name_at) < 0;
		before = text + name.name_at;
	}
	CHECK(list->name, is_inside);
	CHECK(list->name, is_ordered);
}

/* With `rows` and `text` as room, and so many more bytes behind each: what is answered, and that nothing else changes. */
static void check_room(const struct list *list, struct ebpf_handle *of, struct ebpf_counts room, size_t more,
		       struct ebpf_counts need)
{
	struct guarded rows = guarded((room.rows + more) * list->row), text = guarded(room.text + more);
	struct ebpf_counts counts = { 77, 78 };
	int fits = room.rows + more >= need.rows && room.text + more >= need.text;
	uint32_t number = list->call(of, rows.at, room.rows + more, (char *)text.at, room.text + more, &counts);

	CHECK(list->name, number == (fits ? EBPF_DONE : EBPF_ROOM));
	CHECK(list->name, counts.rows == need.rows && counts.text == need.text);
	CHECK(list->name, is_untouched(&rows, fits ? need.rows * list->row : 0));
	CHECK(list->name, is_untouched(&text, fits ? need.text : 0));
	if (fits)
		check_names(list, rows.at, (char *)text.at, need);
	release(&rows);
	release(&text);
}

static void check_list(const struct list *list, struct ebpf_handle *of)
{
	struct ebpf_handle *closed = NULL;
	struct ebpf_counts need = { 0, 0 }, counts = { 77, 78 };
	struct guarded rows = guarded(list->row), text = guarded(1);
	uint32_t number = list->call(of, rows.at, 0, (char *)text.at, 0, &need);

	CHECK(list->name, number == (need.rows ? EBPF_ROOM : EBPF_DONE));
	CHECK(list->name, is_untouched(&rows, 0) && is_untouched(&text, 0));
	CHECK(list->name, list->call(closed, rows.at, 1, (char *)text.at, 1, &counts) == EBPF_CLOSED);
	CHECK(list->name, counts.rows == 77 && counts.text == 78 && is_untouched(&rows, 0) && is_untouched(&text, 0));
	check_room(list, of, need, 0, need);
	check_room(list, of, need, 3, need);
	if (need.rows) {
		check_room(list, of, (struct ebpf_counts){ need.rows - 1, need.text }, 0, need);
		check_room(list, of, (struct ebpf_counts){ need.rows, need.text - 1 }, 0, need);
	}
	release(&rows);
	release(&text);
}

/* ---- lists of one kind of values */

typedef uint32_t values_call(struct ebpf_handle *, const char *, size_t, void *, size_t, size_t *);

static uint32_t license(struct ebpf_handle *of, const char *name, size_t len, void *to, size_t room, size_t *need)
{
	(void)name;
	(void)len;
	return ebpf_license(of, to, room, need);
}

static uint32_t map_data(struct ebpf_handle *of, const char *name, size_t len, void *to, size_t room, size_t *need)
{
	return ebpf_map_data(of, name, len, to, room, need);
}

static uint32_t value(struct ebpf_handle *of, const char *name, size_t len, void *to, size_t room, size_t *need)
{
	return ebpf_value(of, name, len, to, room, need);
}

static uint32_t section(struct ebpf_handle *of, const char *name, size_t len, void *to, size_t room, size_t *need)
{
	return ebpf_program_section(of, name, len, to, room, need);
}

static uint32_t slots(struct ebpf_handle *of, const char *name, size_t len, void *to, size_t room, size_t *need)
{
	return ebpf_slots(of, name, len, to, room, need);
}

static uint32_t func_infos(struct ebpf_handle *of, const char *name, size_t len, void *to, size_t room, size_t *need)
{
	return ebpf_func_infos(of, name, len, to, room, need);
}

static uint32_t line_infos(struct ebpf_handle *of, const char *name, size_t len, void *to, size_t room, size_t *need)
{
	return ebpf_line_infos(of, name, len, to, room, need);
}

struct values {
	const char *name;
	values_call *call;
	size_t size;
	uint32_t unknown; /* what is answered where nothing has the name */
};

static const struct values of_object = { "ebpf_license", license, 1, EBPF_DONE };
static const struct values of_map = { "ebpf_map_data", map_data, 1, EBPF_NO_MAP };
static const struct values of_variable = { "ebpf_value", value, 1, EBPF_NO_VARIABLE };
static const struct values of_program[] = {
	{ "ebpf_program_section", section, 1, EBPF_NO_PROGRAM },
	{ "ebpf_slots", slots, sizeof(struct ebpf_insn), EBPF_NO_PROGRAM },
	{ "ebpf_func_infos", func_infos, sizeof(struct ebpf_func_info), EBPF_NO_PROGRAM },
	{ "ebpf_line_infos", line_infos, sizeof(struct ebpf_line_info), EBPF_NO_PROGRAM },
};

static void check_values_room(const struct values *of, struct ebpf_handle *object, const struct guarded *name, size_t room,
			      size_t need)
{
	struct guarded to = guarded(room * of->size);
	size_t found = 77;
	uint32_t number = of->call(object, (char *)name->at, name->size, to.at, room, &found);

	CHECK(of->name, number == (room < need ? EBPF_ROOM : EBPF_DONE));
	CHECK(of->name, found == need);
	CHECK(of->name, is_untouched(&to, room < need ? 0 : need * of->size));
	release(&to);
}

/* A number other than 0, with the buffer and the count as they were. */
static void check_refused(const struct values *of, struct ebpf_handle *object, const char *name, size_t len, uint32_t wanted)
{
	struct guarded to = guarded(16 * of->size), held = guarded_copy(name, len);
	size_t found = 77;

	CHECK(of->name, of->call(object, (char *)held.at, len, to.at, 16, &found) == wanted);
	CHECK(of->name, found == 77 && is_untouched(&to, 0));
	release(&to);
	release(&held);
}

static void check_values(const struct values *of, struct ebpf_handle *object, const char *name)
{
	struct ebpf_handle *closed = NULL;
	struct guarded held = guarded_copy(name, strlen(name)), to = guarded(0);
	size_t need = 77;
	uint32_t number = of->call(object, (char *)held.at, held.size, to.at, 0, &need);

	CHECK(of->name, number == (need ? EBPF_ROOM : EBPF_DONE));
	check_values_room(of, object, &held, need, need);
	check_values_room(of, object, &held, need + 5, need);
	if (need)
		check_values_room(of, object, &held, need - 1, need);
	check_refused(of, closed, name, strlen(name), EBPF_CLOSED);
	if (of->unknown != EBPF_DONE) {
		check_refused(of, object, "", 0, of->unknown);
		check_refused(of, object, "nosuch", 6, of->unknown);
		check_refused(of, object, name, strlen(name) - 1, of->unknown);
		check_refused(of, object, "\xff\xfe", 2, of->unknown);
	}
	release(&held);
	release(&to);
}

/* ---- handles */

static void check_lists(const struct guarded *file, const char *program, const char *map)
{
	struct ebpf_handle *object = opened(file);

	for (size_t which = 0; which < sizeof(lists) / sizeof(lists[0]); which++)
		check_list(&lists[which], object);
	check_values(&of_object, object, "");
	if (map)
		check_values(&of_map, object, map);
	for (size_t which = 0; which < sizeof(of_program) / sizeof(of_program[0]); which++)
		check_values(&of_program[which], object, program);
	ebpf_close(object);
	ebpf_close(NULL);
}

static uint32_t first_key(struct ebpf_handle *object)
{
	struct ebpf_insn slot[64];
	size_t found = 0;

	memset(slot, 0, sizeof(slot));
	return ebpf_slots(object, "p", 1, slot, 64, &found) == EBPF_DONE ? (uint32_t)slot[0].imm : 0;
}

static void check_handles(const struct guarded *file)
{
	struct ebpf_handle *object = opened(file), *copy = (void *)file, *closed = (void *)file;

	/* what is given out is only written */
	CHECK("ebpf_clone", ebpf_clone(NULL, &copy) == EBPF_CLOSED && copy == NULL);
	copy = (void *)file;
	CHECK("ebpf_clone", ebpf_clone(object, &copy) == EBPF_DONE && copy != NULL && copy != object);
	CHECK("ebpf_relocate_calls", ebpf_relocate_calls(copy) == EBPF_DONE && !ebpf_last_error(copy)->number);
	CHECK("ebpf_clone", first_key(copy) == 1 && first_key(object) == (uint32_t)-1);
	ebpf_close(copy);
	CHECK("ebpf_clone", ebpf_clone(object, &copy) == EBPF_DONE && first_key(copy) == (uint32_t)-1);
	ebpf_close(copy);
	CHECK("ebpf_relocate_calls", ebpf_relocate_calls(NULL) == EBPF_CLOSED);
	/* a file that is refused: the handle is there, has the error, and is closed for all else */
	for (size_t len = 0; len < 64; len += 63) {
		closed = (void *)file;
		CHECK("ebpf_open", ebpf_open(file->at, len, NULL, &closed) == EBPF_PARSE_TOO_SHORT && closed);
		CHECK("ebpf_open", ebpf_last_error(closed)->number == EBPF_PARSE_TOO_SHORT);
		CHECK("ebpf_info", ebpf_info(closed, NULL) == EBPF_CLOSED);
		CHECK("ebpf_clone", ebpf_clone(closed, &copy) == EBPF_CLOSED && !copy);
		ebpf_close(closed);
	}
	ebpf_close(object);
}

/* ---- what changes an object */

static void check_data(struct ebpf_handle *object)
{
	struct ebpf_handle *closed = NULL;
	struct guarded data = guarded_copy("\1\2\3\4", 4);
	uint8_t wanted[4] = { 0 };
	size_t len = 0;

	CHECK("ebpf_set_map_data", ebpf_set_map_data(object, ".rodata", 7, data.at, 4) == EBPF_DONE);
	CHECK("ebpf_set_map_data", ebpf_set_map_data(object, ".rodata", 7, data.at, 3) == EBPF_WRONG_LENGTH);
	CHECK("ebpf_set_map_data", ebpf_set_map_data(object, ".rodat", 6, data.at, 4) == EBPF_NO_MAP);
	CHECK("ebpf_set_map_data", ebpf_set_map_data(object, "\xff", 1, data.at, 4) == EBPF_NO_MAP);
	CHECK("ebpf_set_map_data", ebpf_set_map_data(closed, ".rodata", 7, data.at, 4) == EBPF_CLOSED && !closed);
	CHECK("ebpf_value", ebpf_value(object, "wanted", 6, wanted, 4, &len) == EBPF_DONE && len == 4);
	CHECK("ebpf_value", !memcmp(wanted, data.at, 4));
	release(&data);
}

static void check_changes(const struct guarded *file)
{
	struct ebpf_handle *object = opened(file), *closed = NULL;
	struct guarded none = guarded(0);
	struct exact_descriptor row = { 1, SIZE_MAX, 3 };
	struct ebpf_prepare_inputs inputs = ebpf_prepare_defaults();
	struct ebpf_refusal refusal = unwritten();
	uint8_t value[8] = { 1, 2, 3, 4, 5, 6, 7, 8 };
	void *text = none.at;

	check_values_of_one(object);
	check_data(object);
	check_values(&of_variable, object, "wanted");
	CHECK("ebpf_set_max_entries", ebpf_set_max_entries(object, "counts", 6, 5) == EBPF_DONE);
	CHECK("ebpf_set_max_entries", ebpf_set_max_entries(object, "count", 5, 5) == EBPF_NO_MAP);
	CHECK("ebpf_set_max_entries", ebpf_set_max_entries(closed, "counts", 6, 5) == EBPF_CLOSED);
	CHECK("ebpf_set_value_size", ebpf_set_value_size(object, "counts", 6, 5) == EBPF_DONE);
	CHECK("ebpf_set_value_size", ebpf_set_value_size(object, text, 0, 5) == EBPF_NO_MAP);
	CHECK("ebpf_set_value_size", ebpf_set_value_size(closed, "counts", 6, 5) == EBPF_CLOSED);
	CHECK("ebpf_sanitize", ebpf_sanitize(object, 0) == EBPF_DONE && ebpf_sanitize(closed, 0) == EBPF_CLOSED);
	CHECK("ebpf_relocate_maps",
	      exact_ebpf_relocate_maps(EXACT(object), &row, 1, "a", 1, text, 0, &refusal) == EBPF_BAD_NAME);
	CHECK("ebpf_relocate_maps", ebpf_relocate_maps(closed, NULL, 0) == EBPF_CLOSED);
	CHECK("ebpf_relocate_types", ebpf_relocate_types(object, none.at, 0) == EBPF_TYPES_READ_INVALID_HEADER);
	CHECK("ebpf_relocate_types", ebpf_relocate_types(closed, none.at, 0) == EBPF_CLOSED);
	CHECK("ebpf_resolve_externs", ebpf_resolve_externs(closed, none.at, 0, none.at, 0) == EBPF_CLOSED);
	CHECK("ebpf_relocate_externs", ebpf_relocate_externs(closed) == EBPF_CLOSED);
	CHECK("ebpf_prepare_handle", ebpf_prepare_handle(closed, &inputs) == EBPF_CLOSED);
	CHECK("ebpf_prepare_handle", exact_ebpf_prepare_handle(EXACT(object), none.at, 0, &row, 1, "a", 1, none.at, 0,
							       text, 0, &refusal) == EBPF_BAD_NAME);
	inputs.types = value;
	inputs.types_len = 8;
	CHECK("ebpf_prepare_handle", ebpf_prepare_handle(object, &inputs) == EBPF_TYPES_READ_INVALID_HEADER);
	ebpf_close(object);
	release(&none);
}

/* ---- names of numbers */

static void check_name(uint32_t number, size_t room, size_t need)
{
	struct guarded to = guarded(room);
	size_t len = 77;

	CHECK("ebpf_number_name",
	      ebpf_number_name(number, (char *)to.at, room, &len) == (room < need ? EBPF_ROOM : EBPF_DONE));
	CHECK("ebpf_number_name", len == need && is_untouched(&to, room < need ? 0 : need));
	release(&to);
}

static void check_number_names(void)
{
	static const uint32_t numbers[] = { 0,   1,   2,   8,   90,  91,   92,   100,  144,            699,
					    700, 744, 820, 908, 909, 1002, 1003, 1034, 1123, 1288, UINT32_MAX - 1, UINT32_MAX };

	for (size_t at = 0; at < sizeof(numbers) / sizeof(numbers[0]); at++) {
		struct guarded none = guarded(0);
		size_t need = 77;
		uint32_t number = ebpf_number_name(numbers[at], (char *)none.at, 0, &need);

		CHECK("ebpf_number_name", need <= 64 && number == (need ? EBPF_ROOM : EBPF_DONE));
		check_name(numbers[at], need, need);
		check_name(numbers[at], 64, need);
		if (need)
			check_name(numbers[at], need - 1, need);
		release(&none);
	}
	/* what has a name has a text, and nothing else has one */
	for (uint32_t number = 0; number < 1100; number++) {
		const char *says = ebpf_strerror(number);
		size_t len = 0;

		CHECK("ebpf_strerror", ebpf_number_name(number, NULL, 0, &len) == (len ? EBPF_ROOM : EBPF_DONE) && says);
		CHECK("ebpf_strerror", !strcmp(says, ebpf_strerror(UINT32_MAX)) == !len);
	}
}

/* ---- small facts */

static void check_license(const struct guarded *file, uint32_t wanted)
{
	struct ebpf_handle *object = opened(file), *closed = NULL;
	uint32_t states = 77;

	CHECK("ebpf_states_license", ebpf_states_license(closed, &states) == EBPF_CLOSED && states == 77);
	CHECK("ebpf_states_license", ebpf_states_license(object, &states) == EBPF_DONE && states == wanted);
	ebpf_close(object);
}

/* ---- the passes, over input that can't be written, and four threads with a handle each */

static const struct guarded *given; /* a file, a kernel's types, its symbols */

static void *prepare(void *to)
{
	struct ebpf_handle *object = opened(&given[0]);
	struct ebpf_prepare_inputs inputs = {
		sizeof(inputs), given[1].at, given[1].size, NULL, 0, given[2].at, given[2].size, NULL
	};
	struct ebpf_descriptor *rows;
	size_t found = 0;
	char *text;

	inputs.descriptors_len = number_maps(object, &rows, &text);
	inputs.descriptors = rows;
	ebpf_close(object);
	for (int times = 0; times < 20; times++)
		if (ebpf_prepare(given[0].at, given[0].size, &inputs, &object) != EBPF_DONE)
			return "ebpf_prepare refuses";
		else
			ebpf_close(object);
	object = opened(&given[0]);
	if (ebpf_prepare_handle(object, &inputs) != EBPF_DONE)
		return "ebpf_prepare_handle refuses";
	if (ebpf_slots(object, "on_enter", 8, to, 1024, &found) != EBPF_DONE || !found)
		return "no slots";
	ebpf_close(object);
	free(rows);
	free(text);
	return NULL;
}

static void check_threads(void)
{
	static struct ebpf_insn made[4][1024];
	pthread_t threads[4];

	for (int at = 0; at < 4; at++)
		if (pthread_create(&threads[at], NULL, prepare, made[at]))
			errx(3, "no thread");
	for (int at = 0; at < 4; at++) {
		void *fault = "still running";

		pthread_join(threads[at], &fault);
		CHECK("four threads", fault == NULL && !memcmp(made[0], made[at], sizeof(made[0])));
	}
}

int main(int words, char **word)
{
	struct guarded files[6];

	if (words != 7)
		errx(2, "usage: bounds SMALL COUNTER REFERENCES TYPES SYMBOLS LOADED");
	for (int at = 0; at < 6; at++) {
		struct bytes read = read_file(word[at + 1]);

		files[at] = guarded_copy(read.at, read.len);
		free(read.at);
	}
	check_lists(&files[0], "p", NULL);
	check_lists(&files[1], "on_packet", ".rodata");
	check_lists(&files[2], "on_enter", ".data");
	check_handles(&files[0]);
	check_nulls(&files[1]);
	check_changes(&files[1]);
	check_values_by_rows(&files[1]);
	check_found_calls(&files[0], &files[1], &files[3]);
	check_loader_calls(&files[5]);
	check_number_names();
	check_license(&files[0], 0);
	check_license(&files[1], 1);
	CHECK("ebpf_version_number", ebpf_version_number() == EBPF_VERSION_NUMBER && !ebpf_check_version());
	given = &files[2];
	check_threads();
	printf("%zu passed, %zu failed\n", passed, failed);
	return failed != 0;
}

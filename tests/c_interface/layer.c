/*
 * What the layer in C adds to the proved calls: options, errors, what a handle keeps, and each allocation failing.
 *
 * usage: layer SMALL COUNTER LOADED NO_KIND TYPES      object files, one with a section of code that has no kind, and a
 *                                                      kernel's types
 *
 * Prints a line for each fault, and at the end 'N passed, M failed'.
 */
#include "layer.h"

size_t passed, failed;

void count_check(int holds, const char *of, const char *what, int line)
{
	if (holds)
		passed++;
	else
		printf("FAILED %s: %s (line %d)\n", of, what, line);
	failed += !holds;
}

struct ebpf_handle *object_of(const struct bytes *file)
{
	struct ebpf_handle *object = NULL;

	if (ebpf_open(file->at, file->len, NULL, &object) != EBPF_DONE)
		errx(3, "a file of the repository can't be opened: %s", ebpf_explain(object));
	return object;
}

int is_last(const struct ebpf_handle *object, uint32_t number)
{
	const struct ebpf_error *error = ebpf_last_error(object);

	if (number == EBPF_DONE && (error->name_len || error->refusal.has || error->is_cut))
		return 0;
	return error->number == number && error->refusal.number == number && strlen(error->name) == error->name_len;
}

/* ---- options */

/* The number of opening a file with options, with which the handle has to agree. */
static uint32_t open_with(const struct bytes *file, const void *options)
{
	struct ebpf_handle *object = NULL;
	uint32_t number = ebpf_open(file->at, file->len, options, &object);

	CHECK("ebpf_open", object && is_last(object, number));
	CHECK("ebpf_open", ebpf_info(object, NULL) == (number == EBPF_DONE ? EBPF_DONE : EBPF_CLOSED));
	ebpf_close(object);
	return number;
}

static void check_sizes(const struct bytes *file)
{
	struct {
		struct ebpf_open_options known;
		uint8_t behind[24];
	} of;

	memset(&of, 0, sizeof(of));
	for (size_t size = 0; size <= sizeof(of); size++) {
		of.known.size = size;
		CHECK("options", open_with(file, &of) == (size < sizeof(size_t) ? EBPF_BAD_OPTIONS : EBPF_DONE));
	}
	for (size_t at = 0; at < sizeof(of.behind); at++) {
		of.behind[at] = 1;
		of.known.size = sizeof(of.known) + at;
		CHECK("options", open_with(file, &of) == EBPF_DONE);
		of.known.size++;
		CHECK("options", open_with(file, &of) == EBPF_BAD_OPTIONS);
		of.behind[at] = 0;
	}
	/* what is behind the size is not read */
	memset(&of, 0xff, sizeof(of));
	of.known.size = sizeof(size_t);
	CHECK("options", open_with(file, &of) == EBPF_DONE);
}

static void check_options(const struct layer_files *files)
{
	struct ebpf_open_options options = ebpf_open_defaults();
	struct ebpf_prepare_inputs inputs = ebpf_prepare_defaults();
	struct ebpf_handle *object = NULL;

	check_sizes(&files->counter);
	CHECK("options", open_with(&files->no_kind, NULL) == EBPF_DONE);
	CHECK("options", open_with(&files->no_kind, &options) == EBPF_DONE);
	options.parsing = EBPF_STRICT;
	CHECK("options", open_with(&files->no_kind, &options) == EBPF_PARSE_PROGRAM_SECTION);
	for (uint32_t parsing = 0; parsing < 4; parsing++) {
		options = ebpf_open_defaults();
		options.parsing = parsing;
		CHECK("options", open_with(&files->counter, &options) == (parsing < 2 ? EBPF_DONE : EBPF_BAD_OPTIONS));
		options.max_bytes = 10;
		CHECK("options", open_with(&files->counter, &options) == (parsing < 2 ? 157 : EBPF_BAD_OPTIONS));
		options.max_bytes = 1000000;
		CHECK("options", open_with(&files->counter, &options) == (parsing < 2 ? EBPF_DONE : EBPF_BAD_OPTIONS));
		CHECK("options", open_with(&files->no_kind, &options) ==
					 (parsing == 0 ? EBPF_DONE : parsing == 1 ? EBPF_PARSE_PROGRAM_SECTION : EBPF_BAD_OPTIONS));
	}
	options = ebpf_open_defaults();
	options.reserved = 1;
	CHECK("options", open_with(&files->counter, &options) == EBPF_BAD_OPTIONS);
	inputs.size = 7;
	CHECK("inputs", ebpf_prepare(files->counter.at, files->counter.len, &inputs, &object) == EBPF_BAD_OPTIONS);
	CHECK("inputs", is_last(object, EBPF_BAD_OPTIONS) && ebpf_info(object, NULL) == EBPF_CLOSED);
	ebpf_close(object);
	object = object_of(&files->counter);
	CHECK("inputs", ebpf_prepare_handle(object, &inputs) == EBPF_BAD_OPTIONS && is_last(object, EBPF_BAD_OPTIONS));
	CHECK("inputs", ebpf_prepare_handle(object, NULL) == EBPF_MAPS_MISSING_DESCRIPTOR);
	ebpf_close(object);
}

/* ---- errors */

/* A variable of a name of this length, which no object has: the handle has all of the name. */
static void check_long_name(struct ebpf_handle *object, size_t len)
{
	char *name = zeros(len, 1), *wanted;
	const struct ebpf_error *error;

	memset(name, 'n', len);
	CHECK("a long name", ebpf_set_value(object, name, len, NULL, 0, 1) == EBPF_PARSE_SYMBOL_NOT_FOUND);
	error = ebpf_last_error(object);
	CHECK("a long name", is_last(object, EBPF_PARSE_SYMBOL_NOT_FOUND) && !error->is_cut);
	CHECK("a long name", error->name_len == len && !strcmp(error->name, name) && error->refusal.name_len == len);
	wanted = zeros(len + 200, 1);
	sprintf(wanted, "%s: \"%s\"", ebpf_strerror(EBPF_PARSE_SYMBOL_NOT_FOUND), name);
	CHECK("a long name", !strcmp(ebpf_explain(object), wanted) && ebpf_explain(object) == ebpf_explain(object));
	/* the name of the error may be given to the next call */
	CHECK("a long name", ebpf_set_value(object, error->name, len, NULL, 0, 1) == EBPF_PARSE_SYMBOL_NOT_FOUND);
	CHECK("a long name", ebpf_last_error(object)->name_len == len && !strcmp(ebpf_last_error(object)->name, name));
	free(wanted);
	free(name);
}

static void check_errors(const struct layer_files *files)
{
	struct ebpf_handle *object = object_of(&files->counter), *copy = NULL;
	static const size_t lengths[] = { 1, 7, 126, 127, 128, 507, 508, 509, 2031, 2032, 2033, 100000 };
	uint8_t value[8] = { 0 };

	CHECK("errors", is_last(object, EBPF_DONE) && !strcmp(ebpf_explain(object), ebpf_strerror(EBPF_DONE)));
	for (size_t at = 0; at < sizeof(lengths) / sizeof(*lengths); at++) {
		check_long_name(object, lengths[at]);
		CHECK("errors", ebpf_info(object, NULL) == EBPF_DONE && is_last(object, EBPF_DONE));
	}
	CHECK("errors", ebpf_set_value(object, "seen", 4, value, 7, 1) == EBPF_PARSE_GLOBAL_DATA);
	CHECK("errors", strstr(ebpf_explain(object), " (size 8, other size 7)") && is_last(object, EBPF_PARSE_GLOBAL_DATA));
	CHECK("errors", ebpf_find_map(object, "none", 4, NULL) == EBPF_NO_MAP && is_last(object, EBPF_NO_MAP));
	CHECK("errors", !ebpf_last_error(object)->refusal.has && ebpf_explain(object) == ebpf_strerror(EBPF_NO_MAP));
	CHECK("errors", ebpf_programs(object, NULL, 0, NULL, 0, NULL) == EBPF_ROOM && is_last(object, EBPF_ROOM));
	CHECK("errors", ebpf_clone(object, &copy) == EBPF_DONE && is_last(object, EBPF_DONE) && is_last(copy, EBPF_DONE));
	CHECK("errors", ebpf_find_map(copy, "none", 4, NULL) == EBPF_NO_MAP && is_last(object, EBPF_DONE));
	ebpf_close(copy);
	ebpf_close(object);
	/* no handle */
	CHECK("errors", is_last(NULL, EBPF_MEMORY) && ebpf_explain(NULL) == ebpf_strerror(EBPF_MEMORY));
	CHECK("errors", ebpf_open(NULL, 0, NULL, &object) == EBPF_PARSE_TOO_SHORT && is_last(object, EBPF_PARSE_TOO_SHORT));
	CHECK("errors", ebpf_relocate_calls(object) == EBPF_CLOSED && is_last(object, EBPF_CLOSED));
	CHECK("errors", ebpf_relocate_maps(object, NULL, 0) == EBPF_CLOSED && is_last(object, EBPF_CLOSED));
	CHECK("errors", ebpf_set_values(object, NULL, 0) == EBPF_CLOSED && is_last(object, EBPF_CLOSED));
	ebpf_close(object);
}

/* Rows that a caller gives, with names and values that are null, and that are no UTF-8. */
static void check_given(const struct layer_files *files)
{
	struct ebpf_handle *object = object_of(&files->counter);
	const uint8_t first[4] = { 1 }, last[4] = { 42 };
	struct ebpf_value_row rows[] = {
		{ "wanted", 6, first, 4, 1 }, { "other", 5, NULL, 9, 0 }, { "wanted", 6, last, 4, 1 }, { "\xff", 1, last, 4, 0 }
	};
	struct ebpf_descriptor maps[] = { { "counts", 6, 1 }, { "\xff", 1, 2 }, { NULL, 7, 3 } };
	uint8_t value[4] = { 0 };
	size_t len = 0;

	CHECK("rows", ebpf_set_values(object, rows, 3) == EBPF_DONE);
	CHECK("rows", ebpf_value(object, "wanted", 6, value, 4, &len) == EBPF_DONE && len == 4 && value[0] == 42);
	CHECK("rows", ebpf_set_values(object, rows, 1) == EBPF_DONE);
	CHECK("rows", ebpf_value(object, "wanted", 6, value, 4, &len) == EBPF_DONE && value[0] == 1);
	CHECK("rows", ebpf_set_values(object, rows, 4) == EBPF_BAD_NAME && is_last(object, EBPF_BAD_NAME));
	CHECK("rows", ebpf_set_values(object, NULL, 4) == EBPF_DONE);
	rows[2].value_len = 3;
	CHECK("rows", ebpf_set_values(object, rows, 3) == EBPF_PARSE_GLOBAL_DATA);
	CHECK("rows", !strcmp(ebpf_last_error(object)->name, "wanted") && ebpf_last_error(object)->refusal.other_size == 3);
	CHECK("rows", ebpf_relocate_maps(object, maps, 2) == EBPF_BAD_NAME);
	maps[1] = maps[2];
	CHECK("rows", ebpf_relocate_maps(object, maps, 2) == EBPF_MAPS_UNKNOWN_MAP && is_last(object, EBPF_MAPS_UNKNOWN_MAP));
	CHECK("rows", !ebpf_last_error(object)->name_len);
	CHECK("rows", ebpf_relocate_maps(object, maps, 1) == EBPF_MAPS_MISSING_DESCRIPTOR);
	CHECK("rows", ebpf_last_error(object)->name_len && strcmp(ebpf_last_error(object)->name, "counts"));
	/* lengths that no memory has */
	rows[0].name_len = rows[2].name_len = SIZE_MAX / 2;
	CHECK("rows", ebpf_set_values(object, rows, 3) == EBPF_MEMORY && is_last(object, EBPF_MEMORY));
	maps[0].name_len = SIZE_MAX;
	CHECK("rows", ebpf_relocate_maps(object, maps, 1) == EBPF_MEMORY && is_last(object, EBPF_MEMORY));
	ebpf_close(object);
}

int main(int words, char **word)
{
	struct layer_files files;
	struct bytes *to[] = { &files.small, &files.counter, &files.loaded, &files.no_kind, &files.types };

	if (words != 6)
		errx(2, "usage: layer SMALL COUNTER LOADED NO_KIND TYPES");
	for (int at = 0; at < 5; at++)
		*to[at] = read_file(word[at + 1]);
	CHECK("ebpf_check_version", ebpf_check_version() == EBPF_DONE);
	check_options(&files);
	check_errors(&files);
	check_given(&files);
	check_kept(&files);
	check_types(&files);
	check_wanted(&files);
	check_leaving();
	check_memory(&files);
	for (int at = 0; at < 5; at++)
		free(to[at]->at);
	printf("%zu passed, %zu failed\n", passed, failed);
	return failed != 0;
}

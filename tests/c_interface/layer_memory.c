/*
 * Each allocation of a call failing in turn, those of the layer and those of the proved calls. The linker puts these
 * functions in the place of the C library's (--wrap).
 */
#include "layer.h"

void *__real_malloc(size_t size);
void *__real_calloc(size_t count, size_t size);
void *__real_realloc(void *at, size_t size);
void __real_free(void *at);
void *__wrap_malloc(size_t size);
void *__wrap_calloc(size_t count, size_t size);
void *__wrap_realloc(void *at, size_t size);
void __wrap_free(void *at);

/*
 * How many allocations are made before one fails, SIZE_MAX: none does; whether one has; how many were asked for, and how
 * many blocks are taken.
 */
static size_t left = SIZE_MAX, asked, taken;
static int has_failed;

static int fails(void)
{
	asked++;
	if (left == SIZE_MAX || left--)
		return 0;
	left = SIZE_MAX;
	return has_failed = 1;
}

void *__wrap_malloc(size_t size)
{
	void *at = fails() ? NULL : __real_malloc(size);

	taken += at != NULL;
	return at;
}

void *__wrap_calloc(size_t count, size_t size)
{
	void *at = fails() ? NULL : __real_calloc(count, size);

	taken += at != NULL;
	return at;
}

void *__wrap_realloc(void *at, size_t size)
{
	void *grown = fails() ? NULL : __real_realloc(at, size);

	taken += !at && grown;
	return grown;
}

void __wrap_free(void *at)
{
	taken -= at != NULL;
	__real_free(at);
}

/* ---- calls: the number of each */

static const struct layer_files *given;
static char long_name[1001];
static const char config[] = "CONFIG_COUNT=7\nCONFIG_NAME=\"abc\"\n";

typedef uint32_t made_call(struct ebpf_handle **);

/* The number of something that is kept. */
static uint32_t kept(const struct ebpf_handle *of, const void *at)
{
	return at ? EBPF_DONE : ebpf_last_error(of)->number;
}

static uint32_t open_file(struct ebpf_handle **of)
{
	return ebpf_open(given->counter.at, given->counter.len, NULL, of);
}

static uint32_t open_refused(struct ebpf_handle **of)
{
	return ebpf_open(given->counter.at, 100, NULL, of);
}

static uint32_t prepare_file(struct ebpf_handle **of)
{
	return ebpf_prepare(given->small.at, given->small.len, NULL, of);
}

static uint32_t count_programs(struct ebpf_handle **of)
{
	size_t count = ebpf_program_count(*of);

	return count ? EBPF_DONE : ebpf_last_error(*of)->number;
}

static uint32_t take_map(struct ebpf_handle **of)
{
	return kept(*of, ebpf_map_at(*of, 0, NULL));
}

static uint32_t take_variable(struct ebpf_handle **of)
{
	return kept(*of, ebpf_variable_at(*of, 0, NULL));
}

static uint32_t take_slots(struct ebpf_handle **of)
{
	return kept(*of, ebpf_program_slots(*of, 0, NULL));
}

static uint32_t take_license(struct ebpf_handle **of)
{
	return kept(*of, ebpf_license_text(*of));
}

static uint32_t take_types(struct ebpf_handle **of)
{
	return kept(*of, ebpf_kernel_types(*of, given->counter.at, given->counter.len, NULL));
}

static uint32_t take_outcomes(struct ebpf_handle **of)
{
	return ebpf_record_outcomes(*of, given->types.at, given->types.len, NULL);
}

/* Types that were read before. */
static struct ebpf_btf *types_read;

static uint32_t take_outcomes_with(struct ebpf_handle **of)
{
	return ebpf_record_outcomes_with(*of, types_read, NULL);
}

static uint32_t take_least(struct ebpf_handle **of)
{
	return kept(*of, ebpf_least_types(*of, types_read, NULL));
}

static uint32_t take_verdict(struct ebpf_handle **of)
{
	struct ebpf_verdict_summary summary;

	return ebpf_check(*of, types_read, &summary);
}

static uint32_t relocate_with(struct ebpf_handle **of)
{
	return ebpf_relocate_types_with(*of, types_read);
}

static uint32_t prepare_with(struct ebpf_handle **of)
{
	struct ebpf_prepare_inputs inputs = ebpf_prepare_defaults();

	inputs.btf = types_read;
	return ebpf_prepare(given->small.at, given->small.len, &inputs, of);
}

static uint32_t prepare_held_with(struct ebpf_handle **of)
{
	struct ebpf_descriptor rows[] = { { "counts", 6, 1 }, { ".bss", 4, 2 }, { ".rodata", 7, 3 }, { "tables", 6, 4 } };
	struct ebpf_prepare_inputs inputs = ebpf_prepare_defaults();

	inputs.btf = types_read;
	inputs.descriptors = rows;
	inputs.descriptors_len = 4;
	return ebpf_prepare_handle(*of, &inputs);
}

static uint32_t take_missing(struct ebpf_handle **of)
{
	struct ebpf_descriptor rows[] = { { "counts", 6, 1 } };

	return ebpf_maps_without_descriptors(*of, rows, 1, NULL);
}

static uint32_t take_copies(struct ebpf_handle **of)
{
	return ebpf_link_map(*of, "on_packet", 9, NULL);
}

static uint32_t set_values(struct ebpf_handle **of)
{
	const uint8_t value[4] = { 42 };
	struct ebpf_value_row rows[] = { { "wanted", 6, value, 4, 1 }, { "other", 5, value, 4, 0 } };

	return ebpf_set_values(*of, rows, 2);
}

/* The name of 1,000 bytes is cut where there is no memory for it. */
static uint32_t set_unknown(struct ebpf_handle **of)
{
	const struct ebpf_error *error = ebpf_last_error(*of);
	uint32_t number = ebpf_set_value(*of, long_name, 1000, NULL, 0, 1);

	if (number == EBPF_PARSE_SYMBOL_NOT_FOUND) {
		CHECK("a cut name", error->name_len == (error->is_cut ? 127 : 1000) || error->name_len == 508);
		CHECK("a cut name", error->is_cut == (error->name_len < 1000));
		CHECK("a cut name", strlen(error->name) == error->name_len && !memcmp(error->name, long_name, error->name_len));
		CHECK("a cut name", strstr(ebpf_explain(*of), ebpf_strerror(number)) != NULL);
	}
	return number;
}

static uint32_t relocate_maps(struct ebpf_handle **of)
{
	struct ebpf_descriptor rows[] = { { "counts", 6, 1 } };

	return ebpf_relocate_maps(*of, rows, 1);
}

static uint32_t clone(struct ebpf_handle **of)
{
	struct ebpf_handle *copy = NULL;
	uint32_t number = ebpf_clone(*of, &copy);

	CHECK("ebpf_clone", !copy == (number != EBPF_DONE) && is_last(*of, number));
	ebpf_close(copy);
	return number;
}

static uint32_t explain(struct ebpf_handle **of)
{
	uint32_t number = ebpf_set_value(*of, "none", 4, NULL, 0, 1);
	const char *says = ebpf_explain(*of);

	CHECK("ebpf_explain", says == ebpf_explain(*of) || has_failed);
	CHECK("ebpf_explain", !strncmp(says, ebpf_strerror(number), strlen(ebpf_strerror(number))));
	return number;
}

static uint32_t configured(struct ebpf_handle **of)
{
	return kept(*of, ebpf_kconfig_value(*of, "CONFIG_NAME", 11, config, strlen(config), NULL));
}

static uint32_t numbered(struct ebpf_handle **of)
{
	return kept(*of, ebpf_kconfig_number(*of, "CONFIG_COUNT", 12, 7, NULL));
}

static uint32_t initial(struct ebpf_handle **of)
{
	return ebpf_initial_slots(*of, given->loaded.at, given->loaded.len, NULL);
}

static uint32_t define(struct ebpf_handle **of)
{
	const uint8_t value[4] = { 42 };
	struct ebpf_value_row rows[] = { { "CONFIG_COUNT", 12, value, 4, 1 } };

	return ebpf_define_kconfig(*of, rows, 1);
}

static uint32_t leave_out(struct ebpf_handle **of)
{
	static const char *const names[] = { "on_packet" };

	return ebpf_leave_out(*of, names, 1);
}

/* Calls, by the object that they are made on: 0: none, 1: counter.o, 2: that for loaders; and their number. */
static const struct {
	const char *name;
	made_call *call;
	int on;
	uint32_t number;
} calls[] = {
	{ "ebpf_open", open_file, 0, EBPF_DONE },
	{ "ebpf_open, refused", open_refused, 0, EBPF_PARSE_BAD_SECTION_TABLE },
	{ "ebpf_prepare", prepare_file, 0, EBPF_DONE },
	{ "ebpf_prepare, with types", prepare_with, 0, EBPF_DONE },
	{ "ebpf_clone", clone, 1, EBPF_DONE },
	{ "ebpf_program_count", count_programs, 1, EBPF_DONE },
	{ "ebpf_map_at", take_map, 1, EBPF_DONE },
	{ "ebpf_variable_at", take_variable, 1, EBPF_DONE },
	{ "ebpf_program_slots", take_slots, 1, EBPF_DONE },
	{ "ebpf_license_text", take_license, 1, EBPF_DONE },
	{ "ebpf_kernel_types", take_types, 1, EBPF_DONE },
	{ "ebpf_record_outcomes", take_outcomes, 1, EBPF_DONE },
	{ "ebpf_link_map", take_copies, 1, EBPF_DONE },
	{ "ebpf_maps_without_descriptors", take_missing, 1, EBPF_DONE },
	{ "ebpf_record_outcomes_with", take_outcomes_with, 1, EBPF_DONE },
	{ "ebpf_least_types", take_least, 1, EBPF_DONE },
	{ "ebpf_check", take_verdict, 1, EBPF_DONE },
	{ "ebpf_relocate_types_with", relocate_with, 1, EBPF_DONE },
	{ "ebpf_prepare_handle, with types", prepare_held_with, 1, EBPF_DONE },
	{ "ebpf_set_values", set_values, 1, EBPF_DONE },
	{ "ebpf_leave_out", leave_out, 1, EBPF_DONE },
	{ "ebpf_set_value", set_unknown, 1, EBPF_PARSE_SYMBOL_NOT_FOUND },
	{ "ebpf_explain", explain, 1, EBPF_PARSE_SYMBOL_NOT_FOUND },
	{ "ebpf_relocate_maps", relocate_maps, 1, EBPF_MAPS_MISSING_DESCRIPTOR },
	{ "ebpf_kconfig_value", configured, 2, EBPF_DONE },
	{ "ebpf_kconfig_number", numbered, 2, EBPF_DONE },
	{ "ebpf_initial_slots", initial, 2, EBPF_DONE },
	{ "ebpf_define_kconfig", define, 2, EBPF_DONE },
};

/* A call with the allocation of a number failing; how many it asks for, and whether it came to that one. */
static int with_failure(size_t which, size_t number, size_t *count)
{
	const char *name = calls[which].name;
	size_t before = taken;
	struct ebpf_handle *of = calls[which].on ? object_of(calls[which].on == 1 ? &given->counter : &given->loaded) : NULL;
	uint32_t returned;
	int reached;

	has_failed = 0;
	asked = 0;
	left = number;
	returned = calls[which].call(&of);
	left = SIZE_MAX;
	*count = asked;
	reached = has_failed;
	has_failed = 0;
	CHECK(name, returned == calls[which].number || (reached && returned == EBPF_MEMORY));
	CHECK(name, !of ? reached && returned == EBPF_MEMORY : is_last(of, returned));
	/* with memory the same call does it */
	if (!calls[which].on) {
		ebpf_close(of);
		of = NULL;
	}
	if (reached && returned == EBPF_MEMORY)
		CHECK(name, calls[which].call(&of) == calls[which].number);
	ebpf_close(of);
	CHECK(name, taken == before);
	return reached;
}

/*
 * Whether an allocation of so many is tried: of many some, since growth_rows.py tries each of the proved calls. The
 * layer's own are the first and the last ones, and those in the middle, between two askings for a list.
 */
static int is_tried(size_t number, size_t count)
{
	size_t middle = count / 2 < number ? number - count / 2 : count / 2 - number;

	return count < 200 || number < 20 || number + 20 > count || middle < 20 || number % (count / 50) == 0;
}

/* Reading types, with each allocation failing in turn. */
static void check_reading(void)
{
	size_t number = 0, before = taken;

	do {
		struct ebpf_btf *made = (void *)&number;
		uint32_t returned;

		has_failed = 0;
		left = number++;
		returned = ebpf_btf_open(given->types.at, given->types.len, &made);
		left = SIZE_MAX;
		CHECK("ebpf_btf_open", returned == (has_failed ? EBPF_MEMORY : EBPF_DONE) && (made == NULL) == has_failed);
		ebpf_btf_close(made);
		CHECK("ebpf_btf_open", taken == before);
	} while (has_failed);
	CHECK("ebpf_btf_open", number > 3);
}

void check_memory(const struct layer_files *files)
{
	given = files;
	memset(long_name, 'n', 1000);
	check_reading();
	if (ebpf_btf_open(files->types.at, files->types.len, &types_read) != EBPF_DONE)
		errx(3, "the types of the repository can't be read");
	for (size_t which = 0; which < sizeof(calls) / sizeof(*calls); which++) {
		size_t count = 0, other;

		with_failure(which, SIZE_MAX, &count);
		CHECK(calls[which].name, count > 0);
		for (size_t number = 0; number < count; number++)
			if (is_tried(number, count))
				CHECK(calls[which].name, with_failure(which, number, &other));
	}
	ebpf_btf_close(types_read);
}

/* What a handle keeps for its caller, compared with what the calls with buffers write. */
#include "layer.h"

/* ---- lists */

struct kept_list {
	const char *name;
	size_t row;
	int has_second; /* a second name, whose place is behind the first */
	size_t (*count)(const struct ebpf_handle *);
	const char *(*at)(const struct ebpf_handle *, size_t, void *);
	uint32_t (*write)(struct exact_handle *, void *, size_t, void *, size_t, struct ebpf_counts *);
};

/* A list by its calls. */
#define KEPT(one, many, type)                                                                                         \
	static const char *one##_at(const struct ebpf_handle *of, size_t at, void *row)                               \
	{                                                                                                             \
		return ebpf_##one##_at(of, at, row);                                                                  \
	}                                                                                                             \
	static uint32_t one##_rows(struct exact_handle *of, void *rows, size_t room, void *text, size_t text_room,    \
				   struct ebpf_counts *counts)                                                        \
	{                                                                                                             \
		return exact_ebpf_##many(of, rows, room, text, text_room, counts);                                    \
	}

KEPT(program, programs, struct ebpf_program)
KEPT(map, maps, struct ebpf_map)
KEPT(extern, externs, struct ebpf_extern)
KEPT(section, sections, struct ebpf_section)
KEPT(variable, variables, struct ebpf_variable)

static const char *kconfig_at(const struct ebpf_handle *of, size_t at, void *row)
{
	return ebpf_kconfig_at(of, at, row);
}

static uint32_t kconfig_rows(struct exact_handle *of, void *rows, size_t room, void *text, size_t text_room,
			     struct ebpf_counts *counts)
{
	struct ebpf_refusal refusal;
	char about;

	return exact_ebpf_kconfig(of, rows, room, text, text_room, counts, &about, 0, &refusal);
}

static const struct kept_list lists[] = {
	{ "programs", sizeof(struct ebpf_program), 0, ebpf_program_count, program_at, program_rows },
	{ "maps", sizeof(struct ebpf_map), 0, ebpf_map_count, map_at, map_rows },
	{ "externs", sizeof(struct ebpf_extern), 0, ebpf_extern_count, extern_at, extern_rows },
	{ "sections", sizeof(struct ebpf_section), 0, ebpf_section_count, section_at, section_rows },
	{ "kconfig externs", sizeof(struct ebpf_kconfig_extern), 0, ebpf_kconfig_count, kconfig_at, kconfig_rows },
	{ "variables", sizeof(struct ebpf_variable), 1, ebpf_variable_count, variable_at, variable_rows },
};

#define LISTS (sizeof(lists) / sizeof(*lists))

/* A row that is kept is the one that is written, and its names are those of the text. */
static void check_row(const struct kept_list *list, const struct ebpf_handle *of, size_t at, uint8_t *wanted, const char *text)
{
	uint8_t *row = zeros(list->row, 1);
	const char *name = list->at(of, at, row);
	size_t places[4];

	memcpy(places, wanted, list->has_second ? sizeof(places) : 2 * sizeof(size_t));
	CHECK(list->name, name && !strcmp(name, text + places[0]) && strlen(name) == places[1] && is_last(of, EBPF_DONE));
	CHECK(list->name, name == list->at(of, at, NULL));
	if (list->has_second) {
		size_t other;

		memcpy(&other, row + 2 * sizeof(size_t), sizeof(other));
		CHECK(list->name, name && !strcmp(name + other, text + places[2]));
		memcpy(wanted + 2 * sizeof(size_t), &other, sizeof(other));
	}
	memset(wanted, 0, sizeof(size_t));
	CHECK(list->name, !memcmp(row, wanted, list->row));
	free(row);
}

static void check_list(const struct kept_list *list, struct ebpf_handle *of, struct ebpf_handle *closed)
{
	struct ebpf_counts counts = { 0, 0 };
	struct exact_handle *exact = EXACT(of);
	uint8_t *rows = zeros(0, list->row), *row = zeros(list->row, 1);
	char *text = zeros(0, 1);

	if (list->write(exact, rows, 0, text, 0, &counts) == EBPF_ROOM) {
		free(rows);
		free(text);
		rows = zeros(counts.rows, list->row);
		text = zeros(counts.text, 1);
		CHECK(list->name, list->write(exact, rows, counts.rows, text, counts.text, &counts) == EBPF_DONE);
	}
	CHECK(list->name, list->count(of) == counts.rows && is_last(of, EBPF_DONE));
	for (size_t at = 0; at < counts.rows; at++)
		check_row(list, of, at, rows + at * list->row, text);
	memset(row, 0x55, list->row);
	CHECK(list->name, !list->at(of, counts.rows, row) && is_last(of, EBPF_NO_ROW));
	CHECK(list->name, !list->at(of, SIZE_MAX, row) && is_last(of, EBPF_NO_ROW));
	CHECK(list->name, list->count(of) == counts.rows && is_last(of, EBPF_DONE));
	CHECK(list->name, !list->at(closed, 0, row) && is_last(closed, EBPF_CLOSED));
	CHECK(list->name, list->count(closed) == 0 && is_last(closed, EBPF_CLOSED));
	CHECK(list->name, !list->at(NULL, 0, row) && list->count(NULL) == 0 && is_filled(row, row + list->row));
	free(rows);
	free(row);
	free(text);
}

/* ---- what belongs to a row */

/* What is kept is what a call writes. */
#define SAME(name, kept, count, call, type)                                                                          \
	do {                                                                                                         \
		type *written = zeros(count, sizeof(type));                                                          \
		size_t found = 77;                                                                                   \
                                                                                                                     \
		CHECK(name, (kept) && call == EBPF_DONE && found == (count));                                        \
		CHECK(name, (kept) && !memcmp(kept, written, (count) * sizeof(type)));                               \
		free(written);                                                                                       \
	} while (0)

static void check_program(struct ebpf_handle *of, size_t at)
{
	const char *name = ebpf_program_at(of, at, NULL), *section = ebpf_program_section_name(of, at);
	size_t slots = 77, functions = 77, lines = 77, len = strlen(name);
	const struct ebpf_insn *code = ebpf_program_slots(of, at, &slots);
	const struct ebpf_func_info *begins = ebpf_program_func_infos(of, at, &functions);
	const struct ebpf_line_info *places = ebpf_program_line_infos(of, at, &lines);

	CHECK("slots", code == ebpf_program_slots(of, at, NULL) && is_last(of, EBPF_DONE));
	SAME("slots", code, slots, ebpf_slots(of, name, len, written, slots, &found), struct ebpf_insn);
	SAME("func info", begins, functions, ebpf_func_infos(of, name, len, written, functions, &found),
	     struct ebpf_func_info);
	SAME("line info", places, lines, ebpf_line_infos(of, name, len, written, lines, &found), struct ebpf_line_info);
	SAME("section", section, strlen(section), ebpf_program_section(of, name, len, written, strlen(section), &found),
	     char);
}

static void check_parts(struct ebpf_handle *of, const struct ebpf_handle *closed)
{
	size_t len = 77, programs = ebpf_program_count(of), maps = ebpf_map_count(of);
	const char *license = ebpf_license_text(of);

	for (size_t at = 0; at < programs; at++)
		check_program(of, at);
	for (size_t at = 0; at < maps; at++) {
		const char *name = ebpf_map_at(of, at, NULL);
		const uint8_t *data = ebpf_map_contents(of, at, &len);

		SAME("data", data, len, ebpf_map_data(of, name, strlen(name), written, len, &found), uint8_t);
	}
	SAME("license", license, strlen(license), ebpf_license(of, written, strlen(license), &found), char);
	CHECK("license", license == ebpf_license_text(of) && is_last(of, EBPF_DONE));
	len = 77;
	CHECK("slots", !ebpf_program_slots(of, programs, &len) && is_last(of, EBPF_NO_ROW) && len == 77);
	CHECK("func info", !ebpf_program_func_infos(of, programs, &len) && is_last(of, EBPF_NO_ROW) && len == 77);
	CHECK("line info", !ebpf_program_line_infos(of, programs, &len) && is_last(of, EBPF_NO_ROW) && len == 77);
	CHECK("section", !ebpf_program_section_name(of, programs) && is_last(of, EBPF_NO_ROW));
	CHECK("data", !ebpf_map_contents(of, maps, &len) && is_last(of, EBPF_NO_ROW) && len == 77);
	CHECK("license", !ebpf_license_text(closed) && is_last(closed, EBPF_CLOSED) && !ebpf_license_text(NULL));
	CHECK("slots", !ebpf_program_slots(closed, 0, &len) && is_last(closed, EBPF_CLOSED));
	CHECK("slots", !ebpf_program_slots(NULL, 0, &len) && !ebpf_map_contents(NULL, 0, NULL) && len == 77);
}

/* ---- lists that are taken over something that is given */

static void check_copies(const struct layer_files *files, const struct ebpf_handle *closed)
{
	struct ebpf_handle *of = object_of(&files->small);
	struct ebpf_code_copy copy;
	const char *name, *other;
	size_t count = 77;

	CHECK("copies", !ebpf_code_copy_at(of, 0, &copy) && is_last(of, EBPF_NO_ROW));
	CHECK("copies", ebpf_link_map(of, "q", 1, &count) == EBPF_NO_PROGRAM && count == 77);
	CHECK("copies", is_last(of, EBPF_NO_PROGRAM) && !ebpf_code_copy_at(of, 0, NULL));
	CHECK("copies", ebpf_link_map(of, "p", 1, &count) == EBPF_DONE && count == 2 && is_last(of, EBPF_DONE));
	name = ebpf_code_copy_at(of, 0, &copy);
	CHECK("copies", name && !strcmp(name, "p") && copy.base == 0 && copy.name_at == 0 && copy.name_len == 1);
	CHECK("copies", ebpf_code_copy_at(of, 1, &copy) && copy.base == 2 && !ebpf_code_copy_at(of, 2, &copy));
	/* it may be taken again, and what was returned stays */
	CHECK("copies", ebpf_link_map(of, "p", 1, NULL) == EBPF_DONE);
	other = ebpf_code_copy_at(of, 0, NULL);
	CHECK("copies", other && other != name && !strcmp(other, name));
	CHECK("copies", ebpf_link_map(closed, "p", 1, NULL) == EBPF_CLOSED && !ebpf_code_copy_at(closed, 0, NULL));
	CHECK("copies", is_last(closed, EBPF_CLOSED) && ebpf_link_map(NULL, "p", 1, NULL) == EBPF_CLOSED);
	CHECK("copies", ebpf_sanitize(of, 1) == EBPF_DONE && !ebpf_code_copy_at(of, 0, NULL) && is_last(of, EBPF_NO_ROW));
	ebpf_close(of);
}

static void check_outcomes(const struct layer_files *files)
{
	struct ebpf_handle *of = object_of(&files->counter);
	struct ebpf_record_outcome outcome;
	size_t count = 77;

	CHECK("outcomes", ebpf_record_outcomes(of, files->types.at, files->types.len, &count) == EBPF_DONE && count);
	CHECK("outcomes", ebpf_record_outcome_at(of, count - 1, &outcome) && outcome.has_slot);
	CHECK("outcomes", !ebpf_record_outcome_at(of, count, NULL) && is_last(of, EBPF_NO_ROW));
	CHECK("outcomes", ebpf_record_outcomes(of, NULL, 0, &count) == EBPF_TYPES_READ_INVALID_HEADER);
	ebpf_close(of);
}

static void check_initial(const struct layer_files *files)
{
	struct ebpf_handle *of = object_of(&files->loaded);
	struct ebpf_initial_slot slot;
	const char *name;
	size_t count = 77;

	CHECK("initial values", ebpf_initial_slots(of, files->loaded.at, files->loaded.len, &count) == EBPF_DONE && count);
	for (size_t at = 0; at < count; at++) {
		name = ebpf_initial_slot_at(of, at, &slot);
		CHECK("initial values", name && strlen(name) == slot.name_len && slot.name_at == 0);
		CHECK("initial values", name && strlen(name + slot.target_at) == slot.target_len);
		CHECK("initial values", name && ebpf_find_map(of, name, slot.name_len, NULL) == EBPF_DONE);
		CHECK("initial values", name && (slot.is_program ||
						 !ebpf_find_map(of, name + slot.target_at, slot.target_len, NULL)));
	}
	CHECK("initial values", !ebpf_initial_slot_at(of, count, &slot) && is_last(of, EBPF_NO_ROW));
	CHECK("initial values", ebpf_initial_slots(of, NULL, 0, &count) == 800 && is_last(of, 800));
	ebpf_close(of);
}

static void check_values(const struct layer_files *files, const struct ebpf_handle *closed)
{
	struct ebpf_handle *of = object_of(&files->loaded);
	static const char config[] = "CONFIG_COUNT=7\nCONFIG_NAME=\"abc\"\n";
	const uint8_t *types, *value, *number;
	size_t len = 77, other = 77;

	types = ebpf_kernel_types(of, files->loaded.at, files->loaded.len, &len);
	CHECK("types", types && len > 24 && types[0] == 0x9f && types[1] == 0xeb && is_last(of, EBPF_DONE));
	CHECK("types", !ebpf_kernel_types(of, files->loaded.at, 63, &other) && is_last(of, 700) && other == 77);
	CHECK("types", !ebpf_kernel_types(closed, files->loaded.at, 63, &other) && is_last(closed, EBPF_CLOSED));
	CHECK("types", !ebpf_kernel_types(NULL, files->loaded.at, 63, &other) && other == 77);
	value = ebpf_kconfig_value(of, "CONFIG_COUNT", 12, config, strlen(config), &len);
	CHECK("configured", value && len == 4 && value[0] == 7 && is_last(of, EBPF_DONE));
	number = ebpf_kconfig_number(of, "CONFIG_COUNT", 12, 8, &other);
	CHECK("numbered", number && other == 4 && number[0] == 8 && value[0] == 7 && is_last(of, EBPF_DONE));
	len = 77;
	CHECK("configured", !ebpf_kconfig_value(of, "CONFIG_COUNT", 12, NULL, 9, &len) && is_last(of, EBPF_DONE));
	CHECK("configured", !ebpf_kconfig_value(of, "CONFIG_OTHER", 12, config, 9, &len) && is_last(of, EBPF_NO_EXTERN));
	CHECK("configured", !ebpf_kconfig_value(of, "CONFIG_COUNT", 12, "CONFIG_COUNT=x\n", 15, &len) && is_last(of, 907));
	CHECK("configured", !strcmp(ebpf_last_error(of)->name, "CONFIG_COUNT") && len == 77);
	CHECK("numbered", !ebpf_kconfig_number(of, "CONFIG_COUNT", 12, UINT64_MAX, &len) && is_last(of, 908) && len == 77);
	CHECK("configured", !ebpf_kconfig_value(closed, "CONFIG_COUNT", 12, config, 9, NULL) && is_last(closed, 3));
	CHECK("numbered", !ebpf_kconfig_number(NULL, "CONFIG_COUNT", 12, 1, NULL));
	ebpf_close(of);
}

/* ---- what a change drops */

static void check_dropped(const struct layer_files *files)
{
	struct ebpf_handle *of = object_of(&files->counter), *copy = NULL;
	struct ebpf_map map;
	size_t maps = ebpf_map_count(of), at = 0, len = 0;
	const uint8_t data[4] = { 1, 2, 3, 4 };

	while (ebpf_map_at(of, at, &map) && map.data_len != 4)
		at++;
	CHECK("a change", at < maps && ebpf_map_contents(of, at, &len) && len == 4);
	/* a name of the list may be given to the call that drops it */
	CHECK("a change", ebpf_set_map_data(of, ebpf_map_at(of, at, NULL), map.name_len, data, 4) == EBPF_DONE);
	CHECK("a change", !memcmp(ebpf_map_contents(of, at, NULL), data, 4));
	CHECK("a change", ebpf_set_max_entries(of, ebpf_map_at(of, at, NULL), map.name_len, 77) == EBPF_DONE);
	CHECK("a change", ebpf_map_at(of, at, &map) && map.shape.max_entries == 77);
	CHECK("a change", ebpf_clone(of, &copy) == EBPF_DONE && ebpf_map_at(copy, at, &map) && map.shape.max_entries == 77);
	CHECK("a change", ebpf_set_max_entries(copy, ebpf_map_at(copy, at, NULL), map.name_len, 78) == EBPF_DONE);
	CHECK("a change", ebpf_map_at(of, at, &map) && map.shape.max_entries == 77);
	/* one that is refused, too: the list is taken anew */
	CHECK("a change", ebpf_set_max_entries(of, "none", 4, 5) == EBPF_NO_MAP && ebpf_map_count(of) == maps);
	ebpf_close(copy);
	ebpf_close(of);
}

void check_kept(const struct layer_files *files)
{
	const struct bytes *all[] = { &files->small, &files->counter, &files->loaded, &files->no_kind };
	struct ebpf_handle *closed = NULL;

	CHECK("ebpf_open", ebpf_open(NULL, 0, NULL, &closed) == EBPF_PARSE_TOO_SHORT);
	for (size_t file = 0; file < 4; file++) {
		struct ebpf_handle *of = object_of(all[file]);

		for (size_t at = 0; at < LISTS; at++)
			check_list(&lists[at], of, closed);
		check_parts(of, closed);
		ebpf_close(of);
	}
	check_copies(files, closed);
	check_outcomes(files);
	check_initial(files);
	check_values(files, closed);
	check_dropped(files);
	ebpf_close(closed);
}

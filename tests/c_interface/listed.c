#include "listed.h"
#include "shared.h"

static void need(const char *what, uint32_t number)
{
	if (number != EBPF_DONE)
		errx(3, "%s: %u", what, number);
}

/* A list of one kind: rows and their names, with as much room as is needed and no more. */
#define LISTED(call, list, names, counts)                                                          \
	do {                                                                                       \
		free(list);                                                                        \
		free(names);                                                                       \
		(list) = zeros((counts).rows, sizeof(*(list)));                                    \
		(names) = zeros((counts).text, 1);                                                 \
	} while (call(object, list, (counts).rows, names, (counts).text, &(counts)) == EBPF_ROOM); \
	need(#call, call(object, list, (counts).rows, names, (counts).text, &(counts)))

/* A row of a list is the one that is found by its name, which then points into that name. */
static void need_found_program(struct ebpf_handle *object, struct ebpf_program row, const char *text)
{
	struct ebpf_program found;

	memset(&found, 0x55, sizeof(found));
	need("ebpf_find_program", ebpf_find_program(object, text + row.name_at, row.name_len, &found));
	row.name_at = 0;
	if (memcmp(&row, &found, sizeof(row)))
		errx(3, "ebpf_find_program finds another row than ebpf_programs lists");
}

static void need_found_map(struct ebpf_handle *object, struct ebpf_map row, const char *text)
{
	struct ebpf_map found;

	memset(&found, 0x55, sizeof(found));
	need("ebpf_find_map", ebpf_find_map(object, text + row.name_at, row.name_len, &found));
	row.name_at = 0;
	if (memcmp(&row, &found, sizeof(row)))
		errx(3, "ebpf_find_map finds another row than ebpf_maps lists");
}

void put_programs(struct ebpf_handle *object)
{
	struct ebpf_program *rows = NULL;
	struct ebpf_counts counts = { 0, 0 };
	char *text = NULL;

	LISTED(ebpf_programs, rows, text, counts);
	for (size_t at = 0; at < counts.rows; at++) {
		const struct ebpf_program *row = &rows[at];

		need_found_program(object, *row, text);
		printf("program %s kind %u flags %u type %u attach %d section %zu address %llu\n", text + row->name_at,
		       row->kind, row->flags, row->program_type, (int)row->attach_type, row->section,
		       (unsigned long long)row->address);
	}
	free(rows);
	free(text);
}

static void put_shape(const struct ebpf_map_shape *shape)
{
	printf("type %u key %u:%u value %u:%u entries %u flags %u extra %llu pinning %u", shape->type, shape->key_size,
	       shape->key_type_id, shape->value_size, shape->value_type_id, shape->max_entries, shape->flags,
	       (unsigned long long)shape->extra, shape->pinning);
}

static void put_data(struct ebpf_handle *object, const char *name, size_t len)
{
	uint8_t *data = zeros(len, 1);
	size_t found = 0;

	need("ebpf_map_data", ebpf_map_data(object, name, strlen(name), data, len, &found));
	if (found != len)
		errx(3, "%zu bytes of data in place of %zu", found, len);
	printf(" data ");
	print_hex(data, len);
	free(data);
}

void put_maps(struct ebpf_handle *object)
{
	struct ebpf_map *rows = NULL;
	struct ebpf_counts counts = { 0, 0 };
	char *text = NULL;

	LISTED(ebpf_maps, rows, text, counts);
	for (size_t at = 0; at < counts.rows; at++) {
		const struct ebpf_map *row = &rows[at];

		need_found_map(object, *row, text);
		printf("map %s section %zu kind %u ", text + row->name_at, row->section, row->section_kind);
		put_shape(&row->shape);
		put_data(object, text + row->name_at, row->data_len);
		printf("\n");
		if (!row->has_inner)
			continue;
		printf("inner ");
		put_shape(&row->inner);
		printf("\n");
	}
	free(rows);
	free(text);
}

void put_externs(struct ebpf_handle *object)
{
	struct ebpf_extern *rows = NULL;
	struct ebpf_counts counts = { 0, 0 };
	char *text = NULL;

	LISTED(ebpf_externs, rows, text, counts);
	for (size_t at = 0; at < counts.rows; at++) {
		const struct ebpf_extern *row = &rows[at];

		printf("extern %s type %u typed %u weak %u resolved %u id %u address %u %llu\n", text + row->name_at,
		       row->type_id, row->is_typed, row->is_weak, row->is_resolved, row->kernel_type_id,
		       row->has_address, (unsigned long long)row->address);
	}
	free(rows);
	free(text);
}

void put_sections(struct ebpf_handle *object)
{
	struct ebpf_section *rows = NULL;
	struct ebpf_counts counts = { 0, 0 };
	char *text = NULL;

	LISTED(ebpf_sections, rows, text, counts);
	for (size_t at = 0; at < counts.rows; at++)
		printf("section %zu %s\n", rows[at].number, text + rows[at].name_at);
	free(rows);
	free(text);
}

void put_info(struct ebpf_handle *object)
{
	struct ebpf_object_info info;
	size_t len = 0;
	char *text = zeros(0, 1);

	memset(&info, 0, sizeof(info));
	need("ebpf_info", ebpf_info(object, &info));
	if (ebpf_license(object, text, 0, &len) == EBPF_ROOM) {
		free(text);
		text = zeros(len, 1);
	}
	need("ebpf_license", ebpf_license(object, text, len, &len));
	printf("info big %u version %u %u types %u relocations %u typed %u license ", info.is_big_endian,
	       info.has_kernel_version, info.kernel_version, info.has_types, info.has_relocations,
	       info.has_typed_externs);
	print_hex(text, len);
	printf("\n");
	free(text);
}

/* Calls `put` for each program with its name. */
static void each_program(struct ebpf_handle *object, void (*put)(struct ebpf_handle *, const char *, size_t))
{
	struct ebpf_program *rows = NULL;
	struct ebpf_counts counts = { 0, 0 };
	char *text = NULL;

	LISTED(ebpf_programs, rows, text, counts);
	for (size_t at = 0; at < counts.rows; at++)
		put(object, text + rows[at].name_at, rows[at].slots);
	free(rows);
	free(text);
}

static void put_section_of(struct ebpf_handle *object, const char *name, size_t count)
{
	char section[256] = { 0 };
	size_t found = 0;

	(void)count;
	need("ebpf_program_section",
	     ebpf_program_section(object, name, strlen(name), section, sizeof(section), &found));
	printf("program %s in '%.*s'\n", name, (int)found, section);
}

static void put_slots_of(struct ebpf_handle *object, const char *name, size_t count)
{
	struct ebpf_insn *slots = zeros(count, sizeof(*slots));
	size_t found = 0;

	need("ebpf_slots", ebpf_slots(object, name, strlen(name), slots, count, &found));
	if (found != count)
		errx(3, "%zu slots in place of %zu", found, count);
	printf("program %s slots %zu\n", name, count);
	for (size_t at = 0; at < count; at++) {
		print_hex(&slots[at], sizeof(slots[at]));
		printf("\n");
	}
	free(slots);
}

static void put_records_of(struct ebpf_handle *object, const char *name, size_t slots)
{
	size_t of_functions = 0, of_lines = 0;
	struct ebpf_func_info *functions = zeros(0, sizeof(*functions));
	struct ebpf_line_info *lines = zeros(0, sizeof(*lines));

	(void)slots;
	if (ebpf_func_infos(object, name, strlen(name), functions, 0, &of_functions) == EBPF_ROOM) {
		free(functions);
		functions = zeros(of_functions, sizeof(*functions));
	}
	need("ebpf_func_infos", ebpf_func_infos(object, name, strlen(name), functions, of_functions, &of_functions));
	if (ebpf_line_infos(object, name, strlen(name), lines, 0, &of_lines) == EBPF_ROOM) {
		free(lines);
		lines = zeros(of_lines, sizeof(*lines));
	}
	need("ebpf_line_infos", ebpf_line_infos(object, name, strlen(name), lines, of_lines, &of_lines));
	printf("records %s:", name);
	for (size_t at = 0; at < of_functions; at++)
		printf(" %u", functions[at].insn_off);
	printf(" of %zu,", of_functions);
	for (size_t at = 0; at < of_lines; at++)
		printf(" %u/%u", lines[at].insn_off, lines[at].line_col);
	printf(" of %zu\n", of_lines);
	free(functions);
	free(lines);
}

void put_program_sections(struct ebpf_handle *object)
{
	each_program(object, put_section_of);
}

void put_slots(struct ebpf_handle *object)
{
	each_program(object, put_slots_of);
}

void put_records(struct ebpf_handle *object)
{
	each_program(object, put_records_of);
}

size_t number_maps(struct ebpf_handle *object, struct ebpf_descriptor **rows, char **text)
{
	struct ebpf_map *maps = NULL;
	struct ebpf_counts sizes = { 0, 0 };
	char *names = NULL;

	LISTED(ebpf_maps, maps, names, sizes);
	*rows = zeros(sizes.rows, sizeof(**rows));
	for (size_t at = 0; at < sizes.rows; at++)
		(*rows)[at] = (struct ebpf_descriptor){ names + maps[at].name_at, maps[at].name_len, (int32_t)at + 1 };
	*text = names;
	free(maps);
	return sizes.rows;
}

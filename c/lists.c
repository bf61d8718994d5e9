/* The calls that return what the handle keeps. */
#include "layer.h"
#include <string.h>

/* ---- lists that are taken by the first call that asks for one */

static const struct ebpf_kept *list_of(const struct ebpf_handle *handle, enum ebpf_kept_kind kind)
{
	const struct ebpf_kept *list = handle ? ebpf_layer_find(handle, kind, 0) : NULL;
	struct ebpf_asked asked = { .kind = kind };

	if (list)
		ebpf_layer_end(handle, EBPF_DONE, NULL);
	return list || !handle ? list : ebpf_layer_take(handle, &asked);
}

static size_t count_of(const struct ebpf_handle *handle, enum ebpf_kept_kind kind)
{
	const struct ebpf_kept *list = list_of(handle, kind);

	return list ? list->count : 0;
}

/* A row of a list begins with the place of its name, and where it has two names with that of the second behind it. */
struct places {
	size_t name_at, name_len, other_at;
};

static int has_two_names(enum ebpf_kept_kind kind)
{
	return kind == EBPF_KEPT_VARIABLES || kind == EBPF_KEPT_INITIAL_SLOTS || kind == EBPF_KEPT_REASONS;
}

/* The name of a row, and the row, which then points into that. */
static const char *row_of(const struct ebpf_handle *handle, const struct ebpf_kept *list, size_t index, void *row)
{
	size_t size = list ? ebpf_layer_row(list->kind) : 0;
	const uint8_t *from = list ? list->rows + index * size : NULL;
	struct places places = { 0, 0, 0 };

	if (!list)
		return NULL;
	if (index >= list->count) {
		ebpf_layer_end(handle, EBPF_NO_ROW, NULL);
		return NULL;
	}
	memcpy(&places, from, sizeof(places));
	if (row) {
		memcpy(row, from, size);
		memset(row, 0, sizeof(size_t));
		if (has_two_names(list->kind)) {
			places.other_at -= places.name_at;
			memcpy((size_t *)row + 2, &places.other_at, sizeof(size_t));
		}
	}
	return list->text + places.name_at;
}

static const char *row_at(const struct ebpf_handle *handle, enum ebpf_kept_kind kind, size_t index, void *row)
{
	return row_of(handle, list_of(handle, kind), index, row);
}

size_t ebpf_program_count(const struct ebpf_handle *handle)
{
	return count_of(handle, EBPF_KEPT_PROGRAMS);
}

const char *ebpf_program_at(const struct ebpf_handle *handle, size_t index, struct ebpf_program *row)
{
	return row_at(handle, EBPF_KEPT_PROGRAMS, index, row);
}

size_t ebpf_map_count(const struct ebpf_handle *handle)
{
	return count_of(handle, EBPF_KEPT_MAPS);
}

const char *ebpf_map_at(const struct ebpf_handle *handle, size_t index, struct ebpf_map *row)
{
	return row_at(handle, EBPF_KEPT_MAPS, index, row);
}

size_t ebpf_extern_count(const struct ebpf_handle *handle)
{
	return count_of(handle, EBPF_KEPT_EXTERNS);
}

const char *ebpf_extern_at(const struct ebpf_handle *handle, size_t index, struct ebpf_extern *row)
{
	return row_at(handle, EBPF_KEPT_EXTERNS, index, row);
}

size_t ebpf_section_count(const struct ebpf_handle *handle)
{
	return count_of(handle, EBPF_KEPT_SECTIONS);
}

const char *ebpf_section_at(const struct ebpf_handle *handle, size_t index, struct ebpf_section *row)
{
	return row_at(handle, EBPF_KEPT_SECTIONS, index, row);
}

size_t ebpf_kconfig_count(const struct ebpf_handle *handle)
{
	return count_of(handle, EBPF_KEPT_KCONFIG);
}

const char *ebpf_kconfig_at(const struct ebpf_handle *handle, size_t index, struct ebpf_kconfig_extern *row)
{
	return row_at(handle, EBPF_KEPT_KCONFIG, index, row);
}

size_t ebpf_variable_count(const struct ebpf_handle *handle)
{
	return count_of(handle, EBPF_KEPT_VARIABLES);
}

const char *ebpf_variable_at(const struct ebpf_handle *handle, size_t index, struct ebpf_variable *row)
{
	return row_at(handle, EBPF_KEPT_VARIABLES, index, row);
}

/* ---- lists that are taken by a call of their own, over something that it is given */

uint32_t ebpf_layer_taken(const struct ebpf_handle *handle, struct ebpf_asked *asked, size_t *count)
{
	const struct ebpf_kept *list = ebpf_layer_take(handle, asked);

	if (list && count)
		*count = list->count;
	return list ? EBPF_DONE : handle ? handle->error.number : EBPF_CLOSED;
}

static uint32_t taken(const struct ebpf_handle *handle, enum ebpf_kept_kind kind, const void *bytes, size_t len,
		      size_t *count)
{
	struct ebpf_asked asked = { .kind = kind, .name = bytes, .name_len = len };

	return ebpf_layer_taken(handle, &asked, count);
}

/* What was taken of a kind, for a map where it belongs to one; or NULL. */
static const struct ebpf_kept *kept_of(const struct ebpf_handle *handle, enum ebpf_kept_kind kind, size_t of)
{
	const struct ebpf_kept *kept = handle ? ebpf_layer_find(handle, kind, of) : NULL;

	if (handle)
		ebpf_layer_end(handle, kept ? EBPF_DONE : handle->exact.at ? EBPF_NO_ROW : EBPF_CLOSED, NULL);
	return kept;
}

static const char *taken_at(const struct ebpf_handle *handle, enum ebpf_kept_kind kind, size_t index, void *row)
{
	return row_of(handle, kept_of(handle, kind, 0), index, row);
}

uint32_t ebpf_initial_slots(const struct ebpf_handle *handle, const uint8_t *file, size_t file_len, size_t *count)
{
	return taken(handle, EBPF_KEPT_INITIAL_SLOTS, file, file_len, count);
}

const char *ebpf_initial_slot_at(const struct ebpf_handle *handle, size_t index, struct ebpf_initial_slot *row)
{
	return taken_at(handle, EBPF_KEPT_INITIAL_SLOTS, index, row);
}

uint32_t ebpf_record_outcomes(const struct ebpf_handle *handle, const uint8_t *types, size_t types_len, size_t *count)
{
	return taken(handle, EBPF_KEPT_OUTCOMES, types, types_len, count);
}

uint32_t ebpf_record_outcomes_with(const struct ebpf_handle *handle, const struct ebpf_btf *btf, size_t *count)
{
	struct exact_btf no_types = { NULL };
	struct ebpf_asked asked = { .kind = EBPF_KEPT_OUTCOMES, .btf = EBPF_TYPES(btf) };

	return ebpf_layer_taken(handle, &asked, count);
}

const char *ebpf_record_outcome_at(const struct ebpf_handle *handle, size_t index, struct ebpf_record_outcome *row)
{
	return taken_at(handle, EBPF_KEPT_OUTCOMES, index, row);
}

uint32_t ebpf_check(const struct ebpf_handle *handle, const struct ebpf_btf *btf, struct ebpf_verdict_summary *summary)
{
	struct ebpf_verdict_summary written = { 0 };
	struct exact_btf no_types = { NULL };
	struct ebpf_asked asked = { .kind = EBPF_KEPT_REASONS, .btf = EBPF_TYPES(btf), .summary = &written };
	uint32_t number = ebpf_layer_taken(handle, &asked, NULL);

	if (number == EBPF_DONE && summary)
		*summary = written;
	return number;
}

const char *ebpf_reason_at(const struct ebpf_handle *handle, size_t index, struct ebpf_reason *row)
{
	return taken_at(handle, EBPF_KEPT_REASONS, index, row);
}

uint32_t ebpf_link_map(const struct ebpf_handle *handle, const char *name, size_t name_len, size_t *count)
{
	return taken(handle, EBPF_KEPT_COPIES, name, name_len, count);
}

const char *ebpf_code_copy_at(const struct ebpf_handle *handle, size_t index, struct ebpf_code_copy *row)
{
	return taken_at(handle, EBPF_KEPT_COPIES, index, row);
}

const char *ebpf_map_without_descriptor_at(const struct ebpf_handle *handle, size_t index, struct ebpf_map_slot *row)
{
	return taken_at(handle, EBPF_KEPT_WITHOUT_DESCRIPTORS, index, row);
}

/* ---- maps of struct_ops: their list, and of each its programs and its value */

uint32_t ebpf_struct_ops_maps(const struct ebpf_handle *handle, const uint8_t *file, size_t file_len,
			      const struct ebpf_btf *btf, size_t *count)
{
	struct exact_btf no_types = { NULL };
	struct ebpf_asked asked = { .kind = EBPF_KEPT_STRUCT_OPS_MAPS,
				    .name = file,
				    .name_len = file_len,
				    .btf = EBPF_TYPES(btf) };
	size_t maps = 0;
	uint32_t number = ebpf_layer_taken(handle, &asked, &maps);

	for (; number == EBPF_DONE && asked.index < maps; asked.index++) {
		asked.kind = EBPF_KEPT_STRUCT_OPS_PROGRAMS;
		number = ebpf_layer_taken(handle, &asked, NULL);
		asked.kind = EBPF_KEPT_STRUCT_OPS_VALUE;
		if (number == EBPF_DONE)
			number = ebpf_layer_taken(handle, &asked, NULL);
	}
	if (number == EBPF_DONE && count)
		*count = maps;
	return number;
}

const char *ebpf_struct_ops_map_at(const struct ebpf_handle *handle, size_t index, struct ebpf_struct_ops_map *row)
{
	return taken_at(handle, EBPF_KEPT_STRUCT_OPS_MAPS, index, row);
}

const char *ebpf_struct_ops_program_at(const struct ebpf_handle *handle, size_t map, size_t index,
				       struct ebpf_struct_ops_program *row)
{
	return row_of(handle, kept_of(handle, EBPF_KEPT_STRUCT_OPS_PROGRAMS, map), index, row);
}

/* ---- what belongs to a row, and single values */

/* What is kept, as its bytes; and how many values it has. NULL where it is refused. */
static const void *values_in(const struct ebpf_kept *kept, size_t *count)
{
	if (kept && count)
		*count = kept->count;
	return kept ? kept->rows : NULL;
}

/* What belongs to a program or a map, which is taken by the name that its list has at the index. */
static const void *part_of(const struct ebpf_handle *handle, enum ebpf_kept_kind list, size_t index,
			   enum ebpf_kept_kind kind, size_t *count)
{
	struct ebpf_asked asked = { .kind = kind, .index = index };
	const struct ebpf_kept *kept;

	asked.name = row_at(handle, list, index, NULL);
	if (!asked.name)
		return NULL;
	kept = ebpf_layer_find(handle, kind, index);
	asked.name_len = strlen(asked.name);
	return values_in(kept ? kept : ebpf_layer_take(handle, &asked), count);
}

const struct ebpf_insn *ebpf_program_slots(const struct ebpf_handle *handle, size_t index, size_t *count)
{
	return part_of(handle, EBPF_KEPT_PROGRAMS, index, EBPF_KEPT_SLOTS, count);
}

const struct ebpf_func_info *ebpf_program_func_infos(const struct ebpf_handle *handle, size_t index, size_t *count)
{
	return part_of(handle, EBPF_KEPT_PROGRAMS, index, EBPF_KEPT_FUNC_INFOS, count);
}

const struct ebpf_line_info *ebpf_program_line_infos(const struct ebpf_handle *handle, size_t index, size_t *count)
{
	return part_of(handle, EBPF_KEPT_PROGRAMS, index, EBPF_KEPT_LINE_INFOS, count);
}

const char *ebpf_program_section_name(const struct ebpf_handle *handle, size_t index)
{
	return part_of(handle, EBPF_KEPT_PROGRAMS, index, EBPF_KEPT_SECTION_NAME, NULL);
}

const uint8_t *ebpf_map_contents(const struct ebpf_handle *handle, size_t index, size_t *len)
{
	return part_of(handle, EBPF_KEPT_MAPS, index, EBPF_KEPT_CONTENTS, len);
}

const char *ebpf_license_text(const struct ebpf_handle *handle)
{
	return values_in(list_of(handle, EBPF_KEPT_LICENSE), NULL);
}

const uint8_t *ebpf_kernel_types(const struct ebpf_handle *handle, const uint8_t *file, size_t file_len, size_t *len)
{
	struct ebpf_asked asked = { .kind = EBPF_KEPT_TYPES, .name = file, .name_len = file_len };

	return values_in(ebpf_layer_take(handle, &asked), len);
}

const uint8_t *ebpf_least_types(const struct ebpf_handle *handle, const struct ebpf_btf *btf, size_t *len)
{
	struct exact_btf no_types = { NULL };
	struct ebpf_asked asked = { .kind = EBPF_KEPT_LEAST_TYPES, .btf = EBPF_TYPES(btf) };

	return values_in(ebpf_layer_take(handle, &asked), len);
}

const uint8_t *ebpf_struct_ops_value(const struct ebpf_handle *handle, size_t map, size_t *len)
{
	return values_in(kept_of(handle, EBPF_KEPT_STRUCT_OPS_VALUE, map), len);
}

const uint8_t *ebpf_kconfig_value(const struct ebpf_handle *handle, const char *name, size_t name_len,
				  const char *config, size_t config_len, size_t *len)
{
	struct ebpf_asked asked = { .kind = EBPF_KEPT_CONFIGURED,
				    .name = name,
				    .name_len = name_len,
				    .config = config,
				    .config_len = config_len };

	return values_in(ebpf_layer_take(handle, &asked), len);
}

const uint8_t *ebpf_kconfig_number(const struct ebpf_handle *handle, const char *name, size_t name_len,
				   uint64_t number, size_t *len)
{
	struct ebpf_asked asked = {
		.kind = EBPF_KEPT_NUMBERED, .name = name, .name_len = name_len, .number = number
	};

	return values_in(ebpf_layer_take(handle, &asked), len);
}

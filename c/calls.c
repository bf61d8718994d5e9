/* Made by tools/c_layer.py of include/ebpf.h. Each call gives the proved one no null pointer, and keeps its error. */
#include "layer.h"

uint32_t ebpf_version_number(void)
{
	return exact_ebpf_version_number();
}

uint32_t ebpf_info(const struct ebpf_handle *handle, struct ebpf_object_info *info)
{
	struct exact_handle closed = { NULL };
	struct ebpf_object_info no_info = { 0 };
	uint32_t number;

	number = exact_ebpf_info(EBPF_EXACT(handle), info ? info : &no_info);
	return ebpf_layer_end(handle, number, NULL);
}

uint32_t ebpf_license(const struct ebpf_handle *handle, char *text, size_t room, size_t *len)
{
	struct exact_handle closed = { NULL };
	size_t no_len = 0;
	uint32_t number;

	number = exact_ebpf_license(EBPF_EXACT(handle), EBPF_ARRAY(text, room), len ? len : &no_len);
	return ebpf_layer_end(handle, number, NULL);
}

uint32_t ebpf_states_license(const struct ebpf_handle *handle, uint32_t *states)
{
	struct exact_handle closed = { NULL };
	uint32_t no_states = 0;
	uint32_t number;

	number = exact_ebpf_states_license(EBPF_EXACT(handle), states ? states : &no_states);
	return ebpf_layer_end(handle, number, NULL);
}

uint32_t ebpf_programs(const struct ebpf_handle *handle, struct ebpf_program *rows, size_t rows_room, char *text,
		size_t text_room, struct ebpf_counts *counts)
{
	struct exact_handle closed = { NULL };
	struct ebpf_counts no_counts = { 0 };
	uint32_t number;

	number = exact_ebpf_programs(EBPF_EXACT(handle), EBPF_ARRAY(rows, rows_room), EBPF_ARRAY(text, text_room),
		counts ? counts : &no_counts);
	return ebpf_layer_end(handle, number, NULL);
}

uint32_t ebpf_find_program(const struct ebpf_handle *handle, const char *name, size_t name_len,
		struct ebpf_program *row)
{
	struct exact_handle closed = { NULL };
	struct ebpf_program no_row = { 0 };
	uint32_t number;

	number = exact_ebpf_find_program(EBPF_EXACT(handle), EBPF_ARRAY(name, name_len), row ? row : &no_row);
	return ebpf_layer_end(handle, number, NULL);
}

uint32_t ebpf_maps(const struct ebpf_handle *handle, struct ebpf_map *rows, size_t rows_room, char *text,
		size_t text_room, struct ebpf_counts *counts)
{
	struct exact_handle closed = { NULL };
	struct ebpf_counts no_counts = { 0 };
	uint32_t number;

	number = exact_ebpf_maps(EBPF_EXACT(handle), EBPF_ARRAY(rows, rows_room), EBPF_ARRAY(text, text_room),
		counts ? counts : &no_counts);
	return ebpf_layer_end(handle, number, NULL);
}

uint32_t ebpf_find_map(const struct ebpf_handle *handle, const char *name, size_t name_len, struct ebpf_map *row)
{
	struct exact_handle closed = { NULL };
	struct ebpf_map no_row = { 0 };
	uint32_t number;

	number = exact_ebpf_find_map(EBPF_EXACT(handle), EBPF_ARRAY(name, name_len), row ? row : &no_row);
	return ebpf_layer_end(handle, number, NULL);
}

uint32_t ebpf_map_data(const struct ebpf_handle *handle, const char *name, size_t name_len, uint8_t *data,
		size_t room, size_t *len)
{
	struct exact_handle closed = { NULL };
	size_t no_len = 0;
	uint32_t number;

	number = exact_ebpf_map_data(EBPF_EXACT(handle), EBPF_ARRAY(name, name_len), EBPF_ARRAY(data, room),
		len ? len : &no_len);
	return ebpf_layer_end(handle, number, NULL);
}

uint32_t ebpf_externs(const struct ebpf_handle *handle, struct ebpf_extern *rows, size_t rows_room, char *text,
		size_t text_room, struct ebpf_counts *counts)
{
	struct exact_handle closed = { NULL };
	struct ebpf_counts no_counts = { 0 };
	uint32_t number;

	number = exact_ebpf_externs(EBPF_EXACT(handle), EBPF_ARRAY(rows, rows_room), EBPF_ARRAY(text, text_room),
		counts ? counts : &no_counts);
	return ebpf_layer_end(handle, number, NULL);
}

uint32_t ebpf_program_section(const struct ebpf_handle *handle, const char *name, size_t name_len, char *text,
		size_t room, size_t *len)
{
	struct exact_handle closed = { NULL };
	size_t no_len = 0;
	uint32_t number;

	number = exact_ebpf_program_section(EBPF_EXACT(handle), EBPF_ARRAY(name, name_len), EBPF_ARRAY(text, room),
		len ? len : &no_len);
	return ebpf_layer_end(handle, number, NULL);
}

uint32_t ebpf_sections(const struct ebpf_handle *handle, struct ebpf_section *rows, size_t rows_room, char *text,
		size_t text_room, struct ebpf_counts *counts)
{
	struct exact_handle closed = { NULL };
	struct ebpf_counts no_counts = { 0 };
	uint32_t number;

	number = exact_ebpf_sections(EBPF_EXACT(handle), EBPF_ARRAY(rows, rows_room), EBPF_ARRAY(text, text_room),
		counts ? counts : &no_counts);
	return ebpf_layer_end(handle, number, NULL);
}

uint32_t ebpf_attach_target(const char *section_name, size_t section_name_len, const uint8_t *types, size_t types_len,
		uint32_t *answer, uint32_t *type_id)
{
	uint32_t no_answer = 0;
	uint32_t no_type_id = 0;

	return exact_ebpf_attach_target(EBPF_ARRAY(section_name, section_name_len), EBPF_ARRAY(types, types_len),
		answer ? answer : &no_answer, type_id ? type_id : &no_type_id);
}

uint32_t ebpf_attach_target_with(const char *section_name, size_t section_name_len, const struct ebpf_btf *btf,
		uint32_t *answer, uint32_t *type_id)
{
	struct exact_btf no_types = { NULL };
	uint32_t no_answer = 0;
	uint32_t no_type_id = 0;

	return exact_ebpf_attach_target_with(EBPF_ARRAY(section_name, section_name_len), EBPF_TYPES(btf),
		answer ? answer : &no_answer, type_id ? type_id : &no_type_id);
}

uint32_t ebpf_slots(const struct ebpf_handle *handle, const char *name, size_t name_len, struct ebpf_insn *slots,
		size_t room, size_t *count)
{
	struct exact_handle closed = { NULL };
	size_t no_count = 0;
	uint32_t number;

	number = exact_ebpf_slots(EBPF_EXACT(handle), EBPF_ARRAY(name, name_len), EBPF_ARRAY(slots, room),
		count ? count : &no_count);
	return ebpf_layer_end(handle, number, NULL);
}

uint32_t ebpf_func_infos(const struct ebpf_handle *handle, const char *name, size_t name_len,
		struct ebpf_func_info *rows, size_t room, size_t *count)
{
	struct exact_handle closed = { NULL };
	size_t no_count = 0;
	uint32_t number;

	number = exact_ebpf_func_infos(EBPF_EXACT(handle), EBPF_ARRAY(name, name_len), EBPF_ARRAY(rows, room),
		count ? count : &no_count);
	return ebpf_layer_end(handle, number, NULL);
}

uint32_t ebpf_line_infos(const struct ebpf_handle *handle, const char *name, size_t name_len,
		struct ebpf_line_info *rows, size_t room, size_t *count)
{
	struct exact_handle closed = { NULL };
	size_t no_count = 0;
	uint32_t number;

	number = exact_ebpf_line_infos(EBPF_EXACT(handle), EBPF_ARRAY(name, name_len), EBPF_ARRAY(rows, room),
		count ? count : &no_count);
	return ebpf_layer_end(handle, number, NULL);
}

uint32_t ebpf_set_value(struct ebpf_handle *handle, const char *name, size_t name_len, const uint8_t *value,
		size_t value_len, uint32_t must_exist)
{
	struct exact_handle closed = { NULL };
	struct ebpf_told told;
	uint32_t number;

	ebpf_layer_begin(&told);
	do
		number = exact_ebpf_set_value(EBPF_EXACT(handle), EBPF_ARRAY(name, name_len),
			EBPF_ARRAY(value, value_len), must_exist, EBPF_TOLD(told));
	while (ebpf_layer_is_cut(number, &told));
	return ebpf_layer_change(handle, number, &told);
}

uint32_t ebpf_kconfig(const struct ebpf_handle *handle, struct ebpf_kconfig_extern *rows, size_t rows_room,
		char *text, size_t text_room, struct ebpf_counts *counts)
{
	struct exact_handle closed = { NULL };
	struct ebpf_counts no_counts = { 0 };
	struct ebpf_told told;
	uint32_t number;

	ebpf_layer_begin(&told);
	do
		number = exact_ebpf_kconfig(EBPF_EXACT(handle), EBPF_ARRAY(rows, rows_room),
			EBPF_ARRAY(text, text_room), counts ? counts : &no_counts, EBPF_TOLD(told));
	while (ebpf_layer_is_cut(number, &told));
	return ebpf_layer_end(handle, number, &told);
}

uint32_t ebpf_complete_maps(struct ebpf_handle *handle, const uint8_t *file, size_t file_len, uint32_t page_size)
{
	struct exact_handle closed = { NULL };
	struct ebpf_told told;
	uint32_t number;

	ebpf_layer_begin(&told);
	do
		number = exact_ebpf_complete_maps(EBPF_EXACT(handle), EBPF_ARRAY(file, file_len), page_size,
			EBPF_TOLD(told));
	while (ebpf_layer_is_cut(number, &told));
	return ebpf_layer_change(handle, number, &told);
}

uint32_t ebpf_variables(const struct ebpf_handle *handle, struct ebpf_variable *rows, size_t rows_room, char *text,
		size_t text_room, struct ebpf_counts *counts)
{
	struct exact_handle closed = { NULL };
	struct ebpf_counts no_counts = { 0 };
	uint32_t number;

	number = exact_ebpf_variables(EBPF_EXACT(handle), EBPF_ARRAY(rows, rows_room), EBPF_ARRAY(text, text_room),
		counts ? counts : &no_counts);
	return ebpf_layer_end(handle, number, NULL);
}

uint32_t ebpf_value(const struct ebpf_handle *handle, const char *name, size_t name_len, uint8_t *value, size_t room,
		size_t *len)
{
	struct exact_handle closed = { NULL };
	size_t no_len = 0;
	uint32_t number;

	number = exact_ebpf_value(EBPF_EXACT(handle), EBPF_ARRAY(name, name_len), EBPF_ARRAY(value, room),
		len ? len : &no_len);
	return ebpf_layer_end(handle, number, NULL);
}

uint32_t ebpf_set_map_data(struct ebpf_handle *handle, const char *name, size_t name_len, const uint8_t *data,
		size_t data_len)
{
	struct exact_handle closed = { NULL };
	uint32_t number;

	number = exact_ebpf_set_map_data(EBPF_EXACT(handle), EBPF_ARRAY(name, name_len), EBPF_ARRAY(data, data_len));
	return ebpf_layer_change(handle, number, NULL);
}

uint32_t ebpf_set_max_entries(struct ebpf_handle *handle, const char *name, size_t name_len, uint32_t entries)
{
	struct exact_handle closed = { NULL };
	uint32_t number;

	number = exact_ebpf_set_max_entries(EBPF_EXACT(handle), EBPF_ARRAY(name, name_len), entries);
	return ebpf_layer_change(handle, number, NULL);
}

uint32_t ebpf_set_value_size(struct ebpf_handle *handle, const char *name, size_t name_len, uint32_t size)
{
	struct exact_handle closed = { NULL };
	uint32_t number;

	number = exact_ebpf_set_value_size(EBPF_EXACT(handle), EBPF_ARRAY(name, name_len), size);
	return ebpf_layer_change(handle, number, NULL);
}

uint32_t ebpf_sanitize(struct ebpf_handle *handle, uint32_t has_newer)
{
	struct exact_handle closed = { NULL };
	uint32_t number;

	number = exact_ebpf_sanitize(EBPF_EXACT(handle), has_newer);
	return ebpf_layer_change(handle, number, NULL);
}

uint32_t ebpf_relocate_types(struct ebpf_handle *handle, const uint8_t *types, size_t types_len)
{
	struct exact_handle closed = { NULL };
	struct ebpf_told told;
	uint32_t number;

	ebpf_layer_begin(&told);
	do
		number = exact_ebpf_relocate_types(EBPF_EXACT(handle), EBPF_ARRAY(types, types_len), EBPF_TOLD(told));
	while (ebpf_layer_is_cut(number, &told));
	return ebpf_layer_change(handle, number, &told);
}

uint32_t ebpf_relocate_types_with(struct ebpf_handle *handle, const struct ebpf_btf *btf)
{
	struct exact_handle closed = { NULL };
	struct exact_btf no_types = { NULL };
	struct ebpf_told told;
	uint32_t number;

	ebpf_layer_begin(&told);
	do
		number = exact_ebpf_relocate_types_with(EBPF_EXACT(handle), EBPF_TYPES(btf), EBPF_TOLD(told));
	while (ebpf_layer_is_cut(number, &told));
	return ebpf_layer_change(handle, number, &told);
}

uint32_t ebpf_resolve_externs(struct ebpf_handle *handle, const uint8_t *types, size_t types_len,
		const uint8_t *symbols, size_t symbols_len)
{
	struct exact_handle closed = { NULL };
	struct ebpf_told told;
	uint32_t number;

	ebpf_layer_begin(&told);
	do
		number = exact_ebpf_resolve_externs(EBPF_EXACT(handle), EBPF_ARRAY(types, types_len),
			EBPF_ARRAY(symbols, symbols_len), EBPF_TOLD(told));
	while (ebpf_layer_is_cut(number, &told));
	return ebpf_layer_change(handle, number, &told);
}

uint32_t ebpf_resolve_externs_with(struct ebpf_handle *handle, const struct ebpf_btf *btf, const uint8_t *symbols,
		size_t symbols_len)
{
	struct exact_handle closed = { NULL };
	struct exact_btf no_types = { NULL };
	struct ebpf_told told;
	uint32_t number;

	ebpf_layer_begin(&told);
	do
		number = exact_ebpf_resolve_externs_with(EBPF_EXACT(handle), EBPF_TYPES(btf),
			EBPF_ARRAY(symbols, symbols_len), EBPF_TOLD(told));
	while (ebpf_layer_is_cut(number, &told));
	return ebpf_layer_change(handle, number, &told);
}

uint32_t ebpf_wants_symbols(const struct ebpf_handle *handle, uint32_t *wants)
{
	struct exact_handle closed = { NULL };
	uint32_t no_wants = 0;
	uint32_t number;

	number = exact_ebpf_wants_symbols(EBPF_EXACT(handle), wants ? wants : &no_wants);
	return ebpf_layer_end(handle, number, NULL);
}

uint32_t ebpf_relocate_externs(struct ebpf_handle *handle)
{
	struct exact_handle closed = { NULL };
	struct ebpf_told told;
	uint32_t number;

	ebpf_layer_begin(&told);
	do
		number = exact_ebpf_relocate_externs(EBPF_EXACT(handle), EBPF_TOLD(told));
	while (ebpf_layer_is_cut(number, &told));
	return ebpf_layer_change(handle, number, &told);
}

uint32_t ebpf_relocate_calls(struct ebpf_handle *handle)
{
	struct exact_handle closed = { NULL };
	struct ebpf_told told;
	uint32_t number;

	ebpf_layer_begin(&told);
	do
		number = exact_ebpf_relocate_calls(EBPF_EXACT(handle), EBPF_TOLD(told));
	while (ebpf_layer_is_cut(number, &told));
	return ebpf_layer_change(handle, number, &told);
}

uint32_t ebpf_link_references(const struct ebpf_handle *handle, const char *name, size_t name_len,
		struct ebpf_code_reference *rows, size_t room, size_t *count)
{
	struct exact_handle closed = { NULL };
	size_t no_count = 0;
	struct ebpf_told told;
	uint32_t number;

	ebpf_layer_begin(&told);
	do
		number = exact_ebpf_link_references(EBPF_EXACT(handle), EBPF_ARRAY(name, name_len),
			EBPF_ARRAY(rows, room), count ? count : &no_count, EBPF_TOLD(told));
	while (ebpf_layer_is_cut(number, &told));
	return ebpf_layer_end(handle, number, &told);
}

/* Made by tools/c_layer.py of crates/capi_exports/src: the proved calls. */
#ifndef EBPF_EXACT_H
#define EBPF_EXACT_H

#include "ebpf.h"

/* What the proved calls have of an object. */
struct exact_handle {
	void *at;
};

/* What they have of a kernel's types. */
struct exact_btf {
	void *at;
};

/* A map's name, a place in the text that is given beside the rows, and its descriptor. */
struct exact_descriptor {
	size_t name_at, name_len;
	int32_t descriptor;
};

/* A variable's name and its value: places in the text and in the bytes that are given beside the rows. */
struct exact_value {
	size_t name_at, name_len;
	size_t value_at, value_len;
	uint32_t must_exist;
};

uint32_t exact_ebpf_attach_target(const void *section_name, size_t section_name_len, const void *types,
		size_t types_len, uint32_t *answer, uint32_t *type_id);
uint32_t exact_ebpf_attach_target_with(const void *section_name, size_t section_name_len, struct exact_btf *kernel,
		uint32_t *answer, uint32_t *type_id);
void exact_ebpf_btf_close(struct exact_btf *kernel);
uint32_t exact_ebpf_btf_open(const void *types, size_t types_len, struct exact_btf *kernel);
uint32_t exact_ebpf_check(struct exact_handle *handle, struct exact_btf *kernel, struct ebpf_reason *rows,
		size_t rows_len, void *text, size_t text_len, struct ebpf_counts *counts,
		struct ebpf_verdict_summary *summary, void *about, size_t about_len, struct ebpf_refusal *report);
uint32_t exact_ebpf_clone(struct exact_handle *handle, struct exact_handle *copy);
void exact_ebpf_close(struct exact_handle *handle);
uint32_t exact_ebpf_complete_maps(struct exact_handle *handle, const void *file, size_t file_len, uint32_t page_size,
		void *about, size_t about_len, struct ebpf_refusal *report);
uint32_t exact_ebpf_define_kconfig(struct exact_handle *handle, const struct exact_value *rows, size_t rows_len,
		const void *text, size_t text_len, const void *bytes, size_t bytes_len, void *about, size_t about_len,
		struct ebpf_refusal *report);
uint32_t exact_ebpf_externs(struct exact_handle *handle, struct ebpf_extern *rows, size_t rows_len, void *text,
		size_t text_len, struct ebpf_counts *counts);
uint32_t exact_ebpf_find_map(struct exact_handle *handle, const void *name, size_t name_len, struct ebpf_map *row);
uint32_t exact_ebpf_find_program(struct exact_handle *handle, const void *name, size_t name_len,
		struct ebpf_program *row);
uint32_t exact_ebpf_func_infos(struct exact_handle *handle, const void *name, size_t name_len,
		struct ebpf_func_info *rows, size_t rows_len, size_t *count);
uint32_t exact_ebpf_info(struct exact_handle *handle, struct ebpf_object_info *info);
uint32_t exact_ebpf_initial_slots(const void *file, size_t file_len, struct exact_handle *handle,
		struct ebpf_initial_slot *rows, size_t rows_len, void *text, size_t text_len,
		struct ebpf_counts *counts, void *about, size_t about_len, struct ebpf_refusal *report);
uint32_t exact_ebpf_kconfig(struct exact_handle *handle, struct ebpf_kconfig_extern *rows, size_t rows_len,
		void *text, size_t text_len, struct ebpf_counts *counts, void *about, size_t about_len,
		struct ebpf_refusal *report);
uint32_t exact_ebpf_kconfig_number(struct exact_handle *handle, const void *name, size_t name_len, uint64_t number,
		void *value, size_t value_len, size_t *len, void *about, size_t about_len,
		struct ebpf_refusal *report);
uint32_t exact_ebpf_kconfig_value(struct exact_handle *handle, const void *name, size_t name_len, const void *config,
		size_t config_len, void *value, size_t value_len, size_t *len, uint32_t *is_found, void *about,
		size_t about_len, struct ebpf_refusal *report);
uint32_t exact_ebpf_kernel_types(const void *file, size_t file_len, void *types, size_t types_len, size_t *len,
		void *about, size_t about_len, struct ebpf_refusal *report);
uint32_t exact_ebpf_least_types(struct exact_handle *handle, struct exact_btf *kernel, void *types, size_t types_len,
		size_t *len, void *about, size_t about_len, struct ebpf_refusal *report);
uint32_t exact_ebpf_leave_out(struct exact_handle *handle, const struct exact_descriptor *rows, size_t rows_len,
		const void *text, size_t text_len, void *about, size_t about_len, struct ebpf_refusal *report);
uint32_t exact_ebpf_license(struct exact_handle *handle, void *text, size_t text_len, size_t *len);
uint32_t exact_ebpf_line_infos(struct exact_handle *handle, const void *name, size_t name_len,
		struct ebpf_line_info *rows, size_t rows_len, size_t *count);
uint32_t exact_ebpf_link_map(struct exact_handle *handle, const void *name, size_t name_len,
		struct ebpf_code_copy *rows, size_t rows_len, void *text, size_t text_len, struct ebpf_counts *counts,
		void *about, size_t about_len, struct ebpf_refusal *report);
uint32_t exact_ebpf_link_references(struct exact_handle *handle, const void *name, size_t name_len,
		struct ebpf_code_reference *rows, size_t rows_len, size_t *count, void *about, size_t about_len,
		struct ebpf_refusal *report);
uint32_t exact_ebpf_map_data(struct exact_handle *handle, const void *name, size_t name_len, void *bytes,
		size_t bytes_len, size_t *len);
uint32_t exact_ebpf_maps(struct exact_handle *handle, struct ebpf_map *rows, size_t rows_len, void *text,
		size_t text_len, struct ebpf_counts *counts);
uint32_t exact_ebpf_maps_without_descriptors(struct exact_handle *handle, const struct exact_descriptor *descriptors,
		size_t descriptors_len, const void *names, size_t names_len, struct ebpf_map_slot *rows,
		size_t rows_len, void *text, size_t text_len, struct ebpf_counts *counts);
uint32_t exact_ebpf_number_name(uint32_t number, void *text, size_t text_len, size_t *len);
uint32_t exact_ebpf_open(const void *file, size_t file_len, struct exact_handle *handle, void *about,
		size_t about_len, struct ebpf_refusal *report);
uint32_t exact_ebpf_open_broad(const void *file, size_t file_len, struct exact_handle *handle, void *about,
		size_t about_len, struct ebpf_refusal *report);
uint32_t exact_ebpf_open_within(const void *file, size_t file_len, uint32_t lenient, uint64_t most_bytes,
		struct exact_handle *handle, void *about, size_t about_len, struct ebpf_refusal *report);
uint32_t exact_ebpf_prepare(const void *file, size_t file_len, const void *types, size_t types_len,
		const struct exact_descriptor *rows, size_t rows_len, const void *text, size_t text_len,
		const void *symbols, size_t symbols_len, struct exact_handle *handle, void *about, size_t about_len,
		struct ebpf_refusal *report);
uint32_t exact_ebpf_prepare_handle(struct exact_handle *handle, const void *types, size_t types_len,
		const struct exact_descriptor *rows, size_t rows_len, const void *text, size_t text_len,
		const void *symbols, size_t symbols_len, void *about, size_t about_len, struct ebpf_refusal *report);
uint32_t exact_ebpf_prepare_handle_with(struct exact_handle *handle, struct exact_btf *kernel,
		const struct exact_descriptor *rows, size_t rows_len, const void *text, size_t text_len,
		const void *symbols, size_t symbols_len, void *about, size_t about_len, struct ebpf_refusal *report);
uint32_t exact_ebpf_prepare_with(const void *file, size_t file_len, struct exact_btf *kernel,
		const struct exact_descriptor *rows, size_t rows_len, const void *text, size_t text_len,
		const void *symbols, size_t symbols_len, struct exact_handle *handle, void *about, size_t about_len,
		struct ebpf_refusal *report);
uint32_t exact_ebpf_program_section(struct exact_handle *handle, const void *name, size_t name_len, void *text,
		size_t text_len, size_t *len);
uint32_t exact_ebpf_programs(struct exact_handle *handle, struct ebpf_program *rows, size_t rows_len, void *text,
		size_t text_len, struct ebpf_counts *counts);
uint32_t exact_ebpf_record_outcomes(struct exact_handle *handle, const void *types, size_t types_len,
		struct ebpf_record_outcome *rows, size_t rows_len, void *text, size_t text_len,
		struct ebpf_counts *counts, void *about, size_t about_len, struct ebpf_refusal *report);
uint32_t exact_ebpf_record_outcomes_with(struct exact_handle *handle, struct exact_btf *kernel,
		struct ebpf_record_outcome *rows, size_t rows_len, void *text, size_t text_len,
		struct ebpf_counts *counts, void *about, size_t about_len, struct ebpf_refusal *report);
uint32_t exact_ebpf_relocate_calls(struct exact_handle *handle, void *about, size_t about_len,
		struct ebpf_refusal *report);
uint32_t exact_ebpf_relocate_externs(struct exact_handle *handle, void *about, size_t about_len,
		struct ebpf_refusal *report);
uint32_t exact_ebpf_relocate_maps(struct exact_handle *handle, const struct exact_descriptor *rows, size_t rows_len,
		const void *text, size_t text_len, void *about, size_t about_len, struct ebpf_refusal *report);
uint32_t exact_ebpf_relocate_types(struct exact_handle *handle, const void *types, size_t types_len, void *about,
		size_t about_len, struct ebpf_refusal *report);
uint32_t exact_ebpf_relocate_types_with(struct exact_handle *handle, struct exact_btf *kernel, void *about,
		size_t about_len, struct ebpf_refusal *report);
uint32_t exact_ebpf_resolve_externs(struct exact_handle *handle, const void *types, size_t types_len,
		const void *symbols, size_t symbols_len, void *about, size_t about_len, struct ebpf_refusal *report);
uint32_t exact_ebpf_resolve_externs_with(struct exact_handle *handle, struct exact_btf *kernel, const void *symbols,
		size_t symbols_len, void *about, size_t about_len, struct ebpf_refusal *report);
uint32_t exact_ebpf_sanitize(struct exact_handle *handle, uint32_t has_newer);
uint32_t exact_ebpf_sections(struct exact_handle *handle, struct ebpf_section *rows, size_t rows_len, void *text,
		size_t text_len, struct ebpf_counts *counts);
uint32_t exact_ebpf_set_map_data(struct exact_handle *handle, const void *name, size_t name_len, const void *bytes,
		size_t bytes_len);
uint32_t exact_ebpf_set_max_entries(struct exact_handle *handle, const void *name, size_t name_len, uint32_t entries);
uint32_t exact_ebpf_set_value(struct exact_handle *handle, const void *name, size_t name_len, const void *value,
		size_t value_len, uint32_t must_exist, void *about, size_t about_len, struct ebpf_refusal *report);
uint32_t exact_ebpf_set_value_size(struct exact_handle *handle, const void *name, size_t name_len, uint32_t size);
uint32_t exact_ebpf_set_values(struct exact_handle *handle, const struct exact_value *rows, size_t rows_len,
		const void *text, size_t text_len, const void *bytes, size_t bytes_len, void *about, size_t about_len,
		struct ebpf_refusal *report);
uint32_t exact_ebpf_slots(struct exact_handle *handle, const void *name, size_t name_len, struct ebpf_insn *slots,
		size_t slots_len, size_t *count);
uint32_t exact_ebpf_states_license(struct exact_handle *handle, uint32_t *states);
uint32_t exact_ebpf_struct_ops_maps(struct exact_handle *handle, const void *file, size_t file_len,
		struct exact_btf *kernel, struct ebpf_struct_ops_map *rows, size_t rows_len, void *text,
		size_t text_len, struct ebpf_counts *counts, void *about, size_t about_len,
		struct ebpf_refusal *report);
uint32_t exact_ebpf_struct_ops_programs(struct exact_handle *handle, const void *file, size_t file_len,
		struct exact_btf *kernel, size_t map, struct ebpf_struct_ops_program *rows, size_t rows_len,
		void *text, size_t text_len, struct ebpf_counts *counts, void *about, size_t about_len,
		struct ebpf_refusal *report);
uint32_t exact_ebpf_struct_ops_value(struct exact_handle *handle, const void *file, size_t file_len,
		struct exact_btf *kernel, size_t map, void *value, size_t value_len, size_t *len, void *about,
		size_t about_len, struct ebpf_refusal *report);
uint32_t exact_ebpf_value(struct exact_handle *handle, const void *name, size_t name_len, void *value,
		size_t value_len, size_t *len);
uint32_t exact_ebpf_variables(struct exact_handle *handle, struct ebpf_variable *rows, size_t rows_len, void *text,
		size_t text_len, struct ebpf_counts *counts);
uint32_t exact_ebpf_version_number(void);
uint32_t exact_ebpf_wants_symbols(struct exact_handle *handle, uint32_t *wants);

#endif

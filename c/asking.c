/* Each list that a handle keeps, by the proved call that writes it into a buffer. */
#include "layer.h"

/* The size of a row or a value. */
size_t ebpf_layer_row(enum ebpf_kept_kind kind)
{
	switch (kind) {
	case EBPF_KEPT_PROGRAMS:
		return sizeof(struct ebpf_program);
	case EBPF_KEPT_MAPS:
		return sizeof(struct ebpf_map);
	case EBPF_KEPT_EXTERNS:
		return sizeof(struct ebpf_extern);
	case EBPF_KEPT_SECTIONS:
		return sizeof(struct ebpf_section);
	case EBPF_KEPT_KCONFIG:
		return sizeof(struct ebpf_kconfig_extern);
	case EBPF_KEPT_VARIABLES:
		return sizeof(struct ebpf_variable);
	case EBPF_KEPT_INITIAL_SLOTS:
		return sizeof(struct ebpf_initial_slot);
	case EBPF_KEPT_OUTCOMES:
		return sizeof(struct ebpf_record_outcome);
	case EBPF_KEPT_REASONS:
		return sizeof(struct ebpf_reason);
	case EBPF_KEPT_COPIES:
		return sizeof(struct ebpf_code_copy);
	case EBPF_KEPT_WITHOUT_DESCRIPTORS:
		return sizeof(struct ebpf_map_slot);
	case EBPF_KEPT_STRUCT_OPS_MAPS:
		return sizeof(struct ebpf_struct_ops_map);
	case EBPF_KEPT_STRUCT_OPS_PROGRAMS:
		return sizeof(struct ebpf_struct_ops_program);
	case EBPF_KEPT_SLOTS:
		return sizeof(struct ebpf_insn);
	case EBPF_KEPT_FUNC_INFOS:
		return sizeof(struct ebpf_func_info);
	case EBPF_KEPT_LINE_INFOS:
		return sizeof(struct ebpf_line_info);
	default:
		return 1;
	}
}

#define NAME asked->name, asked->name_len
#define FILE_BYTES EBPF_ARRAY(asked->name, asked->name_len)
#define LISTED (void *)into->rows, counts->rows, into->text, counts->text, counts
#define VALUES (void *)into->rows, counts->rows, &counts->rows

/* Lists of rows with names. */
static uint32_t ask_list(struct exact_handle *exact, struct ebpf_asked *asked, struct ebpf_kept *into,
			 struct ebpf_counts *counts, struct ebpf_told *told)
{
	switch (asked->kind) {
	case EBPF_KEPT_PROGRAMS:
		return exact_ebpf_programs(exact, LISTED);
	case EBPF_KEPT_MAPS:
		return exact_ebpf_maps(exact, LISTED);
	case EBPF_KEPT_EXTERNS:
		return exact_ebpf_externs(exact, LISTED);
	case EBPF_KEPT_SECTIONS:
		return exact_ebpf_sections(exact, LISTED);
	case EBPF_KEPT_KCONFIG:
		return exact_ebpf_kconfig(exact, LISTED, EBPF_TOLD(*told));
	case EBPF_KEPT_VARIABLES:
		return exact_ebpf_variables(exact, LISTED);
	case EBPF_KEPT_INITIAL_SLOTS:
		return exact_ebpf_initial_slots(FILE_BYTES, exact, LISTED, EBPF_TOLD(*told));
	case EBPF_KEPT_OUTCOMES:
		return asked->btf ? exact_ebpf_record_outcomes_with(exact, asked->btf, LISTED, EBPF_TOLD(*told)) :
				    exact_ebpf_record_outcomes(exact, FILE_BYTES, LISTED, EBPF_TOLD(*told));
	case EBPF_KEPT_REASONS:
		return exact_ebpf_check(exact, asked->btf, LISTED, asked->summary, EBPF_TOLD(*told));
	case EBPF_KEPT_WITHOUT_DESCRIPTORS:
		return exact_ebpf_maps_without_descriptors(exact, asked->descriptors, asked->descriptors_len, FILE_BYTES,
							   LISTED);
	case EBPF_KEPT_STRUCT_OPS_MAPS:
		return exact_ebpf_struct_ops_maps(exact, FILE_BYTES, asked->btf, LISTED, EBPF_TOLD(*told));
	case EBPF_KEPT_STRUCT_OPS_PROGRAMS:
		return exact_ebpf_struct_ops_programs(exact, FILE_BYTES, asked->btf, asked->index, LISTED,
						      EBPF_TOLD(*told));
	default:
		return exact_ebpf_link_map(exact, FILE_BYTES, LISTED, EBPF_TOLD(*told));
	}
}

/* Asks for a list, with as much room as `counts` says, which then says how much there is. */
uint32_t ebpf_layer_ask(const struct ebpf_handle *handle, struct ebpf_asked *asked, struct ebpf_kept *into,
			struct ebpf_counts *counts, struct ebpf_told *told)
{
	struct exact_handle *exact = (struct exact_handle *)&handle->exact;

	asked->is_found = 1;
	switch (asked->kind) {
	case EBPF_KEPT_SLOTS:
		return exact_ebpf_slots(exact, NAME, VALUES);
	case EBPF_KEPT_FUNC_INFOS:
		return exact_ebpf_func_infos(exact, NAME, VALUES);
	case EBPF_KEPT_LINE_INFOS:
		return exact_ebpf_line_infos(exact, NAME, VALUES);
	case EBPF_KEPT_SECTION_NAME:
		return exact_ebpf_program_section(exact, NAME, VALUES);
	case EBPF_KEPT_CONTENTS:
		return exact_ebpf_map_data(exact, NAME, VALUES);
	case EBPF_KEPT_LICENSE:
		return exact_ebpf_license(exact, VALUES);
	case EBPF_KEPT_TYPES:
		return exact->at ? exact_ebpf_kernel_types(FILE_BYTES, VALUES, EBPF_TOLD(*told)) : EBPF_CLOSED;
	case EBPF_KEPT_LEAST_TYPES:
		return exact_ebpf_least_types(exact, asked->btf, VALUES, EBPF_TOLD(*told));
	case EBPF_KEPT_CONFIGURED:
		return exact_ebpf_kconfig_value(exact, FILE_BYTES, EBPF_ARRAY(asked->config, asked->config_len), VALUES,
						&asked->is_found, EBPF_TOLD(*told));
	case EBPF_KEPT_NUMBERED:
		return exact_ebpf_kconfig_number(exact, FILE_BYTES, asked->number, VALUES, EBPF_TOLD(*told));
	case EBPF_KEPT_STRUCT_OPS_VALUE:
		return exact_ebpf_struct_ops_value(exact, FILE_BYTES, asked->btf, asked->index, VALUES,
						   EBPF_TOLD(*told));
	default:
		return ask_list(exact, asked, into, counts, told);
	}
}

/* What each call makes of null pointers: of an array, of a handle, of a result, and of handles that are given out. */
#include "checked.h"
#include "told.h"

/* Calls on a handle without arrays, counts, rows and refusals. What lists something returns `list`, what there is
 * nothing of `done`, and what wants a name `name`, or else that nothing has the empty one. */
static void check_without(struct ebpf_handle *handle, uint32_t list, uint32_t name, uint32_t done)
{
	CHECK("ebpf_info", ebpf_info(handle, NULL) == done);
	CHECK("ebpf_license", ebpf_license(handle, NULL, 0, NULL) == list);
	CHECK("ebpf_states_license", ebpf_states_license(handle, NULL) == done);
	CHECK("ebpf_programs", ebpf_programs(handle, NULL, 9, NULL, 9, NULL) == list);
	CHECK("ebpf_maps", ebpf_maps(handle, NULL, 0, NULL, 0, NULL) == list);
	CHECK("ebpf_sections", ebpf_sections(handle, NULL, 0, NULL, 0, NULL) == list);
	CHECK("ebpf_variables", ebpf_variables(handle, NULL, 0, NULL, 0, NULL) == list);
	CHECK("ebpf_externs", ebpf_externs(handle, NULL, 0, NULL, 0, NULL) == done);
	CHECK("ebpf_kconfig", ebpf_kconfig(handle, NULL, 0, NULL, 0, NULL) == done);
	CHECK("ebpf_find_program", ebpf_find_program(handle, NULL, 0, NULL) == (name ? name : EBPF_NO_PROGRAM));
	CHECK("ebpf_find_map", ebpf_find_map(handle, NULL, 0, NULL) == (name ? name : EBPF_NO_MAP));
	CHECK("ebpf_map_data", ebpf_map_data(handle, NULL, 9, NULL, 9, NULL) == (name ? name : EBPF_NO_MAP));
	CHECK("ebpf_slots", ebpf_slots(handle, NULL, 0, NULL, 0, NULL) == (name ? name : EBPF_NO_PROGRAM));
	CHECK("ebpf_func_infos", ebpf_func_infos(handle, NULL, 0, NULL, 0, NULL) == (name ? name : EBPF_NO_PROGRAM));
	CHECK("ebpf_line_infos", ebpf_line_infos(handle, NULL, 0, NULL, 0, NULL) == (name ? name : EBPF_NO_PROGRAM));
	CHECK("ebpf_link_map", ebpf_link_map(handle, NULL, 0, NULL) == (name ? name : EBPF_NO_PROGRAM));
	CHECK("ebpf_link_references",
	      ebpf_link_references(handle, NULL, 0, NULL, 0, NULL) == (name ? name : EBPF_NO_PROGRAM));
	CHECK("ebpf_set_values", ebpf_set_values(handle, NULL, 9) == done);
	CHECK("ebpf_define_kconfig", ebpf_define_kconfig(handle, NULL, 9) == done);
	CHECK("ebpf_complete_maps", ebpf_complete_maps(handle, NULL, 9, 4096) ==
					    (done ? done : EBPF_COMPLETED_MAPS_FILE_TOO_SHORT));
	CHECK("ebpf_struct_ops_maps", ebpf_struct_ops_maps(handle, NULL, 9, NULL, NULL) == EBPF_CLOSED);
	CHECK("ebpf_struct_ops_map_at", !ebpf_struct_ops_map_at(handle, 0, NULL));
	CHECK("ebpf_struct_ops_program_at", !ebpf_struct_ops_program_at(handle, 0, 0, NULL));
	CHECK("ebpf_struct_ops_value", !ebpf_struct_ops_value(handle, 0, NULL));
	CHECK("ebpf_set_max_entries", ebpf_set_max_entries(handle, NULL, 0, 1) == (name ? name : EBPF_NO_MAP));
	CHECK("ebpf_resolve_externs", ebpf_resolve_externs(handle, NULL, 0, NULL, 0) == done);
	CHECK("ebpf_relocate_externs", ebpf_relocate_externs(handle) == done);
	CHECK("ebpf_relocate_calls", ebpf_relocate_calls(handle) == done);
}

void check_nulls(const struct guarded *file)
{
	struct ebpf_handle *handle = (void *)file, *copy = (void *)file;

	/* what is given out is not read */
	CHECK("ebpf_open", ebpf_open(NULL, 0, NULL, &handle) == EBPF_PARSE_TOO_SHORT && handle);
	ebpf_close(handle);
	handle = (void *)file;
	CHECK("ebpf_open", ebpf_open(NULL, 9, NULL, &handle) == EBPF_PARSE_TOO_SHORT && handle);
	check_without(handle, EBPF_CLOSED, EBPF_CLOSED, EBPF_CLOSED);
	ebpf_close(handle);
	handle = (void *)file;
	CHECK("ebpf_prepare", ebpf_prepare(NULL, 0, NULL, &handle) == EBPF_PARSE_TOO_SHORT && handle);
	ebpf_close(handle);
	CHECK("ebpf_clone", ebpf_clone(NULL, &copy) == EBPF_CLOSED && !copy);
	check_without(NULL, EBPF_CLOSED, EBPF_CLOSED, EBPF_CLOSED);
	CHECK("ebpf_relocate_types", ebpf_relocate_types(NULL, NULL, 0) == EBPF_CLOSED);
	CHECK("ebpf_relocate_maps", ebpf_relocate_maps(NULL, NULL, 0) == EBPF_CLOSED);
	CHECK("ebpf_sanitize", ebpf_sanitize(NULL, 0) == EBPF_CLOSED);
	CHECK("ebpf_leave_out", ebpf_leave_out(NULL, NULL, 0) == EBPF_CLOSED);
	CHECK("ebpf_value", ebpf_value(NULL, NULL, 0, NULL, 0, NULL) == EBPF_CLOSED);
	CHECK("ebpf_number_name", ebpf_number_name(0, NULL, 9, NULL) == EBPF_ROOM);
	CHECK("ebpf_kernel_types", !ebpf_kernel_types(NULL, NULL, 0, NULL));
	CHECK("ebpf_attach_target", ebpf_attach_target(NULL, 0, NULL, 0, NULL, NULL) == EBPF_TYPES_READ_INVALID_HEADER);
	handle = opened(file);
	check_without(handle, EBPF_ROOM, EBPF_DONE, EBPF_DONE);
	ebpf_close(handle);
	ebpf_close(NULL);
}

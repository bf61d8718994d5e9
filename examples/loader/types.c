/* The object's types in the kernel, and the kernel's types that programs are attached to. */
#include "loader.h"

/* The kernel's types, read where they are first asked for, once for all calls that are given them. */
const struct ebpf_btf *kernel_types(struct loading *of)
{
	struct bytes types;
	uint32_t number;

	if (of->kernel_types)
		return of->kernel_types;
	types = read_file("/sys/kernel/btf/vmlinux");
	number = ebpf_btf_open(types.at, types.len, &of->kernel_types);
	free(types.at);
	if (number != EBPF_DONE) /* of no handle */
		errx(1, "the kernel's types: the library refuses: %s (%u)", ebpf_strerror(number), number);
	return of->kernel_types;
}

/* The kernel's types where the passes compare the object's with them, else NULL: they are megabytes. */
const struct ebpf_btf *wanted_types(struct loading *of)
{
	struct ebpf_object_info info = { 0 };

	if (!ebpf_program_count(of->object)) /* all are left out */
		return NULL;
	check(of, "types", ebpf_info(of->object, &info));
	return info.has_relocations || info.has_typed_externs ? kernel_types(of) : NULL;
}

/*
 * Loads the types of the file, where it has some: the kernel reads those of maps' values and of functions there. Where it
 * refuses them the object is loaded without.
 */
void load_types(struct loading *of)
{
	union bpf_attr attr;
	size_t log_size;
	char *log = log_buffer(&log_size);

	clear(&attr);
	of->types.at = (uint8_t *)need(of, "types", ebpf_kernel_types(of->object, of->file.at, of->file.len,
								     &of->types.len));
	attr.btf = (uintptr_t)of->types.at;
	attr.btf_size = of->types.len;
	of->own_types = of->types.len ? bpf(BPF_BTF_LOAD, &attr) : -1;
	if (of->types.len && of->own_types < 0) { /* once more, to hear why */
		attr.btf_log_buf = (uintptr_t)log;
		attr.btf_log_size = log_size;
		attr.btf_log_level = 1;
		of->own_types = bpf(BPF_BTF_LOAD, &attr);
	}
	if (of->types.len && of->own_types < 0)
		warn("%s\nthe kernel refuses the object's types, and the object is loaded without them", log);
}

/* What programs of a section are attached to, as the id of a type of the kernel. */
static uint32_t look_up_target(struct loading *of, const char *section, uint32_t *answer)
{
	uint32_t type_id = 0;
	uint32_t number = ebpf_attach_target_with(section, strlen(section), kernel_types(of), answer, &type_id);

	if (number != EBPF_DONE) /* of no handle */
		errx(1, "%s: the library refuses: %s (%u)", section, ebpf_strerror(number), number);
	return type_id;
}

/* The id of the type that a program is attached to, 0 where it is loaded without one. */
uint32_t target_of(struct loading *of, size_t program)
{
	const char *section = need(of, "section", ebpf_program_section_name(of->object, program));
	uint32_t answer = 0, type_id = look_up_target(of, section, &answer);
	const char *name = ebpf_program_at(of->object, program, NULL);

	if (answer == EBPF_TARGET_UNNAMED)
		errx(1, "the section %s of the program %s names no target", section, name);
	if (answer == EBPF_TARGET_NOT_FOUND)
		errx(1, "the kernel's types lack the target of the program %s of %s", name, section);
	return type_id;
}

/* Whether the kernel's types have a function. */
int has_function(struct loading *of, const char *name)
{
	char section[64] = "fentry/";
	uint32_t answer = 0;

	strncat(section, name, sizeof(section) - strlen(section) - 1);
	look_up_target(of, section, &answer);
	return answer == EBPF_TARGET_FOUND;
}

/* Prints each program that is attached to a type, its section, and the type's id: 0 where the kernel lacks it. */
void print_targets(struct loading *of)
{
	struct ebpf_program row;
	const char *name;

	for (size_t at = 0; (name = ebpf_program_at(of->object, at, &row)); at++) {
		uint32_t answer = 0;
		const char *section;

		if (!(row.flags & EBPF_TARGET))
			continue;
		section = need(of, "section", ebpf_program_section_name(of->object, at));
		printf("target %s %s %u\n", name, section, look_up_target(of, section, &answer));
	}
}

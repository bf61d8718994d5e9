/* Programs in the kernel. */
#include "loader.h"

/* The place of a program in the list. */
size_t find_program(const struct loading *of, const char *name)
{
	const char *found;
	size_t at = 0;

	while ((found = ebpf_program_at(of->object, at, NULL)) && strcmp(name, found))
		at++;
	if (!found)
		errx(1, "no program %s", name);
	return at;
}

_Static_assert(sizeof(struct ebpf_insn) == sizeof(struct bpf_insn), "slots are laid out as the kernel's");
_Static_assert(sizeof(struct ebpf_func_info) == sizeof(struct bpf_func_info), "so is func info");
_Static_assert(sizeof(struct ebpf_line_info) == sizeof(struct bpf_line_info), "and line info");

/* The license that the file states. Where it states none the kernel is told an empty one, and takes it for no GPL. */
static const char *license_of(const struct loading *of)
{
	uint32_t states = 0;

	check(of, "license", ebpf_states_license(of->object, &states));
	return states ? need(of, "license", ebpf_license_text(of->object)) : "";
}

static size_t describe_code(union bpf_attr *attr, const struct loading *of, size_t at)
{
	const struct ebpf_handle *object = of->object;
	size_t slots, functions, lines;

	attr->insns = (uintptr_t)need(of, "slots", ebpf_program_slots(object, at, &slots));
	attr->insn_cnt = slots;
	if (of->own_types < 0)
		return slots;
	attr->prog_btf_fd = of->own_types;
	attr->func_info = (uintptr_t)need(of, "func info", ebpf_program_func_infos(object, at, &functions));
	attr->func_info_cnt = functions;
	attr->func_info_rec_size = sizeof(struct ebpf_func_info);
	attr->line_info = (uintptr_t)need(of, "line info", ebpf_program_line_infos(object, at, &lines));
	attr->line_info_cnt = lines;
	attr->line_info_rec_size = sizeof(struct ebpf_line_info);
	return slots;
}

/* The kernel's struct and its member that a program of struct_ops stands at. */
static void describe_member(union bpf_attr *attr, const struct loading *of, const char *name)
{
	uint32_t member = 0;
	const struct struct_ops *map = map_of_program(of, name, &member);

	attr->attach_btf_id = map ? map->row.struct_id : 0;
	attr->expected_attach_type = member;
}

static void describe(union bpf_attr *attr, struct loading *of, size_t at, const char *name,
		     const struct ebpf_program *program)
{
	struct ebpf_object_info info = { 0 };

	if (!program->program_type)
		errx(1, "the section of the program %s says no type of programs", name);
	check(of, "version", ebpf_info(of->object, &info));
	attr->prog_type = program->program_type;
	attr->expected_attach_type = program->attach_type == EBPF_NO_ATTACH_TYPE ? 0 : program->attach_type;
	attr->prog_flags = program->flags & EBPF_SLEEPABLE ? BPF_F_SLEEPABLE : 0;
	attr->prog_flags |= program->flags & EBPF_FRAGS ? BPF_F_XDP_HAS_FRAGS : 0;
	attr->attach_btf_id = program->flags & EBPF_TARGET ? target_of(of, at) : 0;
	if (program->program_type == BPF_PROG_TYPE_STRUCT_OPS)
		describe_member(attr, of, name);
	attr->kern_version = info.kernel_version ? info.kernel_version : running_version();
	put_name(attr->prog_name, name);
}

/* Hands a program to the kernel; where it refuses once more, to hear why. */
static int hand_over(union bpf_attr *attr, const char *name)
{
	size_t log_size;
	char *log = log_buffer(&log_size);
	int loaded = bpf(BPF_PROG_LOAD, attr);

	if (loaded < 0) {
		attr->log_buf = (uintptr_t)log;
		attr->log_size = log_size;
		attr->log_level = 1;
		loaded = bpf(BPF_PROG_LOAD, attr);
	}
	if (loaded < 0)
		refused(log, "the program", name);
	return loaded;
}

static int load_program(struct loading *of, size_t at, const char *name, const struct ebpf_program *program)
{
	union bpf_attr attr;
	size_t slots;
	int loaded;

	clear(&attr);
	describe(&attr, of, at, name, program);
	slots = describe_code(&attr, of, at);
	attr.license = (uintptr_t)license_of(of);
	loaded = hand_over(&attr, name);
	printf("program %s slots %zu\n", name, slots);
	return loaded;
}

/* Loads each program that is not left out. */
void load_programs(struct loading *of)
{
	struct ebpf_program program;
	const char *name;

	of->programs = no_descriptors(ebpf_program_count(of->object));
	check(of, "programs", ebpf_last_error(of->object)->number);
	for (size_t at = 0; (name = ebpf_program_at(of->object, at, &program)); at++)
		of->programs[at] = load_program(of, at, name, &program);
}

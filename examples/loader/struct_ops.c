/* Maps of struct_ops: structs of functions that the kernel calls, as the congestion control of TCP. */
#include "loader.h"
#include <unistd.h>

/* What headers before Linux 6.4 lack: BPF_F_LINK, and the attach type BPF_STRUCT_OPS. */
enum { BY_LINK = 1 << 13, AS_STRUCT_OPS = 44 };

static char *copied(const char *name)
{
	return strcpy(zeros(strlen(name) + 1, 1), name);
}

/* Whether the object has a section of such maps: only then the kernel's types are read for them. */
static int has_sections(const struct loading *of)
{
	const char *name;

	for (size_t at = 0; (name = ebpf_section_at(of->object, at, NULL)); at++)
		if (!strncmp(name + (*name == '?'), ".struct_ops", strlen(".struct_ops")))
			return 1;
	return 0;
}

/* Copies what the library says of a map, which it keeps until the object changes. */
static void copy_map(struct loading *of, size_t at, struct struct_ops *to)
{
	to->name = copied(need(of, "map of struct_ops", ebpf_struct_ops_map_at(of->object, at, &to->row)));
	to->value = zeros(to->row.value_len, 1);
	memcpy(to->value, need(of, to->name, ebpf_struct_ops_value(of->object, at, NULL)), to->row.value_len);
	to->programs = zeros(to->row.programs, sizeof(*to->programs));
	to->program_names = zeros(to->row.programs, sizeof(*to->program_names));
	for (size_t program = 0; program < to->row.programs; program++)
		to->program_names[program] = copied(
			need(of, to->name, ebpf_struct_ops_program_at(of->object, at, program, to->programs + program)));
}

/* Lists the maps, before programs are left out. */
void list_struct_ops(struct loading *of)
{
	if (!has_sections(of))
		return;
	check(of, "maps of struct_ops", ebpf_struct_ops_maps(of->object, of->file.at, of->file.len, kernel_types(of),
							     &of->struct_ops_count));
	of->struct_ops = zeros(of->struct_ops_count, sizeof(*of->struct_ops));
	for (size_t at = 0; at < of->struct_ops_count; at++)
		copy_map(of, at, of->struct_ops + at);
}

/* The first map that has a program, and the index of its member; or NULL. All maps use it for that struct and member. */
const struct struct_ops *map_of_program(const struct loading *of, const char *name, uint32_t *member)
{
	for (const struct struct_ops *map = of->struct_ops; map < of->struct_ops + of->struct_ops_count; map++)
		for (size_t at = 0; at < map->row.programs; at++)
			if (!strcmp(map->program_names[at], name)) {
				*member = map->programs[at].member;
				return map;
			}
	return NULL;
}

/* Makes each map, without a value. */
void make_struct_ops(struct loading *of)
{
	for (struct struct_ops *map = of->struct_ops; map < of->struct_ops + of->struct_ops_count; map++) {
		union bpf_attr attr;

		clear(&attr);
		attr.map_type = BPF_MAP_TYPE_STRUCT_OPS;
		attr.key_size = sizeof(uint32_t);
		attr.value_size = map->row.value_len;
		attr.max_entries = 1;
		attr.map_flags = map->row.is_link ? BY_LINK : 0;
		attr.btf_fd = of->own_types;
		attr.btf_vmlinux_value_type_id = map->row.value_type_id;
		put_name(attr.map_name, map->name);
		map->descriptor = bpf(BPF_MAP_CREATE, &attr);
		if (map->descriptor < 0)
			err(1, "the kernel refuses the map %s", map->name);
	}
}

/* Writes the value of a map, with the descriptors of its programs. It registers the struct, unless a link does. */
static void put_value(const struct loading *of, const struct struct_ops *map)
{
	union bpf_attr attr;
	uint32_t key = 0;

	for (size_t at = 0; at < map->row.programs; at++) {
		uint64_t program = of->programs[find_program(of, map->program_names[at])];

		memcpy(map->value + map->programs[at].offset, &program, sizeof(program));
	}
	clear(&attr);
	attr.map_fd = map->descriptor;
	attr.key = (uintptr_t)&key;
	attr.value = (uintptr_t)map->value;
	if (bpf(BPF_MAP_UPDATE_ELEM, &attr))
		err(1, "the kernel refuses the value of %s", map->name);
}

/* A link that registers the struct of a map for as long as it is open. */
static int link_of(const struct struct_ops *map)
{
	union bpf_attr attr;
	int link;

	clear(&attr);
	attr.link_create.prog_fd = map->descriptor;
	attr.link_create.attach_type = AS_STRUCT_OPS;
	link = bpf(BPF_LINK_CREATE, &attr);
	if (link < 0)
		err(1, "the kernel refuses a link of %s", map->name);
	return link;
}

/* Takes the value out of a map, by which the struct is no longer registered. */
static void take_value(const struct struct_ops *map)
{
	union bpf_attr attr;
	uint32_t key = 0;

	clear(&attr);
	attr.map_fd = map->descriptor;
	attr.key = (uintptr_t)&key;
	if (bpf(BPF_MAP_DELETE_ELEM, &attr))
		err(1, "the kernel keeps the struct of %s", map->name);
}

/* Registers the struct of a map for some time. */
void register_struct_ops(const struct loading *of, const char *name, unsigned milliseconds)
{
	const struct struct_ops *map = of->struct_ops;
	int link;

	while (map < of->struct_ops + of->struct_ops_count && strcmp(map->name, name))
		map++;
	if (map == of->struct_ops + of->struct_ops_count)
		errx(1, "no map of struct_ops %s", name);
	put_value(of, map);
	link = map->row.is_link ? link_of(map) : -1;
	printf("registered %s\n", name);
	fflush(stdout);
	usleep(milliseconds * 1000);
	if (link >= 0)
		close(link);
	else
		take_value(map);
}

void free_struct_ops(struct loading *of)
{
	for (struct struct_ops *map = of->struct_ops; map < of->struct_ops + of->struct_ops_count; map++) {
		for (size_t at = 0; at < map->row.programs; at++)
			free(map->program_names[at]);
		free(map->program_names);
		free(map->programs);
		free(map->value);
		free(map->name);
	}
	free(of->struct_ops);
}

/* Maps in the kernel. */
#include "loader.h"
#include <sys/mman.h>
#include <unistd.h>

/* Whether the object has a map of the name, and its place in the list. */
int has_map(const struct loading *of, const char *name, size_t *at)
{
	const char *found;

	for (*at = 0; (found = ebpf_map_at(of->object, *at, NULL)); ++*at)
		if (!strcmp(name, found))
			return 1;
	return 0;
}

size_t find_map(const struct loading *of, const char *name)
{
	size_t at;

	if (!has_map(of, name, &at))
		errx(1, "no map %s", name);
	return at;
}

/*
 * How many entries the kernel is asked for: for a ring buffer bytes, which it takes as a power of two of pages alone; an
 * array of events that states none has one for each processor.
 */
static uint32_t entries_of(const struct ebpf_map_shape *shape)
{
	uint64_t room = sysconf(_SC_PAGESIZE);

	if (shape->type == BPF_MAP_TYPE_PERF_EVENT_ARRAY && !shape->max_entries)
		return sysconf(_SC_NPROCESSORS_CONF);
	if (shape->type != BPF_MAP_TYPE_RINGBUF && shape->type != BPF_MAP_TYPE_USER_RINGBUF)
		return shape->max_entries;
	while (room < shape->max_entries)
		room *= 2;
	return room;
}

/* Asks the kernel for a map; `inner` is the descriptor of one of the maps that it holds, or -1. */
static int make_map(const struct loading *of, const struct ebpf_map_shape *shape, int inner, const char *name)
{
	union bpf_attr attr;
	int made;

	clear(&attr);
	attr.map_type = shape->type;
	attr.key_size = shape->key_size;
	attr.value_size = shape->value_size;
	attr.max_entries = entries_of(shape);
	attr.map_flags = shape->flags | (has_shared_variable(of, shape->value_type_id) ? BPF_F_MMAPABLE : 0);
	attr.map_extra = shape->extra;
	if (inner >= 0)
		attr.inner_map_fd = inner;
	if (of->own_types >= 0) {
		attr.btf_fd = of->own_types;
		attr.btf_key_type_id = shape->key_type_id;
		attr.btf_value_type_id = shape->value_type_id;
	}
	put_name(attr.map_name, name);
	made = bpf(BPF_MAP_CREATE, &attr);
	if (made < 0 && attr.btf_value_type_id) { /* once more without types, which the kernel doesn't take for each map */
		attr.btf_fd = attr.btf_key_type_id = attr.btf_value_type_id = 0;
		made = bpf(BPF_MAP_CREATE, &attr);
	}
	if (made < 0)
		err(1, "the kernel refuses the map %s", name);
	return made;
}

/* Writes the bytes that a map of variables begins with; what is constant no one writes from then on. */
static void fill_map(struct loading *of, size_t at, const char *name, const struct ebpf_map *map)
{
	union bpf_attr attr;
	uint32_t key = 0;

	clear(&attr);
	attr.map_fd = of->maps[at];
	attr.key = (uintptr_t)&key;
	attr.value = (uintptr_t)need(of, "data of a map", ebpf_map_contents(of->object, at, NULL));
	if (bpf(BPF_MAP_UPDATE_ELEM, &attr))
		err(1, "the kernel refuses the data of %s", name);
	clear(&attr);
	attr.map_fd = of->maps[at];
	if (map->section_kind == EBPF_SECTION_RODATA && bpf(BPF_MAP_FREEZE, &attr))
		err(1, "the kernel doesn't freeze %s", name);
}

/*
 * Maps the pages of an arena into memory, at the address that its programs count on, and copies what its variables begin
 * with to their start.
 */
static void fill_arena(struct loading *of, size_t at, const char *name, const struct ebpf_map *map)
{
	void *wanted = (void *)(uintptr_t)map->shape.extra;
	size_t room = (size_t)map->shape.max_entries * sysconf(_SC_PAGESIZE);
	int flags = MAP_SHARED | (wanted ? MAP_FIXED : 0);
	void *pages = mmap(wanted, room, PROT_READ | PROT_WRITE, flags, of->maps[at], 0);

	if (pages == MAP_FAILED)
		err(1, "the pages of the arena %s can't be mapped", name);
	if (map->data_len)
		memcpy(pages, need(of, "data of a map", ebpf_map_contents(of->object, at, NULL)), map->data_len);
	of->arena = pages;
}

/* Makes each map; of a map of maps first one of those that it holds, by which the kernel knows what it takes. */
void make_maps(struct loading *of)
{
	struct ebpf_map map;
	const char *name;

	of->maps = no_descriptors(ebpf_map_count(of->object));
	check(of, "maps", ebpf_last_error(of->object)->number);
	for (size_t at = 0; (name = ebpf_map_at(of->object, at, &map)); at++) {
		int inner = map.has_inner ? make_map(of, &map.inner, -1, "inner") : -1;

		of->maps[at] = make_map(of, &map.shape, inner, name);
		if (inner >= 0)
			close(inner);
		if (map.shape.type == ARENA)
			fill_arena(of, at, name, &map);
		else if (map.data_len)
			fill_map(of, at, name, &map);
	}
}

/* What maps and variables hold. */
#include "loader.h"

static void print_bytes(const uint8_t *bytes, size_t len, char behind)
{
	for (size_t at = 0; at < len; at++)
		printf("%02x", bytes[at]);
	putchar(behind);
}

/* A key of such a map has a value for each processor. */
static int is_by_processor(uint32_t type)
{
	return type == BPF_MAP_TYPE_PERCPU_HASH || type == BPF_MAP_TYPE_PERCPU_ARRAY ||
	       type == BPF_MAP_TYPE_LRU_PERCPU_HASH || type == BPF_MAP_TYPE_PERCPU_CGROUP_STORAGE;
}

/* Prints each key of a map with its value. */
static void print_map(const struct loading *of, size_t at)
{
	struct ebpf_map map;
	const char *name = need(of, "maps", ebpf_map_at(of->object, at, &map));
	const struct ebpf_map_shape *shape = &map.shape;
	uint8_t *key, *value;
	union bpf_attr attr;

	if (shape->type == ARENA) { /* what its variables hold */
		print_bytes(of->arena, map.data_len, '\n');
		return;
	}
	if (is_by_processor(shape->type))
		errx(1, "%s has a value for each processor, which is not printed", name);
	clear(&attr);
	key = zeros(shape->key_size, 1);
	value = zeros(shape->value_size, 1);
	attr.map_fd = of->maps[at];
	while (attr.next_key = (uintptr_t)key, !bpf(BPF_MAP_GET_NEXT_KEY, &attr)) {
		attr.key = (uintptr_t)key;
		attr.value = (uintptr_t)value;
		if (bpf(BPF_MAP_LOOKUP_ELEM, &attr))
			err(1, "the kernel gives no value of %s", name);
		print_bytes(key, shape->key_size, ' ');
		print_bytes(value, shape->value_size, '\n');
	}
	free(key);
	free(value);
}

/* Prints the bytes at a place in the one value of a map. */
static void print_part(const struct loading *of, const char *name, size_t offset, size_t size)
{
	size_t at = find_map(of, name);
	struct ebpf_map map;
	uint8_t *value;
	union bpf_attr attr;
	uint32_t key = 0;

	need(of, name, ebpf_map_at(of->object, at, &map));
	if (map.shape.type == ARENA) {
		print_bytes(of->arena + offset, size, '\n');
		return;
	}
	value = zeros(map.shape.value_size, 1);
	clear(&attr);
	attr.map_fd = of->maps[at];
	attr.key = (uintptr_t)&key;
	attr.value = (uintptr_t)value;
	if (bpf(BPF_MAP_LOOKUP_ELEM, &attr))
		err(1, "the kernel gives no value of %s", name);
	print_bytes(value + offset, size, '\n');
	free(value);
}

static void print_variable(const struct loading *of, const char *name)
{
	struct ebpf_variable row;
	const char *found;
	size_t at = 0;

	while ((found = ebpf_variable_at(of->object, at, &row)) && strcmp(name, found))
		at++;
	if (!found)
		errx(1, "no map %s, and no variable", name);
	print_part(of, found + row.map_at, row.offset, row.size);
}

/* Prints what a map of a name holds, or else a variable. */
void print_held(struct loading *of, const char *name)
{
	size_t at;

	if (has_map(of, name, &at))
		print_map(of, at);
	else
		print_variable(of, name);
}

#include "struct_ops_calls.h"

static void put_bytes(const uint8_t *at, size_t len)
{
	for (size_t byte = 0; byte < len; byte++)
		printf("%02x", at[byte]);
	printf("\n");
}

/* A map with its programs and its value. */
static void put_map(const struct ebpf_handle *object, size_t at, const char *name, const struct ebpf_struct_ops_map *map)
{
	struct ebpf_struct_ops_program row;
	const uint8_t *value;
	const char *program;
	size_t count = 0, len = 77;

	if (strlen(name) != map->name_len || map->name_at)
		errx(3, "a name that does not end where its row says");
	printf("struct_ops %s link %u struct %u value %u\n", name, map->is_link, map->struct_id, map->value_type_id);
	for (; (program = ebpf_struct_ops_program_at(object, at, count, &row)); count++) {
		if (strlen(program) != row.name_len || row.name_at)
			errx(3, "a name of a program that does not end where its row says");
		printf("program %s at %llu for %zu\n", program, (unsigned long long)row.offset, row.member);
	}
	if (count != map->programs || ebpf_last_error(object)->number != EBPF_NO_ROW)
		errx(3, "other programs than were counted");
	value = ebpf_struct_ops_value(object, at, &len);
	if (!value || len != map->value_len)
		errx(3, "another value than was counted");
	put_bytes(value, len);
}

static uint32_t put_maps(const struct made_on *on, const struct ebpf_btf *btf)
{
	struct ebpf_struct_ops_map row;
	size_t count = 77, at = 0;
	uint32_t number = ebpf_struct_ops_maps(on->object, on->file.at, on->file.len, btf, &count);
	const char *name;

	if (number != EBPF_DONE) {
		if (count != 77)
			errx(3, "a count behind a refusal");
		return number;
	}
	for (; (name = ebpf_struct_ops_map_at(on->object, at, &row)); at++)
		put_map(on->object, at, name, &row);
	if (at != count || ebpf_struct_ops_value(on->object, at, NULL) ||
	    ebpf_struct_ops_program_at(on->object, at, 0, NULL))
		errx(3, "other maps than were counted");
	return number;
}

static uint32_t take_maps(const struct made_on *on, const struct ebpf_btf *btf)
{
	return ebpf_struct_ops_maps(on->object, on->file.at, on->file.len, btf, NULL);
}

typedef uint32_t call_over_types(const struct made_on *, const struct ebpf_btf *);

/* Makes a call over the types, which are read for it. */
static int64_t over_types(const struct made_on *on, call_over_types *call)
{
	struct ebpf_btf *btf;
	uint32_t number = ebpf_btf_open(on->types.at, on->types.len, &btf);

	if (number == EBPF_DONE)
		number = call(on, btf);
	ebpf_btf_close(btf);
	return number;
}

/* Prints the arenas, and what they hold. */
static uint32_t put_arenas(const struct ebpf_handle *object)
{
	struct ebpf_map map;
	const char *name;

	for (size_t at = 0; (name = ebpf_map_at(object, at, &map)); at++) {
		size_t len = 0;

		if (map.shape.type != 33)
			continue;
		printf("arena %s section %zu extra %llu ", name, map.section, (unsigned long long)map.shape.extra);
		put_bytes(ebpf_map_contents(object, at, &len), map.data_len);
	}
	return EBPF_DONE;
}

int64_t struct_ops_call(const struct made_on *on, const char *name, const char *rest)
{
	if (!strcmp(name, "complete"))
		return ebpf_complete_maps(on->object, on->file.at, on->file.len, (uint32_t)strtoul(rest, NULL, 0));
	if (!strcmp(name, "arenas"))
		return put_arenas(on->object);
	return strcmp(name, "struct_ops") ? -1 : over_types(on, put_maps);
}

int64_t ask_struct_ops_call(const struct made_on *on, const char *call)
{
	return strcmp(call, "struct_ops") ? -1 : over_types(on, take_maps);
}

// libbpf_maps KERNEL FILE ..: what libbpf makes of the maps of struct_ops of each object, by the types in the file KERNEL,
// in the form of the driver test_struct_ops. `no object: N` where libbpf doesn't open it, `refused: N` where it refuses a map.
//
// libbpf.c is included, since its functions for these maps are static: it is compiled with -I SOURCES/tools/lib/bpf and linked
// with the other objects of libbpf. No extern is resolved, no module's types are read, and the kernel isn't asked.
#include "libbpf.c"

static int quiet(enum libbpf_print_level level, const char *format, va_list list) { return 0; }

static int is_link(const struct bpf_map *map) { return !!(map->def.map_flags & BPF_F_LINK); }

static void print_variables(struct bpf_object *object)
{
	for (size_t i = 0; i < object->nr_maps; i++) {
		struct bpf_map *map = &object->maps[i];
		if (bpf_map__is_struct_ops(map))
			printf("variable %s created %d link %d\n", map->name, map->autocreate, is_link(map));
	}
}

static void print_map(struct bpf_object *object, struct bpf_map *map)
{
	const struct btf_type *type = btf__type_by_id(object->btf, map->st_ops->type_id);
	const unsigned char *value = map->st_ops->kern_vdata;
	printf("map %s link %d value_type %u size %u\n  bytes ", map->name, is_link(map), map->btf_vmlinux_value_type_id,
	       map->def.value_size);
	for (unsigned int i = 0; i < map->def.value_size; i++)
		printf("%02x", value[i]);
	printf("\n");
	for (int i = 0; i < btf_vlen(type); i++) {
		struct bpf_program *program = map->st_ops->progs[i];
		if (program)
			printf("  program %s offset %u attach_type %u attach_btf_id %u\n", program->name,
			       map->st_ops->kern_func_off[i], program->expected_attach_type, program->attach_btf_id);
	}
}

static void print_maps(struct bpf_object *object)
{
	int error = bpf_object__init_kern_struct_ops_maps(object);
	if (error) {
		printf("refused: %d\n", error);
		return;
	}
	for (size_t i = 0; i < object->nr_maps; i++)
		if (bpf_map__is_struct_ops(&object->maps[i]) && object->maps[i].autocreate)
			print_map(object, &object->maps[i]);
}

static void print_object(const char *kernel, const char *path)
{
	struct bpf_object *object = bpf_object__open_file(path, NULL);
	printf("object %s\n", path);
	if (!object) {
		printf("no object: %d\n", errno);
		return;
	}
	print_variables(object);
	object->btf_vmlinux = btf__parse(kernel, NULL);
	object->btf_modules_loaded = true;
	if (object->btf_vmlinux)
		print_maps(object);
	else
		printf("no types: %d\n", errno);
	bpf_object__close(object);
}

int main(int count, char **words)
{
	libbpf_set_print(quiet);
	for (int i = 2; i < count; i++)
		print_object(words[1], words[i]);
	return 0;
}

/* Which maps and programs stand in maps of maps and in arrays of programs before anything runs. */
#include "loader.h"

static void put(const struct loading *of, const char *map, uint32_t key, const char *target, int descriptor)
{
	union bpf_attr attr;

	clear(&attr);
	attr.map_fd = of->maps[find_map(of, map)];
	attr.key = (uintptr_t)&key;
	attr.value = (uintptr_t)&descriptor;
	if (bpf(BPF_MAP_UPDATE_ELEM, &attr))
		err(1, "the kernel doesn't put %s into %s at %u", target, map, key);
}

static int loaded_program(const struct loading *of, const char *target)
{
	int loaded = of->programs[find_program(of, target)];

	if (loaded < 0)
		errx(1, "the program %s stands in a map and is not loaded: its section begins with ?", target);
	return loaded;
}

/* Puts maps into maps of maps, once all are made, or programs into arrays of programs, once all are loaded. */
void put_initial(const struct loading *of, int are_programs)
{
	struct ebpf_initial_slot row;
	const char *map;

	check(of, "initial values of maps", ebpf_initial_slots(of->object, of->file.at, of->file.len, NULL));
	for (size_t at = 0; (map = ebpf_initial_slot_at(of->object, at, &row)); at++) {
		const char *target = map + row.target_at;

		if (are_programs && row.is_program)
			put(of, map, row.index, target, loaded_program(of, target));
		else if (!are_programs && !row.is_program)
			put(of, map, row.index, target, of->maps[find_map(of, target)]);
	}
}

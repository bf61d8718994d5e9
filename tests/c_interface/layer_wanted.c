/* What an object wants of its loader: descriptors of maps, and the kernel's symbols. */
#include "layer.h"

/* How many slots of the object refer to a map by a name, and the first of them. */
static size_t slots_of(const struct ebpf_handle *of, const char *name, struct ebpf_map_slot *first)
{
	struct ebpf_map_slot row;
	const char *found;
	size_t count = 0;

	for (size_t at = 0; (found = ebpf_map_without_descriptor_at(of, at, &row)); at++) {
		CHECK("slots", strlen(found) == row.name_len && row.name_at == 0);
		if (strcmp(found, name))
			continue;
		if (!count++)
			*first = row;
	}
	return count;
}

/* A slot that is listed refers to a map: with the pass of maps it is changed. */
static int is_load(const struct ebpf_handle *of, const struct ebpf_map_slot *slot)
{
	struct ebpf_program program;

	for (size_t at = 0; ebpf_program_at(of, at, &program); at++) {
		size_t count = 0;
		const struct ebpf_insn *slots = ebpf_program_slots(of, at, &count);

		if (program.section == slot->section && program.address == slot->address)
			return slots && slot->slot < count && slots[slot->slot].code == 0x18;
	}
	return 1; /* of a function that is no program */
}

static void check_slots(const struct bytes *file)
{
	struct ebpf_handle *of = object_of(file);
	struct ebpf_descriptor rows[] = { { "counts", 6, 1 }, { "none", 4, 2 }, { "tables", 6, 3 }, { ".bss", 4, 4 }, { ".rodata", 7, 5 } };
	struct ebpf_map_slot row, first;
	size_t all = 77, some = 77, none = 77, of_counts, of_bss;

	CHECK("slots", !ebpf_map_without_descriptor_at(of, 0, &row) && is_last(of, EBPF_NO_ROW));
	CHECK("slots", ebpf_maps_without_descriptors(of, NULL, 0, &all) == EBPF_DONE && all && is_last(of, EBPF_DONE));
	of_counts = slots_of(of, "counts", &first);
	CHECK("slots", of_counts && is_load(of, &first));
	of_bss = slots_of(of, ".bss", &first);
	CHECK("slots", of_bss && is_load(of, &first));
	CHECK("slots", !ebpf_map_without_descriptor_at(of, all, NULL) && is_last(of, EBPF_NO_ROW));
	/* a row takes the slots of its map from the list, and one of another name none */
	CHECK("slots", ebpf_maps_without_descriptors(of, rows, 2, &some) == EBPF_DONE && some == all - of_counts);
	CHECK("slots", slots_of(of, "counts", &first) == 0 && slots_of(of, ".bss", &first) == of_bss);
	CHECK("slots", ebpf_maps_without_descriptors(of, rows, 5, &none) == EBPF_DONE && none == 0);
	CHECK("slots", !ebpf_map_without_descriptor_at(of, 0, NULL) && is_last(of, EBPF_NO_ROW));
	/* the first is what preparing is refused about */
	CHECK("slots", ebpf_maps_without_descriptors(of, rows, 1, NULL) == EBPF_DONE);
	CHECK("slots", ebpf_map_without_descriptor_at(of, 0, NULL) != NULL);
	CHECK("slots", ebpf_prepare_handle(of, NULL) == EBPF_MAPS_MISSING_DESCRIPTOR);
	CHECK("slots", !ebpf_map_without_descriptor_at(of, 0, NULL) && is_last(of, EBPF_NO_ROW));
	ebpf_close(of);
}

/* The first slot is that whose map preparing is refused about. */
static void check_first(const struct bytes *file)
{
	struct ebpf_handle *of = object_of(file);
	char name[64] = "";
	size_t count = 0;

	CHECK("the first slot", ebpf_maps_without_descriptors(of, NULL, 9, &count) == EBPF_DONE);
	if (count)
		strncpy(name, ebpf_map_without_descriptor_at(of, 0, NULL), sizeof(name) - 1);
	if (count) {
		CHECK("the first slot", ebpf_prepare_handle(of, NULL) == EBPF_MAPS_MISSING_DESCRIPTOR);
		CHECK("the first slot", !strcmp(ebpf_last_error(of)->name, name));
	} else {
		CHECK("the first slot", ebpf_prepare_handle(of, NULL) != EBPF_MAPS_MISSING_DESCRIPTOR);
	}
	ebpf_close(of);
}

static void check_refused(const struct bytes *file)
{
	struct ebpf_handle *of = object_of(file), *closed = NULL;
	struct ebpf_descriptor rows[] = { { "counts", 6, 1 }, { "\xff", 1, 2 }, { NULL, 7, 3 } };
	size_t count = 77;

	CHECK("slots", ebpf_maps_without_descriptors(of, rows, 2, &count) == EBPF_BAD_NAME && is_last(of, EBPF_BAD_NAME));
	CHECK("slots", count == 77 && !ebpf_map_without_descriptor_at(of, 0, NULL));
	rows[1] = rows[2];
	CHECK("slots", ebpf_maps_without_descriptors(of, rows, 2, &count) == EBPF_DONE && count != 77);
	rows[0].name_len = SIZE_MAX;
	CHECK("slots", ebpf_maps_without_descriptors(of, rows, 1, &count) == EBPF_MEMORY && is_last(of, EBPF_MEMORY));
	CHECK("slots", ebpf_maps_without_descriptors(NULL, rows, 1, &count) == EBPF_CLOSED);
	CHECK("ebpf_open", ebpf_open(NULL, 0, NULL, &closed) == EBPF_PARSE_TOO_SHORT);
	CHECK("slots", ebpf_maps_without_descriptors(closed, rows, 1, NULL) == EBPF_CLOSED && is_last(closed, EBPF_CLOSED));
	CHECK("slots", !ebpf_map_without_descriptor_at(closed, 0, NULL) && is_last(closed, EBPF_CLOSED));
	CHECK("slots", !ebpf_map_without_descriptor_at(NULL, 0, NULL));
	ebpf_close(closed);
	ebpf_close(of);
}

/* The proved call, with so much room: it writes all or nothing, and says how much there is. */
static void check_room(const struct bytes *file)
{
	struct ebpf_handle *of = object_of(file);
	struct exact_descriptor none[1];
	struct ebpf_counts need = { 0, 0 };
	uint8_t nothing[1];

	memset(none, 0, sizeof(none));
	CHECK("room", exact_ebpf_maps_without_descriptors(EXACT(of), none, 0, nothing, 0, (void *)nothing, 0, nothing, 0,
							  &need) == EBPF_ROOM);
	for (size_t less = 0; less < 4; less++) {
		struct ebpf_counts room = { need.rows - (less & 1), need.text - (less >> 1) }, counts = { 77, 78 };
		uint8_t *rows = zeros(need.rows, sizeof(struct ebpf_map_slot)), *text = zeros(need.text, 1);
		struct ebpf_map_slot first;
		uint32_t number;

		memset(rows, 0x55, need.rows * sizeof(struct ebpf_map_slot));
		memset(text, 0x55, need.text);
		number = exact_ebpf_maps_without_descriptors(EXACT(of), none, 0, nothing, 0, (void *)rows, room.rows, text,
							     room.text, &counts);
		CHECK("room", number == (less ? EBPF_ROOM : EBPF_DONE));
		CHECK("room", counts.rows == need.rows && counts.text == need.text);
		memcpy(&first, rows, sizeof(first));
		if (less)
			CHECK("room", is_filled(rows, rows + need.rows * sizeof(first)) && is_filled(text, text + need.text));
		else
			CHECK("room", first.name_at == 0 && strlen((char *)text) == first.name_len);
		free(rows);
		free(text);
	}
	ebpf_close(of);
}

/* Whether the object has types, and an extern without a type that is not found. */
static uint32_t wants(const struct ebpf_handle *of)
{
	struct ebpf_object_info info = { 0 };
	struct ebpf_extern row;

	if (ebpf_info(of, &info) != EBPF_DONE || !info.has_types)
		return 0;
	for (size_t at = 0; ebpf_extern_at(of, at, &row); at++)
		if (!row.is_typed && !row.is_resolved)
			return 1;
	return 0;
}

static void check_symbols(const struct bytes *file)
{
	struct ebpf_handle *of = object_of(file);
	uint32_t asked = 77;

	CHECK("ebpf_wants_symbols", ebpf_wants_symbols(of, &asked) == EBPF_DONE && asked == wants(of));
	CHECK("ebpf_wants_symbols", ebpf_wants_symbols(of, NULL) == EBPF_DONE && is_last(of, EBPF_DONE));
	ebpf_close(of);
	asked = 77;
	CHECK("ebpf_wants_symbols", ebpf_wants_symbols(NULL, &asked) == EBPF_CLOSED && asked == 77);
	CHECK("ebpf_open", ebpf_open(NULL, 0, NULL, &of) == EBPF_PARSE_TOO_SHORT);
	CHECK("ebpf_wants_symbols", ebpf_wants_symbols(of, &asked) == EBPF_CLOSED && asked == 77 && is_last(of, EBPF_CLOSED));
	ebpf_close(of);
}

void check_wanted(const struct layer_files *files)
{
	const struct bytes *all[] = { &files->small, &files->counter, &files->loaded, &files->no_kind };

	check_slots(&files->counter);
	check_refused(&files->counter);
	check_room(&files->counter);
	for (size_t at = 0; at < 4; at++) {
		check_first(all[at]);
		check_symbols(all[at]);
	}
}

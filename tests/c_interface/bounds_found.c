/* One thing by its name, link maps, what records come to, and verdicts. */
#include "checked.h"
#include "told.h"

/* ---- one map or program */

typedef uint32_t find_call(struct ebpf_handle *, const char *, size_t, void *);

static uint32_t map_row(struct ebpf_handle *of, const char *name, size_t len, void *row)
{
	return ebpf_find_map(of, name, len, row);
}

static uint32_t program_row(struct ebpf_handle *of, const char *name, size_t len, void *row)
{
	return ebpf_find_program(of, name, len, row);
}

struct find {
	const char *name;
	find_call *call;
	size_t row;
	uint32_t unknown; /* what is answered where nothing has the name */
};

static const struct find maps = { "ebpf_find_map", map_row, sizeof(struct ebpf_map), EBPF_NO_MAP };
static const struct find programs = { "ebpf_find_program", program_row, sizeof(struct ebpf_program), EBPF_NO_PROGRAM };

static void check_not_found(const struct find *find, struct ebpf_handle *of, const char *name, size_t len, uint32_t wanted)
{
	struct guarded held = guarded_copy(name, len), row = guarded(find->row);

	CHECK(find->name, find->call(of, (char *)held.at, len, row.at) == wanted);
	CHECK(find->name, is_untouched(&row, 0));
	release(&held);
	release(&row);
}

static void check_find(const struct find *find, struct ebpf_handle *of, const char *name)
{
	struct ebpf_handle *closed = NULL;
	struct guarded held = guarded_copy(name, strlen(name)), row = guarded(find->row);
	size_t place[2];

	CHECK(find->name, find->call(of, (char *)held.at, held.size, row.at) == EBPF_DONE);
	memcpy(place, row.at, sizeof(place));
	CHECK(find->name, place[0] == 0 && place[1] == held.size && is_untouched(&row, find->row));
	check_not_found(find, closed, name, strlen(name), EBPF_CLOSED);
	CHECK(find->name, !closed);
	check_not_found(find, of, "", 0, find->unknown);
	check_not_found(find, of, "nosuch", 6, find->unknown);
	check_not_found(find, of, name, strlen(name) - 1, find->unknown);
	check_not_found(find, of, "\xff\xfe", 2, find->unknown);
	release(&held);
	release(&row);
}

static void check_found(const struct guarded *file, const char *program, const char *map)
{
	struct ebpf_handle *object = opened(file);

	check_find(&maps, object, map);
	check_find(&programs, object, program);
	check_not_found(&maps, object, program, strlen(program), EBPF_NO_MAP);
	check_not_found(&programs, object, map, strlen(map), EBPF_NO_PROGRAM);
	ebpf_close(object);
}

/* ---- link maps */

static uint32_t link_map(struct ebpf_handle *of, void *rows, size_t room, char *text, size_t text_room,
			 struct ebpf_counts *counts, char *about, size_t about_room, struct ebpf_refusal *refusal)
{
	return exact_ebpf_link_map(EXACT(of), "p", 1, rows, room, text, text_room, counts, about, about_room, refusal);
}

static const struct told_list copies = { "ebpf_link_map", link_map, sizeof(struct ebpf_code_copy), 1 };

/* References with so much room, where there is one. */
static void check_references(struct ebpf_handle *of, size_t room)
{
	struct guarded rows = guarded(room * sizeof(struct ebpf_code_reference)), about = guarded(8);
	struct ebpf_refusal refusal = unwritten();
	size_t count = 77;
	uint32_t number = exact_ebpf_link_references(EXACT(of), "p", 1, (void *)rows.at, room, &count, about.at, 8,
						     &refusal);
	struct ebpf_code_reference row = { 0 };

	CHECK("ebpf_link_references", number == (room ? EBPF_DONE : EBPF_ROOM));
	CHECK("ebpf_link_references", room ? is_unwritten(&refusal) : is_told(&refusal, EBPF_ROOM, 0));
	CHECK("ebpf_link_references", count == 1 && is_untouched(&about, 0));
	CHECK("ebpf_link_references", is_untouched(&rows, room ? sizeof(row) : 0));
	if (room) {
		memcpy(&row, rows.at, sizeof(row));
		CHECK("ebpf_link_references", row.slot == 0 && row.base == 2 && row.is_call == 1);
	}
	release(&rows);
	release(&about);
}

/* Both calls answer a number, and leave all as it is but for what the refusal is about. */
static void check_link_refused(struct ebpf_handle *of, const char *name, size_t len, uint32_t wanted)
{
	struct guarded held = guarded_copy(name, len), rows = guarded(96), text = guarded(8), about = guarded(8);
	struct ebpf_counts counts = { 77, 78 };
	struct ebpf_refusal refusal = unwritten();
	size_t count = 77;
	char *told = (char *)about.at;

	CHECK("ebpf_link_map", exact_ebpf_link_map(EXACT(of), held.at, len, (void *)rows.at, 2, text.at, 8, &counts, told, 8,
						   &refusal) == wanted);
	CHECK("ebpf_link_map", counts.rows == 77 && counts.text == 78 && is_told(&refusal, wanted, 0));
	refusal = unwritten();
	CHECK("ebpf_link_references",
	      exact_ebpf_link_references(EXACT(of), held.at, len, (void *)rows.at, 4, &count, told, 8, &refusal) == wanted);
	CHECK("ebpf_link_references", count == 77 && is_told(&refusal, wanted, 0));
	CHECK("ebpf_link_map", is_untouched(&rows, 0) && is_untouched(&text, 0) && is_untouched(&about, 0));
	release(&held);
	release(&rows);
	release(&text);
	release(&about);
}

static void check_link_maps(const struct guarded *file)
{
	struct ebpf_handle *object = opened(file), *closed = NULL;

	check_told_list(&copies, object);
	check_references(object, 0);
	check_references(object, 1);
	check_references(object, 4);
	check_link_refused(closed, "p", 1, EBPF_CLOSED);
	CHECK("ebpf_link_map", !closed);
	check_link_refused(object, "", 0, EBPF_NO_PROGRAM);
	check_link_refused(object, "f", 1, EBPF_NO_PROGRAM);
	check_link_refused(object, "pp", 2, EBPF_NO_PROGRAM);
	check_link_refused(object, "\xff", 1, EBPF_NO_PROGRAM);
	ebpf_close(object);
}

/* ---- what records come to */

static const struct guarded *given; /* a kernel's types */

static uint32_t outcomes(struct ebpf_handle *of, void *rows, size_t room, char *text, size_t text_room,
			 struct ebpf_counts *counts, char *about, size_t about_room, struct ebpf_refusal *refusal)
{
	return exact_ebpf_record_outcomes(EXACT(of), given->at, given->size, rows, room, text, text_room, counts, about, about_room,
				    refusal);
}

static const struct told_list records = { "ebpf_record_outcomes", outcomes, sizeof(struct ebpf_record_outcome), 1 };

static void check_outcomes(const struct guarded *file, const struct guarded *types)
{
	struct ebpf_handle *object = opened(file);
	struct guarded none = guarded(0), about = guarded(8);
	struct ebpf_counts counts = { 77, 78 };
	struct ebpf_refusal refusal = unwritten();

	given = types;
	check_told_list(&records, object);
	CHECK("ebpf_record_outcomes",
	      exact_ebpf_record_outcomes(EXACT(object), none.at, 0, (void *)none.at, 0, none.at, 0, &counts, about.at, 8,
					 &refusal) == EBPF_TYPES_READ_INVALID_HEADER);
	CHECK("ebpf_record_outcomes", is_told(&refusal, EBPF_TYPES_READ_INVALID_HEADER, 0));
	CHECK("ebpf_record_outcomes", counts.rows == 77 && counts.text == 78 && is_untouched(&about, 0));
	ebpf_close(object);
	release(&none);
	release(&about);
}

/* ---- the verdict of a kernel */

static struct ebpf_btf *read_types;
static struct ebpf_verdict_summary summary;

static uint32_t reasons_of(struct ebpf_handle *of, void *rows, size_t room, char *text, size_t text_room,
			   struct ebpf_counts *counts, char *about, size_t about_room, struct ebpf_refusal *refusal)
{
	return exact_ebpf_check(EXACT(of), (struct exact_btf *)read_types, rows, room, text, text_room, counts, &summary, about,
				about_room, refusal);
}

static const struct told_list reasons = { "ebpf_check", reasons_of, sizeof(struct ebpf_reason), 2 };

static void check_verdict(const struct guarded *file, const struct guarded *types)
{
	struct ebpf_handle *object = opened(file);
	struct guarded none = guarded(0), about = guarded(8), told = guarded(sizeof(summary));
	struct ebpf_counts counts = { 77, 78 };
	struct ebpf_refusal refusal = unwritten();
	struct exact_btf no_types = { NULL };

	CHECK("ebpf_check", ebpf_btf_open(types->at, types->size, &read_types) == EBPF_DONE);
	check_told_list(&reasons, object);
	CHECK("ebpf_check", exact_ebpf_check(EXACT(object), &no_types, (void *)none.at, 0, none.at, 0, &counts, (void *)told.at,
					     about.at, 8, &refusal) == EBPF_CLOSED);
	CHECK("ebpf_check", is_told(&refusal, EBPF_CLOSED, 0) && counts.rows == 77 && counts.text == 78);
	CHECK("ebpf_check", is_untouched(&about, 0) && is_untouched(&told, 0));
	refusal = unwritten();
	/* the summary is written where rows have no room */
	CHECK("ebpf_check", exact_ebpf_check(EXACT(object), (struct exact_btf *)read_types, (void *)none.at, 0, none.at, 0,
					     &counts, (void *)told.at, about.at, 8, &refusal) == EBPF_ROOM);
	CHECK("ebpf_check", is_told(&refusal, EBPF_ROOM, 0) && is_untouched(&about, 0) && is_untouched(&told, sizeof(summary)));
	memcpy(&summary, told.at, sizeof(summary));
	CHECK("ebpf_check", summary.reasons == counts.rows && summary.verdict == EBPF_VERDICT_BREAKS);
	CHECK("ebpf_check", summary.programs_break > 0 && summary.programs_without_target == 0);
	ebpf_btf_close(read_types);
	ebpf_close(object);
	release(&none);
	release(&about);
	release(&told);
}

void check_found_calls(const struct guarded *small, const struct guarded *counter, const struct guarded *types)
{
	check_found(counter, "on_packet", "counts");
	check_link_maps(small);
	check_outcomes(counter, types);
	check_verdict(counter, types);
}

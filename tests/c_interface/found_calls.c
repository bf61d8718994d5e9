#include "found_calls.h"
#include "told.h"

/* How many rows a list has at most here. */
#define FEW 256

/* ---- one map or program by its name */

static int64_t put_map(const struct made_on *on, const char *name)
{
	struct ebpf_map row, before;
	uint32_t number;

	memset(&row, 0x55, sizeof(row));
	before = row;
	number = ebpf_find_map(on->object, name, strlen(name), &row);
	if (number == EBPF_DONE)
		printf("map %.*s section %zu kind %u type %u entries %u data %zu inner %u\n", (int)row.name_len,
		       name + row.name_at, row.section, row.section_kind, row.shape.type, row.shape.max_entries,
		       row.data_len, row.has_inner);
	else if (memcmp(&row, &before, sizeof(row)))
		errx(3, "ebpf_find_map writes and refuses");
	return number;
}

static int64_t put_program(const struct made_on *on, const char *name)
{
	struct ebpf_program row, before;
	uint32_t number;

	memset(&row, 0x55, sizeof(row));
	before = row;
	number = ebpf_find_program(on->object, name, strlen(name), &row);
	if (number == EBPF_DONE)
		printf("program %.*s section %zu address %llu slots %zu kind %u flags %u type %u\n", (int)row.name_len,
		       name + row.name_at, row.section, (unsigned long long)row.address, row.slots, row.kind, row.flags,
		       row.program_type);
	else if (memcmp(&row, &before, sizeof(row)))
		errx(3, "ebpf_find_program writes and refuses");
	return number;
}

/* ---- what a program is made of */

static int64_t put_copies(const struct made_on *on, const char *name)
{
	struct ebpf_code_copy row;
	size_t count = 0, at = 0;
	uint32_t number = ebpf_link_map(on->object, name, strlen(name), &count);
	const char *function;

	for (; number == EBPF_DONE && (function = ebpf_code_copy_at(on->object, at, &row)); at++) {
		if (strlen(function) != row.name_len)
			errx(3, "a name that does not end where its row says");
		printf("copy %s at %zu slots %zu section %zu address %llu\n", function, row.base, row.slots, row.section,
		       (unsigned long long)row.address);
	}
	if (at != count)
		errx(3, "%zu copies in place of %zu", at, count);
	return number;
}

static int64_t put_references(const struct made_on *on, const char *name)
{
	static struct ebpf_code_reference rows[FEW];
	size_t count = 0;
	uint32_t number = ebpf_link_references(on->object, name, strlen(name), rows, FEW, &count);

	for (size_t at = 0; at < count; at++)
		printf("reference %zu to %zu call %u\n", rows[at].slot, rows[at].base, rows[at].is_call);
	return number;
}

/* ---- what is told of a program, and what it is once it is linked */

struct told {
	struct ebpf_code_copy *copies;
	struct ebpf_code_reference *references;
	size_t copies_len, references_len;
	uint32_t number;
	char about[128];
	struct ebpf_refusal refusal;
};

/* Keeps the error of a call on a handle. */
static void keep_error(struct told *told, const struct ebpf_handle *object)
{
	const struct ebpf_error *error = ebpf_last_error(object);

	told->refusal = error->refusal;
	snprintf(told->about, sizeof(told->about), "%s", error->name);
}

static struct told told_of(const struct made_on *on, const char *name, size_t len)
{
	struct told told = { NULL, zeros(0, 1), 0, 0, 0, { 0 }, { 0 } };
	uint32_t number;

	told.number = ebpf_link_map(on->object, name, len, &told.copies_len);
	keep_error(&told, on->object);
	if (told.number != EBPF_DONE)
		return told;
	told.copies = zeros(told.copies_len, sizeof(*told.copies));
	for (size_t at = 0; at < told.copies_len; at++)
		if (!ebpf_code_copy_at(on->object, at, &told.copies[at]))
			errx(3, "a copy is not there");
	number = ebpf_link_references(on->object, name, len, told.references, 0, &told.references_len);
	if (number == EBPF_ROOM) {
		free(told.references);
		told.references = zeros(told.references_len, sizeof(*told.references));
		number = ebpf_link_references(on->object, name, len, told.references, told.references_len,
					      &told.references_len);
	}
	if (number != told.number)
		errx(3, "ebpf_link_map answers %u, and ebpf_link_references %u", told.number, number);
	return told;
}

/* The slots of a linked program: the copies stand one behind the other, and each reference leads to the one that was told. */
static void need_as_told(const struct made_on *on, const struct told *told, const char *name, size_t len)
{
	size_t end = 0, count = 0;
	struct ebpf_insn *slots;
	char *begins;

	for (size_t at = 0; at < told->copies_len; end += told->copies[at++].slots)
		if (told->copies[at].base != end)
			errx(3, "copy %zu begins at %zu, in place of %zu", at, told->copies[at].base, end);
	slots = zeros(end, sizeof(*slots));
	begins = zeros(end, 1);
	for (size_t at = 0; at < told->copies_len; at++)
		begins[told->copies[at].base] = 1;
	if (ebpf_slots(on->object, name, len, slots, end, &count) != EBPF_DONE || count != end)
		errx(3, "%zu slots, in place of %zu", count, end);
	for (size_t at = 0; at < told->references_len; at++) {
		const struct ebpf_code_reference *row = &told->references[at];
		const struct ebpf_insn *slot = &slots[row->slot];

		if (row->slot >= end || row->base >= end || !begins[row->base] || row->is_call != (slot->code == 0x85))
			errx(3, "slot %zu is no such reference", row->slot);
		if ((int64_t)row->slot + 1 + slot->imm != (int64_t)row->base)
			errx(3, "slot %zu does not lead to %zu", row->slot, row->base);
	}
	free(slots);
	free(begins);
}

/* The refusal of linking is that of the first program whose link map is refused. */
static void need_same_refusal(const struct made_on *on, const struct told *told, size_t count, uint32_t number)
{
	const struct ebpf_error *error;
	size_t first = 0;

	while (first < count && told[first].number == EBPF_DONE)
		first++;
	if (first == count && number == EBPF_DONE)
		return;
	error = ebpf_last_error(on->object);
	if (first == count || memcmp(&error->refusal, &told[first].refusal, sizeof(error->refusal)) ||
	    strcmp(error->name, told[first].about))
		errx(3, "linking answers %u, and link maps do not", number);
}

uint32_t link_as_told(const struct made_on *on)
{
	struct ebpf_counts counts = { 0, 0 };
	struct ebpf_program *rows = zeros(0, sizeof(*rows));
	char *text = zeros(0, 1);
	struct told *told;
	uint32_t number;

	if (ebpf_programs(on->object, rows, 0, text, 0, &counts) == EBPF_ROOM) {
		free(rows);
		free(text);
		rows = zeros(counts.rows, sizeof(*rows));
		text = zeros(counts.text, 1);
		if (ebpf_programs(on->object, rows, counts.rows, text, counts.text, &counts) != EBPF_DONE)
			errx(3, "programs are not listed");
	}
	told = zeros(counts.rows, sizeof(*told));
	for (size_t at = 0; at < counts.rows; at++)
		told[at] = told_of(on, text + rows[at].name_at, rows[at].name_len);
	number = ebpf_relocate_calls(on->object);
	if (on->object && number != EBPF_PASS_MADE)
		need_same_refusal(on, told, counts.rows, number);
	for (size_t at = 0; at < counts.rows; at++) {
		if (number == EBPF_DONE)
			need_as_told(on, &told[at], text + rows[at].name_at, rows[at].name_len);
		free(told[at].copies);
		free(told[at].references);
	}
	free(told);
	free(rows);
	free(text);
	return number;
}

/* ---- calls by their names */

int64_t found_call(const struct made_on *on, const char *name, char *rest)
{
	const char *of = rest ? rest : "";

	if (!strcmp(name, "find_map"))
		return put_map(on, of);
	if (!strcmp(name, "find_program"))
		return put_program(on, of);
	if (!strcmp(name, "link_map"))
		return put_copies(on, of);
	if (!strcmp(name, "link_references"))
		return put_references(on, of);
	return -1;
}

int64_t ask_found_call(const struct made_on *on, const char *call, const char *name, struct room *room)
{
	size_t len = strlen(name), rows = room->bytes / 128;

	if (!strcmp(call, "find_map"))
		return ebpf_find_map(on->object, name, len, (void *)room->rows);
	if (!strcmp(call, "find_program"))
		return ebpf_find_program(on->object, name, len, (void *)room->rows);
	if (!strcmp(call, "link_map"))
		return ebpf_link_map(on->object, name, len, NULL);
	if (!strcmp(call, "link_references"))
		return ebpf_link_references(on->object, name, len, (void *)room->rows, rows, &room->count);
	return -1;
}

/*
 * Opens objects by lenient parsing of the library for C, asks each list of them, runs the passes over them, and drops
 * them.
 *
 * usage: passes < INPUTS      an input is four numbers of 32 bits, lengths of an object, of types and of symbols (2^32 - 1:
 * none) and a number that says what is done beside the passes, and the bytes of the three
 *
 * Writes a line for each input once it is done with it: the stage that refused, or `done`; behind a tab, where a call
 * answers what the header doesn't allow, what is wrong. The object, the types, the symbols and each buffer end where a
 * page begins that can't be touched. What is taken has to be freed at the end of each input.
 */
#define _GNU_SOURCE
#include "ebpf.h"
#include "parts.h"
#include <stdarg.h>
#include <string.h>
#include <unistd.h>

/* How long an input may take, in seconds. */
#define SECONDS 10

static struct part object_part, types_part, symbols_part, rows_part, text_part;

/* What is wrong with an input first; and whether a call found no memory, behind which nothing is asked of it. */
static char wrong[200];
static int lacked;

static void say(const char *form, ...)
{
	va_list rest;

	if (wrong[0] || lacked)
		return;
	va_start(rest, form);
	vsnprintf(wrong, sizeof(wrong), form, rest);
	va_end(rest);
}

struct bytes {
	const uint8_t *at;
	size_t len;
	int given;
};

static struct bytes file, types, symbols;
static uint32_t how;

/* What was listed since this was 0, in one number. */
static uint64_t mixed;

static void mix(const void *bytes, size_t len)
{
	for (size_t at = 0; at < len; at++)
		mixed = (mixed ^ ((const uint8_t *)bytes)[at]) * 0x100000001b3;
}

/* The number of an answer. */
static uint32_t noted(uint32_t number)
{
	lacked |= number == EBPF_MEMORY;
	return number;
}

/* A number of an answer, which has to be in one of two ranges where it is not 0. */
static uint32_t in_ranges(const char *call, uint32_t number, uint32_t first, uint32_t last, uint32_t other, uint32_t end)
{
	char name[64] = { 0 };
	size_t len = 0;

	if (noted(number) == EBPF_DONE)
		return number;
	if (!(number >= first && number <= last) && !(number >= other && number <= end))
		say("%s answers %u", call, number);
	if (ebpf_number_name(number, name, sizeof(name), &len) != EBPF_DONE || !len)
		say("%s answers %u, which has no name", call, number);
	return number;
}

/* The number of a call that was given no room. */
static void without_room(const char *call, uint32_t number)
{
	if (noted(number) != EBPF_ROOM && number != EBPF_DONE)
		say("%s answers %u", call, number);
}

/* The number of a call that was given the room that it asked for. */
static void with_room(const char *call, uint32_t number)
{
	if (noted(number) != EBPF_DONE)
		say("%s answers %u with the room that it asked for", call, number);
}

/* Asks a call that lists for its list, with the room that it asks for and no more; for none where that is too much. */
#define LISTED(call, object, list, names, counts)                                                                 \
	do {                                                                                                      \
		without_room(#call, call(object, room(rows_part, 0), 0, room(text_part, 0), 0, &(counts)));       \
		(list) = room(rows_part, (counts).rows * sizeof(*(list)));                                        \
		(names) = room(text_part, (counts).text);                                                         \
		if ((list) && (names))                                                                            \
			with_room(#call, call(object, list, (counts).rows, names, (counts).text, &(counts)));     \
		if (!(list) || !(names) || lacked)                                                                \
			(counts).rows = (counts).text = 0;                                                        \
	} while (0)

/* The same of a call that lists something of what has a name. Gives how many there are. */
#define NAMED(call, object, name, name_len, type)                                                                 \
	({                                                                                                        \
		size_t count = 0;                                                                                 \
		type *found;                                                                                      \
                                                                                                                  \
		without_room(#call, call(object, name, name_len, room(rows_part, 0), 0, &count));                 \
		found = room(rows_part, count * sizeof(type));                                                    \
		if (found) {                                                                                      \
			with_room(#call, call(object, name, name_len, found, count, &count));                     \
			mix(found, count * sizeof(type));                                                         \
		}                                                                                                 \
		count;                                                                                            \
	})

/* Whether a row's name lies inside the text, and a zero byte behind it. */
static void is_inside(const char *call, const char *text, const struct ebpf_counts *counts, size_t at, size_t len)
{
	if (at >= counts->text || len >= counts->text - at || text[at + len])
		say("%s has a name at %zu of %zu bytes outside its text", call, at, len);
}

/* Texts that names are looked up by have to stay while other lists are asked for: copies of theirs. */
static char *copy_of(const char *text, size_t size)
{
	char *copy = malloc(size + 1);

	if (!copy)
		stop("memory");
	memcpy(copy, text, size);
	return copy;
}

static void list_info(struct ebpf_handle *object)
{
	struct ebpf_object_info info = { 0 };
	uint32_t number = ebpf_info(object, &info);
	size_t len = 0;

	if (number != EBPF_DONE || info.is_big_endian > 1 || info.has_types > 1 || info.has_relocations > 1)
		say("ebpf_info answers %u", number);
	without_room("ebpf_license", ebpf_license(object, room(text_part, 0), 0, &len));
	if (room(text_part, len))
		with_room("ebpf_license", ebpf_license(object, room(text_part, len), len, &len));
}

/* Asks for each list of each program. */
static void list_programs(struct ebpf_handle *object)
{
	struct ebpf_program *rows, *kept;
	struct ebpf_counts counts = { 0, 0 };
	char *text, *names;

	LISTED(ebpf_programs, object, rows, text, counts);
	kept = (void *)copy_of((void *)rows, counts.rows * sizeof(*rows));
	names = copy_of(text, counts.text);
	mix(names, counts.text);
	for (size_t at = 0; at < counts.rows; at++) {
		const char *name = names + kept[at].name_at;
		size_t len = kept[at].name_len;

		is_inside("ebpf_programs", names, &counts, kept[at].name_at, len);
		mix(&kept[at].kind, sizeof(kept[at].kind));
		if (kept[at].kind > EBPF_KIND_OTHER)
			say("a program of the kind %u", kept[at].kind);
		if (NAMED(ebpf_slots, object, name, len, struct ebpf_insn) != kept[at].slots)
			say("a program has other slots than its row says");
		NAMED(ebpf_func_infos, object, name, len, struct ebpf_func_info);
		NAMED(ebpf_line_infos, object, name, len, struct ebpf_line_info);
		NAMED(ebpf_program_section, object, name, len, char);
	}
	free(kept);
	free(names);
}

static void list_maps(struct ebpf_handle *object)
{
	struct ebpf_map *rows, *kept;
	struct ebpf_counts counts = { 0, 0 };
	char *text, *names;

	LISTED(ebpf_maps, object, rows, text, counts);
	kept = (void *)copy_of((void *)rows, counts.rows * sizeof(*rows));
	names = copy_of(text, counts.text);
	for (size_t at = 0; at < counts.rows; at++) {
		is_inside("ebpf_maps", names, &counts, kept[at].name_at, kept[at].name_len);
		if (NAMED(ebpf_map_data, object, names + kept[at].name_at, kept[at].name_len, uint8_t) != kept[at].data_len)
			say("a map has other data than its row says");
	}
	free(kept);
	free(names);
}

static void list_others(struct ebpf_handle *object)
{
	struct ebpf_counts counts = { 0, 0 };
	struct ebpf_extern *externs;
	struct ebpf_section *sections;
	char *text;

	LISTED(ebpf_externs, object, externs, text, counts);
	for (size_t at = 0; at < counts.rows; at++)
		is_inside("ebpf_externs", text, &counts, externs[at].name_at, externs[at].name_len);
	LISTED(ebpf_sections, object, sections, text, counts);
	for (size_t at = 0; at < counts.rows; at++)
		is_inside("ebpf_sections", text, &counts, sections[at].name_at, sections[at].name_len);
}

/* Asks for all lists; what they say in one number. */
static uint64_t list_all(struct ebpf_handle *object)
{
	mixed = 0;
	list_info(object);
	list_maps(object);
	list_others(object);
	list_programs(object);
	return mixed;
}

/* What the handle keeps is what the calls with buffers list: the names and the slots of programs, and the data of maps. */
static void list_kept(struct ebpf_handle *object)
{
	struct ebpf_program program;
	struct ebpf_map map;
	const char *name;
	size_t count = 0, at = 0;

	for (; (name = ebpf_program_at(object, at, &program)) && !lacked; at++) {
		const struct ebpf_insn *slots = ebpf_program_slots(object, at, &count);

		if (noted(ebpf_last_error(object)->number) != EBPF_DONE && !lacked)
			say("ebpf_program_slots answers %u", ebpf_last_error(object)->number);
		if (strlen(name) != program.name_len || (slots && count != program.slots))
			say("a program is kept with another name or other slots");
	}
	if (noted(ebpf_last_error(object)->number) != EBPF_NO_ROW || at != ebpf_program_count(object))
		say("programs end by %u", ebpf_last_error(object)->number);
	for (at = 0; (name = ebpf_map_at(object, at, &map)) && !lacked; at++)
		if (!ebpf_map_contents(object, at, &count) ? noted(ebpf_last_error(object)->number) != EBPF_MEMORY :
							      count != map.data_len)
			say("a map is kept with other data");
	for (at = 0; ebpf_extern_at(object, at, NULL) && !lacked; at++)
		;
	for (at = 0; ebpf_section_at(object, at, NULL) && !lacked; at++)
		;
	for (at = 0; ebpf_variable_at(object, at, NULL) && !lacked; at++)
		;
	for (at = 0; ebpf_kconfig_at(object, at, NULL) && !lacked; at++)
		;
	lacked |= ebpf_last_error(object)->number == EBPF_MEMORY;
}

/* An answer of a call on a handle, in two ranges. The handle has it as its error, with the whole name. */
static uint32_t judged(const struct ebpf_handle *object, const char *call, uint32_t number, uint32_t first,
		       uint32_t last, uint32_t other, uint32_t end)
{
	const struct ebpf_error *error = ebpf_last_error(object);

	if (error->number != number || error->refusal.number != number)
		say("%s answers %u and the handle has %u", call, number, error->number);
	if (error->is_cut || strlen(error->name) != error->name_len || !ebpf_explain(object)[0])
		say("%s is about a name of %zu bytes that is cut", call, error->name_len);
	return in_ranges(call, number, first, last, other, end);
}

/* Gives descriptors 1, 2, .. to the maps, in the order of their list. */
static uint32_t write_map_fds(struct ebpf_handle *object)
{
	struct ebpf_counts counts = { 0, 0 };
	struct ebpf_map *maps;
	struct ebpf_descriptor *rows;
	uint32_t number;
	char *text;

	LISTED(ebpf_maps, object, maps, text, counts);
	rows = calloc(counts.rows + 1, sizeof(*rows));
	if (!rows)
		stop("memory");
	for (size_t at = 0; at < counts.rows; at++)
		rows[at] = (struct ebpf_descriptor){ text + maps[at].name_at, maps[at].name_len, (int32_t)at + 1 };
	number = ebpf_relocate_maps(object, rows, counts.rows);
	free(rows);
	return number;
}

/* Puts a copy in the place of the object, which has to say the same. */
static void copy(struct ebpf_handle **object)
{
	struct ebpf_handle *copied;
	uint64_t before = list_all(*object);

	with_room("ebpf_clone", ebpf_clone(*object, &copied));
	if (lacked)
		return;
	ebpf_close(*object);
	*object = copied;
	if (list_all(copied) != before)
		say("a copy is another object");
}

/* The number of a call about a map that may not be there. */
static void of_map(const char *call, uint32_t number)
{
	if (noted(number) != EBPF_DONE && number != EBPF_NO_MAP)
		say("%s answers %u", call, number);
}

/* What is done beside the passes: values, sizes, older helper functions, a copy. */
static void settings(struct ebpf_handle **opened)
{
	struct ebpf_handle *object = *opened;
	const char *variable = how & 2 ? "var0" : "seen", *map = how & 4 ? "map0" : "counts";
	uint32_t number;

	if (how & 1) {
		number = ebpf_set_value(object, variable, 4, file.at, how >> 16 & 15, how & 8);
		judged(object, "ebpf_set_value", number, 150, 152, 150, 152);
	}
	if (how & 16)
		of_map("ebpf_set_max_entries", ebpf_set_max_entries(object, map, strlen(map), how));
	if (how & 32)
		of_map("ebpf_set_value_size", ebpf_set_value_size(object, map, strlen(map), how));
	if (how & 128)
		with_room("ebpf_sanitize", ebpf_sanitize(object, 0));
	if (how & 1 << 20)
		copy(opened);
}

/* Whether a pass refused, behind which the object is as it was before. */
static int refused(struct ebpf_handle *object, const char *call, uint32_t number, uint32_t first, uint32_t last)
{
	static uint64_t before;
	int reads_types = first == 400;
	uint32_t answer = number;
	uint64_t now;

	if (first)
		answer = judged(object, call, number, first, last, reads_types ? 200 : first, reads_types ? 219 : last);
	now = list_all(object);
	if (answer && now != before)
		say("%s refuses and leaves another object", call);
	before = now;
	return number != EBPF_DONE;
}

/* Runs the passes up to the first that refuses; its name, or `done`. */
static const char *passes(struct ebpf_handle *object)
{
	uint32_t number = EBPF_DONE;

	refused(object, "", number, 0, 0);
	if (types.given)
		number = ebpf_relocate_types(object, types.at, types.len);
	if (types.given && refused(object, "ebpf_relocate_types", number, 200, 299))
		return number < 220 ? "btf" : "types";
	if (refused(object, "ebpf_relocate_maps", write_map_fds(object), 300, 399))
		return "maps";
	number = ebpf_resolve_externs(object, types.at, types.len, symbols.at, symbols.len);
	if (refused(object, "ebpf_resolve_externs", number, 400, 499))
		return number < 220 ? "btf" : "ksyms";
	if (refused(object, "ebpf_relocate_externs", ebpf_relocate_externs(object), 500, 599))
		return "externs";
	if (refused(object, "ebpf_relocate_calls", ebpf_relocate_calls(object), 600, 699))
		return "calls";
	return "done";
}

/* Opens the object as lenient parsing does, and does all with it. The stage that refused, or `done`. What is listed
 * at first is kept. */
static const char *broadly(uint64_t *first)
{
	struct ebpf_handle *object = NULL;
	uint32_t number = ebpf_open(file.at, file.len, NULL, &object);
	const char *stage = "parse";

	if (!judged(object, "ebpf_open", number, 100, 199, 100, 199)) {
		*first = list_all(object);
		list_kept(object);
		settings(&object);
		stage = passes(object);
		list_kept(object);
	} else if (object && ebpf_info(object, NULL) != EBPF_CLOSED) {
		say("a handle is open behind a refusal");
	}
	ebpf_close(object);
	return stage;
}

/* Whether both modes give one object: the file is little-endian, and for eBPF (247) or for no machine. */
static int modes_agree(void)
{
	uint32_t machine = file.at[18] | (uint32_t)file.at[19] << 8;

	return file.at[5] == 1 && (machine == 247 || !machine);
}

/* Reads the object as stated: of what it takes, lenient parsing gives the same. */
static void as_stated(const char *stage, uint64_t first)
{
	struct ebpf_open_options options = ebpf_open_defaults();
	struct ebpf_prepare_inputs inputs = {
		sizeof(inputs), types.at, types.len, NULL, 0, symbols.at, symbols.len, NULL
	};
	struct ebpf_handle *object = NULL;
	uint32_t number;

	options.parsing = EBPF_STRICT;
	number = ebpf_open(file.at, file.len, &options, &object);
	if (!judged(object, "ebpf_open", number, 100, 199, 100, 199) && modes_agree()) {
		if (!strcmp(stage, "parse"))
			say("lenient parsing refuses what the stated one takes");
		else if (list_all(object) != first)
			say("lenient parsing gives another object than the stated one");
	}
	ebpf_close(object);
	object = NULL;
	if (how & 64) {
		number = ebpf_prepare(file.at, file.len, &inputs, &object);
		judged(object, "ebpf_prepare", number, 100, 299, 300, 699);
	}
	ebpf_close(object);
}

static struct bytes given(struct part part, uint32_t len)
{
	struct bytes read = { room(part, 0), 0, len != UINT32_MAX };

	if (!read.given)
		return read;
	read.at = room(part, len);
	read.len = len;
	if (!read.at || fread((void *)read.at, 1, len, stdin) != len)
		stop("an input that is cut");
	return read;
}

int main(void)
{
	uint32_t head[4];

	object_part = made(), types_part = made(), symbols_part = made();
	rows_part = made(), text_part = made();
	while (fread(head, sizeof(head), 1, stdin) == 1) {
		const char *stage;
		uint64_t first = 0;
		size_t before;

		file = given(object_part, head[0]);
		types = given(types_part, head[1]);
		symbols = given(symbols_part, head[2]);
		how = head[3];
		wrong[0] = lacked = 0;
		before = taken();
		alarm(SECONDS);
		stage = broadly(&first);
		as_stated(stage, first);
		alarm(0);
		if (taken() != before)
			say("%zu bytes are taken in the place of %zu", taken(), before);
		printf("%s%s%s\n", lacked ? "memory" : stage, wrong[0] ? "\t" : "", wrong);
		fflush(stdout);
	}
	return 0;
}

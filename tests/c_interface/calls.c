/*
 * Makes calls of the C interface one after the other on one handle, and prints what they answer.
 *
 * usage: calls [-m] OBJECT TYPES SYMBOLS ACTION..      an empty file of types is none
 *
 * An action is a name, and words behind `=` with colons between them where it asks for some:
 *	open prepare prepare_handle prepare_handle=NAME:N,.. clone types maps maps=NAME:N,.. missing missing=NAME:N,.. resolve externs calls
 *	value=NAME:must|may:DIGITS entries=NAME:N
 *	values=NAME:must|may:DIGITS,.. size=NAME:N sanitize=N
 *	                                     change what the handle holds, and print `NAME NUMBER ABOUT {DETAIL N ..}`
 *	programs named listed declared sections info slots records     list what it holds
 *	kernel_types target=SECTION settings config=NAME number=NAME:N define=NAME:DIGITS,.. initial variables read=NAME
 *	data=MAP:DIGITS find_map=NAME find_program=NAME link_map=NAME link_references=NAME outcomes check struct_ops
 *	complete=PAGE arenas
 *	                                     the calls for loaders, which list what they find and print their numbers; a
 *	                                     configuration's text stands in the place of SYMBOLS
 *	ask=CALL ask=CALL:NAME               asks one of the calls that list, with ample room, and prints its number
 *	names                                lists the numbers that have a name
 * With -m the last action stands between the lines "== begin" and "== end" and its answer behind them; what the handle
 * holds stands before, and behind where the number is not 0.
 */
#include "check_calls.h"
#include "found_calls.h"
#include "listed.h"
#include "record_calls.h"
#include "struct_ops_calls.h"
#include "told.h"
#include <unistd.h>

static struct bytes file, types, symbols;
static struct ebpf_handle *object = NULL;

static struct made_on made_on(void)
{
	return (struct made_on){ object, file, types, symbols };
}

/* The part of a word in front of a separator; the rest begins behind it. */
static char *cut(char **rest, char separator)
{
	char *front = *rest, *end = front ? strchr(front, separator) : NULL;

	*rest = end ? end + 1 : NULL;
	if (end)
		*end = 0;
	return front;
}

/* Descriptors for the next call that takes some. */
static struct {
	struct ebpf_descriptor *rows;
	char *text;
	size_t count;
} given;

/* The maps NAME:N,.. as rows, which point into the word; no text is none. */
static void read_map_fds(char *rest)
{
	given.rows = zeros(strlen(rest), sizeof(*given.rows));
	while (rest && *rest) {
		char *pair = cut(&rest, ','), *name = cut(&pair, ':');

		given.rows[given.count++] =
			(struct ebpf_descriptor){ name, strlen(name), (int32_t)strtol(pair, NULL, 0) };
	}
}

/* What a call of this name is to be given; else the object's own maps are 1, 2, .. in the order of the list. */
static void give_map_fds(const char *name, char *rest)
{
	struct ebpf_handle *held = NULL;
	int prepares = !strcmp(name, "prepare");

	free(given.rows);
	free(given.text);
	memset(&given, 0, sizeof(given));
	if (prepares)
		open_strictly(file.at, file.len, &held);
	if (!prepares && rest)
		read_map_fds(rest);
	else if (prepares && held)
		given.count = number_maps(held, &given.rows, &given.text);
	else if (!prepares && object)
		given.count = number_maps(object, &given.rows, &given.text);
	ebpf_close(held);
}

/* The bytes of hexadecimal digits, as many as there is room for. */
static size_t read_digits(const char *digits, uint8_t *to, size_t room)
{
	size_t len = 0;

	while (len < room && sscanf(digits + 2 * len, "%2hhx", &to[len]) == 1)
		len++;
	return len;
}

static uint32_t set_value(char *rest)
{
	char *name = cut(&rest, ':'), *must = cut(&rest, ':');
	uint8_t value[64] = { 0 };
	size_t len = read_digits(rest, value, sizeof(value));

	return ebpf_set_value(object, name, strlen(name), value, len, !strcmp(must, "must"));
}

/* The values NAME:must|may:DIGITS,.. as rows. Nothing is allocated here, where growths may be refused. */
static uint32_t set_values(char *rest)
{
	static struct ebpf_value_row rows[64];
	static uint8_t bytes[4096];
	size_t count = 0, bytes_len = 0;

	if (rest && strlen(rest) > sizeof(bytes))
		errx(3, "values are too long");
	while (rest && count < sizeof(rows) / sizeof(*rows)) {
		char *row = cut(&rest, ','), *name = cut(&row, ':'), *must = cut(&row, ':');
		size_t len = read_digits(row, bytes + bytes_len, sizeof(bytes) - bytes_len);

		rows[count++] = (struct ebpf_value_row){ name, strlen(name), bytes + bytes_len, len, !strcmp(must, "must") };
		bytes_len += len;
	}
	return ebpf_set_values(object, rows, count);
}

/* What the last call gave out that gives out a handle, and it where the file was refused. */
static struct ebpf_handle *made, *not_opened;

/* Puts what was given out in the place of the object, where it holds one. */
static uint32_t put(uint32_t number)
{
	if (number == EBPF_DONE && !made)
		errx(3, "0 is returned, and no handle is given out");
	if (number != EBPF_DONE) {
		not_opened = made;
	} else {
		ebpf_close(object);
		object = made;
	}
	return number;
}

/* Opens the file. WITHIN: =BYTES, strictly; =BYTES:broad */
static uint32_t open_with(enum ebpf_parsing parsing, const char *within)
{
	struct ebpf_open_options options = ebpf_open_defaults();

	options.parsing = within && strchr(within, ':') ? EBPF_LENIENT : parsing;
	if (within)
		options.max_bytes = strtoull(within, NULL, 10);
	return put(ebpf_open(file.at, file.len, &options, &made));
}

static uint32_t copy(void)
{
	return put(ebpf_clone(object, &made));
}

/* Each slot whose map has no descriptor, by the map's name. */
static uint32_t put_missing(void)
{
	struct ebpf_map_slot slot;
	const char *name;
	uint32_t number = ebpf_maps_without_descriptors(object, given.rows, given.count, NULL);

	for (size_t at = 0; number == EBPF_DONE && (name = ebpf_map_without_descriptor_at(object, at, &slot)); at++)
		printf("slot %zu of %zu:%llu refers to %s\n", slot.slot, slot.section, (unsigned long long)slot.address, name);
	return number;
}

/* `counted`: growths of memory are, so that only the call itself may be made. */
static uint32_t change(const char *name, char *rest, int counted)
{
	struct made_on on = made_on();
	struct ebpf_prepare_inputs inputs = { sizeof(inputs), types.at,	  types.len,  given.rows,
					      given.count,    symbols.at, symbols.len, NULL };
	int64_t number = loader_call(&on, name, rest);
	char *map;

	if (number < 0)
		number = found_call(&on, name, rest);
	if (number < 0)
		number = record_call(&on, name);
	if (number < 0)
		number = check_call(&on, name);
	if (number < 0)
		number = struct_ops_call(&on, name, rest);
	if (number >= 0)
		return (uint32_t)number;
	if (!strcmp(name, "calls") && !counted)
		return link_as_told(&on);
	if (!strcmp(name, "types") && !counted)
		return relocate_as_told(&on);
	if (!strcmp(name, "open"))
		return open_with(EBPF_STRICT, NULL);
	if (!strcmp(name, "open_broad"))
		return put(ebpf_open(file.at, file.len, NULL, &made));
	if (!strcmp(name, "open_within"))
		return open_with(EBPF_STRICT, rest);
	if (!strcmp(name, "prepare"))
		return put(ebpf_prepare(file.at, file.len, &inputs, &made));
	if (!strcmp(name, "prepare_handle"))
		return ebpf_prepare_handle(object, &inputs);
	if (!strcmp(name, "clone"))
		return copy();
	if (!strcmp(name, "types"))
		return ebpf_relocate_types(object, types.at, types.len);
	if (!strcmp(name, "maps"))
		return ebpf_relocate_maps(object, given.rows, given.count);
	if (!strcmp(name, "missing"))
		return put_missing();
	if (!strcmp(name, "resolve"))
		return ebpf_resolve_externs(object, types.at, types.len, symbols.at, symbols.len);
	if (!strcmp(name, "externs"))
		return ebpf_relocate_externs(object);
	if (!strcmp(name, "calls"))
		return ebpf_relocate_calls(object);
	if (!strcmp(name, "value"))
		return set_value(rest);
	if (!strcmp(name, "values"))
		return set_values(rest);
	if (!strcmp(name, "sanitize"))
		return ebpf_sanitize(object, (uint32_t)strtoul(rest, NULL, 0));
	map = cut(&rest, ':');
	if (!strcmp(name, "entries"))
		return ebpf_set_max_entries(object, map, strlen(map), (uint32_t)strtoul(rest, NULL, 0));
	if (!strcmp(name, "size"))
		return ebpf_set_value_size(object, map, strlen(map), (uint32_t)strtoul(rest, NULL, 0));
	errx(3, "no action %s", name);
}

#define ROOM 65536

/* The number of a call that lists, with ample room; it leaves the room as it was where it refuses. */
static uint32_t ask(char *rest)
{
	static _Alignas(16) uint8_t rows[ROOM], text[ROOM];
	char *call = cut(&rest, ':'), *name = rest ? rest : "";
	struct room room = { rows, text, ROOM, { 7, 7 }, 7 };
	struct made_on on = made_on();
	struct ebpf_counts counts = { 7, 7 };
	size_t len = strlen(name), count = 7, row = ROOM / 128;
	uint32_t number = 3;
	int64_t of_loader;

	memset(rows, 0x55, sizeof(rows));
	memset(text, 0x55, sizeof(text));
	of_loader = ask_loader_call(&on, call, name, &room);
	if (of_loader < 0)
		of_loader = ask_found_call(&on, call, name, &room);
	if (of_loader < 0)
		of_loader = ask_record_call(&on, call);
	if (of_loader < 0)
		of_loader = ask_check_call(&on, call);
	if (of_loader < 0)
		of_loader = ask_struct_ops_call(&on, call);
	if (of_loader >= 0) {
		number = (uint32_t)of_loader;
		counts = room.counts;
		count = room.count;
	}
	if (!strcmp(call, "programs"))
		number = ebpf_programs(object, (void *)rows, row, (char *)text, ROOM, &counts);
	if (!strcmp(call, "maps"))
		number = ebpf_maps(object, (void *)rows, row, (char *)text, ROOM, &counts);
	if (!strcmp(call, "externs"))
		number = ebpf_externs(object, (void *)rows, row, (char *)text, ROOM, &counts);
	if (!strcmp(call, "sections"))
		number = ebpf_sections(object, (void *)rows, row, (char *)text, ROOM, &counts);
	if (!strcmp(call, "license"))
		number = ebpf_license(object, (char *)text, ROOM, &count);
	if (!strcmp(call, "map_data"))
		number = ebpf_map_data(object, name, len, text, ROOM, &count);
	if (!strcmp(call, "program_section"))
		number = ebpf_program_section(object, name, len, (char *)text, ROOM, &count);
	if (!strcmp(call, "slots"))
		number = ebpf_slots(object, name, len, (void *)rows, row, &count);
	if (!strcmp(call, "func_infos"))
		number = ebpf_func_infos(object, name, len, (void *)rows, row, &count);
	if (!strcmp(call, "line_infos"))
		number = ebpf_line_infos(object, name, len, (void *)rows, row, &count);
	for (size_t at = 0; number != EBPF_DONE && at < ROOM; at++)
		if (rows[at] != 0x55 || text[at] != 0x55)
			errx(3, "%s writes before it refuses", call);
	if (number != EBPF_DONE && (count != 7 || counts.rows != 7 || counts.text != 7))
		errx(3, "%s counts before it refuses", call);
	return number;
}

static void put_names(void)
{
	for (uint32_t number = 0; number < 2000; number++) {
		char name[64] = { 0 };
		size_t len = 0;

		if (ebpf_number_name(number, name, sizeof(name), &len) != EBPF_DONE)
			errx(3, "the name of %u is long", number);
		if (len)
			printf("%u %.*s\n", number, (int)len, name);
	}
}

static int lists(const char *name)
{
	if (!strcmp(name, "programs"))
		put_programs(object);
	else if (!strcmp(name, "named"))
		put_program_sections(object);
	else if (!strcmp(name, "listed"))
		put_maps(object);
	else if (!strcmp(name, "declared"))
		put_externs(object);
	else if (!strcmp(name, "sections"))
		put_sections(object);
	else if (!strcmp(name, "info"))
		put_info(object);
	else if (!strcmp(name, "slots"))
		put_slots(object);
	else if (!strcmp(name, "records"))
		put_records(object);
	else if (!strcmp(name, "names"))
		put_names();
	else
		return 0;
	return 1;
}

static void put_all(void)
{
	if (!object) {
		printf("closed\n");
		return;
	}
	put_info(object);
	put_programs(object);
	put_maps(object);
	put_externs(object);
	put_sections(object);
	put_slots(object);
	put_records(object);
}

static void mark(const char *line, int is_marked)
{
	fflush(stdout);
	if (is_marked && write(1, line, strlen(line)) < 0)
		err(3, "cannot write");
}

/* The name and the numbers of the last error, where it is that of the number: a call without a handle has none. */
static void put_told(uint32_t number)
{
	const struct ebpf_error *error = ebpf_last_error(not_opened ? not_opened : object);

	if (!not_opened && !object && types_error.number)
		error = &types_error;
	if (number != EBPF_DONE && error->number == number) {
		if (!is_told(&error->refusal, number, error->name_len) || error->is_cut || strlen(error->name) != error->name_len)
			errx(3, "another refusal than %u is reported", number);
		if (error->name_len)
			printf(" %s", error->name);
		put_details(&error->refusal);
	}
	ebpf_close(not_opened);
	not_opened = NULL;
}

static void act(char *word, int is_marked)
{
	char *rest = word, *name = cut(&rest, '=');
	uint32_t number;

	if (lists(name))
		return;
	if (!strcmp(name, "maps") || !strcmp(name, "missing") || !strcmp(name, "prepare") || !strcmp(name, "prepare_handle"))
		give_map_fds(name, rest);
	if (is_marked) {
		printf("before:\n");
		put_all();
	}
	mark("== begin\n", is_marked);
	number = strcmp(name, "ask") ? change(name, rest, is_marked) : ask(rest);
	mark("== end\n", is_marked);
	printf("%s %u", is_marked ? "answer:" : name, number);
	put_told(number);
	printf("\n");
	if (is_marked && number != EBPF_DONE) {
		printf("after:\n");
		put_all();
	}
}

int main(int words, char **word)
{
	int is_marked = words > 1 && !strcmp(word[1], "-m");

	words -= is_marked;
	word += is_marked;
	if (words < 5)
		errx(2, "usage: calls [-m] OBJECT TYPES SYMBOLS ACTION..");
	file = read_file(word[1]);
	types = read_file(word[2]);
	symbols = read_file(word[3]);
	for (int at = 4; at < words; at++)
		act(word[at], is_marked && at == words - 1);
	ebpf_close(object);
	free(given.rows);
	free(given.text);
	free(file.at);
	free(types.at);
	free(symbols.at);
	return 0;
}

/* The calls for loaders. */
#include "checked.h"
#include "told.h"

/* What the calls are made on. */
static const struct guarded *given;
static const char config[] = "CONFIG_COUNT=7\nCONFIG_NAME=\"abc\"\n";

/* ---- bytes, with a name for what a refusal is about */

typedef uint32_t bytes_call(struct ebpf_handle *, uint8_t *, size_t, size_t *, char *, size_t, struct ebpf_refusal *);

static uint32_t types(struct ebpf_handle *of, uint8_t *to, size_t room, size_t *len, char *about, size_t about_room,
		      struct ebpf_refusal *refusal)
{
	(void)of;
	return exact_ebpf_kernel_types(given->at, given->size, to, room, len, about, about_room, refusal);
}

static uint32_t configured(struct ebpf_handle *of, uint8_t *to, size_t room, size_t *len, char *about,
			   size_t about_room, struct ebpf_refusal *refusal)
{
	uint32_t is_found = 77;
	uint32_t number = exact_ebpf_kconfig_value(EXACT(of), "CONFIG_NAME", 11, config, strlen(config), to, room, len, &is_found,
					     about, about_room, refusal);

	CHECK("ebpf_kconfig_value", is_found == (number == EBPF_DONE || number == EBPF_ROOM ? 1 : 77));
	return number;
}

static uint32_t numbered(struct ebpf_handle *of, uint8_t *to, size_t room, size_t *len, char *about, size_t about_room,
			 struct ebpf_refusal *refusal)
{
	return exact_ebpf_kconfig_number(EXACT(of), "CONFIG_COUNT", 12, 7, to, room, len, about, about_room, refusal);
}

static void check_bytes_room(const char *name, bytes_call *call, struct ebpf_handle *of, size_t room, size_t need)
{
	struct guarded to = guarded(room), about = guarded(8);
	struct ebpf_refusal refusal = unwritten();
	size_t len = 77;
	uint32_t number = call(of, to.at, room, &len, (char *)about.at, 8, &refusal);

	CHECK(name, number == (room < need ? EBPF_ROOM : EBPF_DONE));
	CHECK(name, len == need);
	CHECK(name, room < need ? is_told(&refusal, EBPF_ROOM, 0) && !refusal.has : is_unwritten(&refusal));
	CHECK(name, is_untouched(&to, room < need ? 0 : need) && is_untouched(&about, 0));
	release(&to);
	release(&about);
}

static void check_bytes(const char *name, bytes_call *call, struct ebpf_handle *of, int takes_handle)
{
	struct ebpf_handle *closed = NULL;
	struct guarded to = guarded(16), about = guarded(8);
	struct ebpf_refusal refusal = unwritten();
	size_t need = 77, len = 77;

	CHECK(name, call(of, to.at, 0, &need, (char *)about.at, 8, &refusal) == EBPF_ROOM && need);
	CHECK(name, is_told(&refusal, EBPF_ROOM, 0));
	check_bytes_room(name, call, of, need - 1, need);
	check_bytes_room(name, call, of, need, need);
	check_bytes_room(name, call, of, need + 5, need);
	refusal = unwritten();
	if (takes_handle)
		CHECK(name, call(closed, to.at, 16, &len, (char *)about.at, 8, &refusal) == EBPF_CLOSED && len == 77 &&
				    is_told(&refusal, EBPF_CLOSED, 0) && is_untouched(&to, 0) &&
				    is_untouched(&about, 0));
	release(&to);
	release(&about);
}

/* ---- lists, with a name for what a refusal is about */

static uint32_t settings(struct ebpf_handle *of, void *rows, size_t room, char *text, size_t text_room,
			 struct ebpf_counts *counts, char *about, size_t about_room, struct ebpf_refusal *refusal)
{
	return exact_ebpf_kconfig(EXACT(of), rows, room, text, text_room, counts, about, about_room, refusal);
}

static uint32_t initial(struct ebpf_handle *of, void *rows, size_t room, char *text, size_t text_room,
			struct ebpf_counts *counts, char *about, size_t about_room, struct ebpf_refusal *refusal)
{
	return exact_ebpf_initial_slots(given->at, given->size, EXACT(of), rows, room, text, text_room, counts, about, about_room,
				  refusal);
}

static const struct told_list lists[] = {
	{ "ebpf_kconfig", settings, sizeof(struct ebpf_kconfig_extern), 1 },
	{ "ebpf_initial_slots", initial, sizeof(struct ebpf_initial_slot), 2 },
};

/* Names lie in the text, a zero byte behind each. */
static void check_names(const struct told_list *list, const uint8_t *rows, const char *text, struct ebpf_counts counts)
{
	int is_inside = 1;

	for (size_t at = 0; at < counts.rows * list->names; at++) {
		size_t name[2];

		memcpy(name, rows + at / list->names * list->row + at % list->names * sizeof(name), sizeof(name));
		is_inside &= name[0] < counts.text && name[1] < counts.text - name[0] &&
			     strlen(text + name[0]) == name[1];
	}
	CHECK(list->name, is_inside);
}

static void check_list_room(const struct told_list *list, struct ebpf_handle *of, struct ebpf_counts room,
			    struct ebpf_counts need)
{
	struct guarded rows = guarded(room.rows * list->row), text = guarded(room.text), about = guarded(8);
	struct ebpf_counts counts = { 77, 78 };
	int fits = room.rows >= need.rows && room.text >= need.text;
	struct ebpf_refusal refusal = unwritten();
	uint32_t number =
		list->call(of, rows.at, room.rows, (char *)text.at, room.text, &counts, (char *)about.at, 8, &refusal);

	CHECK(list->name, number == (fits ? EBPF_DONE : EBPF_ROOM));
	CHECK(list->name, fits ? is_unwritten(&refusal) : is_told(&refusal, EBPF_ROOM, 0) && !refusal.has);
	CHECK(list->name, counts.rows == need.rows && counts.text == need.text);
	CHECK(list->name, is_untouched(&rows, fits ? need.rows * list->row : 0));
	CHECK(list->name, is_untouched(&text, fits ? need.text : 0) && is_untouched(&about, 0));
	if (fits)
		check_names(list, rows.at, (char *)text.at, need);
	release(&rows);
	release(&text);
	release(&about);
}

void check_told_list(const struct told_list *list, struct ebpf_handle *of)
{
	struct ebpf_handle *closed = NULL;
	struct guarded rows = guarded(list->row), text = guarded(1), about = guarded(0);
	struct ebpf_counts need = { 0, 0 }, counts = { 77, 78 };
	struct ebpf_refusal refusal = unwritten();
	char *told = (char *)about.at;

	CHECK(list->name,
	      list->call(of, rows.at, 0, (char *)text.at, 0, &need, told, 0, &refusal) == EBPF_ROOM && need.rows);
	CHECK(list->name, is_untouched(&rows, 0) && is_untouched(&text, 0) && is_told(&refusal, EBPF_ROOM, 0));
	CHECK(list->name,
	      list->call(closed, rows.at, 1, (char *)text.at, 1, &counts, told, 0, &refusal) == EBPF_CLOSED);
	CHECK(list->name, counts.rows == 77 && counts.text == 78 && is_untouched(&rows, 0) && is_untouched(&text, 0));
	CHECK(list->name, is_told(&refusal, EBPF_CLOSED, 0));
	check_list_room(list, of, need, need);
	check_list_room(list, of, (struct ebpf_counts){ need.rows + 3, need.text + 3 }, need);
	check_list_room(list, of, (struct ebpf_counts){ need.rows - 1, need.text }, need);
	check_list_room(list, of, (struct ebpf_counts){ need.rows, need.text - 1 }, need);
	release(&rows);
	release(&text);
	release(&about);
}

/* ---- targets */

static void check_targets(struct ebpf_handle *of)
{
	struct guarded held = guarded_copy("fentry/f", 8), none = guarded(0), bytes;
	uint32_t answer = 77, type_id = 78;
	struct ebpf_refusal refusal = { 0 };
	size_t len = 0;
	uint8_t *read;

	types(of, none.at, 0, &len, (char *)none.at, 0, &refusal);
	read = zeros(len, 1);
	types(of, read, len, &len, (char *)none.at, 0, &refusal);
	bytes = guarded_copy(read, len);
	CHECK("ebpf_attach_target",
	      ebpf_attach_target((char *)held.at, 8, bytes.at, bytes.size, &answer, &type_id) == EBPF_DONE);
	CHECK("ebpf_attach_target", answer == EBPF_TARGET_NOT_FOUND && type_id == 0);
	answer = 77;
	type_id = 78;
	CHECK("ebpf_attach_target", ebpf_attach_target((char *)held.at, 8, none.at, 0, &answer, &type_id) == EBPF_TYPES_READ_INVALID_HEADER);
	CHECK("ebpf_attach_target", ebpf_attach_target("\xff", 1, none.at, 0, &answer, &type_id) == EBPF_BAD_NAME);
	CHECK("ebpf_attach_target", answer == 77 && type_id == 78);
	free(read);
	release(&held);
	release(&none);
	release(&bytes);
}

/* ---- definitions */

/* What is answered for rows, names and values that end where their memory does. */
static uint32_t define(struct ebpf_handle *object, const struct exact_value *rows, size_t count, const char *text,
		       const uint8_t *bytes, size_t bytes_len)
{
	struct guarded held = guarded_copy(rows, count * sizeof(*rows)), names = guarded_copy(text, strlen(text));
	struct guarded values = guarded_copy(bytes, bytes_len), about = guarded(0);
	struct ebpf_refusal refusal = unwritten();
	uint32_t number = exact_ebpf_define_kconfig(EXACT(object), (void *)held.at, count, names.at, names.size,
						    values.at, values.size, about.at, 0, &refusal);

	CHECK("ebpf_define_kconfig",
	      number == EBPF_DONE ? is_unwritten(&refusal) : is_told(&refusal, number, refusal.name_len));
	release(&held);
	release(&names);
	release(&values);
	release(&about);
	return number;
}

static uint32_t count_of(struct ebpf_handle *object)
{
	uint8_t data[64] = { 0 };
	size_t len = 0;

	return ebpf_map_data(object, ".kconfig", 8, data, sizeof(data), &len) == EBPF_DONE ? data[0] : 0;
}

static void check_definitions(const struct guarded *file)
{
	struct ebpf_handle *object = opened(file), *closed = NULL;
	struct exact_value rows[] = { { 0, 12, 0, 4, 0 }, { 12, 5, 0, 0, 1 }, { 0, 12, 4, 4, 0 } }, bad[2];
	const char *text = "CONFIG_COUNTOTHER";
	const uint8_t bytes[8] = { 1, [4] = 42 };

	CHECK("ebpf_define_kconfig", define(object, rows, 0, "", bytes, 0) == EBPF_KCONFIG_NO_VALUE && !count_of(object));
	CHECK("ebpf_define_kconfig", define(closed, rows, 0, "", bytes, 0) == EBPF_CLOSED && !closed);
	CHECK("ebpf_define_kconfig", define(object, rows, 2, text, bytes, 8) == EBPF_DONE && count_of(object) == 1);
	CHECK("ebpf_define_kconfig", define(object, rows, 3, text, bytes, 8) == EBPF_DONE && count_of(object) == 42);
	bad[0] = rows[0];
	bad[1] = (struct exact_value){ 6, 12, 0, 4, 0 };
	CHECK("ebpf_define_kconfig", define(object, bad, 2, text, bytes, 8) == EBPF_BAD_NAME);
	bad[0].value_at = 5; /* names first */
	CHECK("ebpf_define_kconfig", define(object, bad, 2, text, bytes, 8) == EBPF_BAD_NAME);
	CHECK("ebpf_define_kconfig", define(object, bad, 1, text, bytes, 8) == EBPF_BAD_VALUE);
	bad[0].value_at = SIZE_MAX;
	CHECK("ebpf_define_kconfig", define(object, bad, 1, text, bytes, 8) == EBPF_BAD_VALUE);
	bad[0] = (struct exact_value){ 0, 12, 0, 3, 0 };
	CHECK("ebpf_define_kconfig", define(object, bad, 1, text, bytes, 8) == EBPF_KCONFIG_WRONG_SIZE);
	CHECK("ebpf_define_kconfig", count_of(object) == 42);
	ebpf_close(object);
}

void check_loader_calls(const struct guarded *file)
{
	struct ebpf_handle *object = opened(file);
	struct guarded none = guarded(0);
	struct ebpf_refusal refusal = unwritten();
	size_t len = 77;

	given = file;
	check_bytes("ebpf_kernel_types", types, object, 0);
	check_bytes("ebpf_kconfig_value", configured, object, 1);
	check_bytes("ebpf_kconfig_number", numbered, object, 1);
	CHECK("ebpf_kernel_types", exact_ebpf_kernel_types(file->at, 63, none.at, 0, &len, none.at, 0, &refusal) ==
					   EBPF_KERNEL_TYPES_FILE_TOO_SHORT);
	CHECK("ebpf_kernel_types", len == 77 && is_told(&refusal, EBPF_KERNEL_TYPES_FILE_TOO_SHORT, 0));
	for (size_t at = 0; at < sizeof(lists) / sizeof(lists[0]); at++)
		check_told_list(&lists[at], object);
	check_targets(object);
	check_definitions(file);
	ebpf_close(object);
	release(&none);
}

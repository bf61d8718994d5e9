/* Values of variables, and what a refusal is about. */
#include "checked.h"
#include "told.h"

/* What is answered for rows, names and values that end where their memory does. */
static uint32_t set_rows(struct ebpf_handle *object, const struct exact_value *rows, size_t count, const char *text,
			 const char *bytes, size_t bytes_len)
{
	struct guarded held = guarded_copy(rows, count * sizeof(*rows)), names = guarded_copy(text, strlen(text));
	struct guarded values = guarded_copy(bytes, bytes_len), about = guarded(0);
	struct ebpf_refusal refusal = unwritten();
	uint32_t number = exact_ebpf_set_values(EXACT(object), (void *)held.at, count, names.at, names.size, values.at,
						values.size, about.at, 0, &refusal);

	CHECK("ebpf_set_values", number == EBPF_DONE ? is_unwritten(&refusal) : is_told(&refusal, number, 0));
	release(&held);
	release(&names);
	release(&values);
	release(&about);
	return number;
}

static uint32_t wanted_of(struct ebpf_handle *object)
{
	uint8_t data[4] = { 0 };
	size_t len = 0;

	return ebpf_map_data(object, ".rodata", 7, data, 4, &len) == EBPF_DONE ? data[0] : 0;
}

void check_values_by_rows(const struct guarded *file)
{
	struct ebpf_handle *object = opened(file), *closed = NULL;
	struct exact_value rows[] = { { 0, 6, 0, 4, 1 }, { 6, 4, 4, 8, 1 }, { 0, 6, 12, 4, 7 } }, bad[2];
	const char *text = "wantedseen", bytes[16] = { 1, [12] = 42 };
	static const struct exact_value bad_names[] = {
		{ 5, 6, 0, 4, 1 }, { 11, 0, 0, 4, 0 }, { 1, SIZE_MAX, 0, 4, 1 }, { SIZE_MAX, 1, 0, 4, 1 }
	};
	static const struct exact_value bad_values[] = {
		{ 0, 6, 13, 4, 1 }, { 6, 4, 17, 0, 0 }, { 0, 6, 1, SIZE_MAX, 1 }, { 0, 6, SIZE_MAX, 1, 1 }
	};

	CHECK("ebpf_set_values", set_rows(object, rows, 0, "", "", 0) == EBPF_DONE && wanted_of(object) == 7);
	CHECK("ebpf_set_values", set_rows(object, rows, 3, text, bytes, 16) == EBPF_DONE && wanted_of(object) == 42);
	CHECK("ebpf_set_values", set_rows(object, rows, 1, text, bytes, 16) == EBPF_DONE && wanted_of(object) == 1);
	for (size_t at = 0; at < 4; at++) {
		bad[0] = rows[2];
		bad[1] = bad_names[at];
		CHECK("ebpf_set_values", set_rows(object, bad, 2, text, bytes, 16) == EBPF_BAD_NAME);
		bad[0].value_at = 13; /* names first */
		CHECK("ebpf_set_values", set_rows(object, bad, 2, text, bytes, 16) == EBPF_BAD_NAME);
		bad[0] = rows[2];
		bad[1] = bad_values[at];
		CHECK("ebpf_set_values", set_rows(object, bad, 2, text, bytes, 16) == EBPF_BAD_VALUE);
		CHECK("ebpf_set_values", set_rows(closed, bad, 2, text, bytes, 16) == EBPF_CLOSED && !closed);
		CHECK("ebpf_set_values", wanted_of(object) == 1);
	}
	rows[2].name_len = 5; /* "wante" */
	CHECK("ebpf_set_values", set_rows(object, rows, 3, text, bytes, 16) == EBPF_PARSE_SYMBOL_NOT_FOUND);
	rows[2].must_exist = 0;
	rows[0].value_at = 12;
	CHECK("ebpf_set_values", set_rows(object, rows, 3, text, bytes, 16) == EBPF_DONE && wanted_of(object) == 42);
	ebpf_close(object);
}

void check_about(struct ebpf_handle *object, const char *variable, size_t room)
{
	struct guarded about = guarded(room), held = guarded(sizeof(struct ebpf_refusal));
	struct ebpf_refusal *refusal = (void *)held.at;
	size_t whole = strlen(variable), kept = room < whole ? room : whole;
	uint8_t value = 0;

	CHECK("about", exact_ebpf_set_value(EXACT(object), variable, whole, &value, 1, 1, about.at, room, refusal) ==
			       EBPF_PARSE_SYMBOL_NOT_FOUND);
	CHECK("about", is_told(refusal, EBPF_PARSE_SYMBOL_NOT_FOUND, kept) && !refusal->has);
	CHECK("about", is_untouched(&held, held.size));
	CHECK("about", !memcmp(about.at, variable, kept) && is_untouched(&about, kept));
	release(&about);
	release(&held);
}

void check_values_of_one(struct ebpf_handle *object)
{
	struct exact_handle *exact = EXACT(object);
	struct guarded none = guarded(0);
	uint8_t value[8] = { 1, 2, 3, 4, 5, 6, 7, 8 };
	struct ebpf_refusal refusal = unwritten();
	void *text = none.at;

	for (size_t room = 0; room < 12; room++)
		check_about(object, "no_such", room);
	CHECK("ebpf_set_value", exact_ebpf_set_value(exact, "no_such", 7, value, 1, 0, text, 0, &refusal) == EBPF_DONE);
	CHECK("ebpf_set_value", exact_ebpf_set_value(exact, "seen", 4, value, 8, 1, text, 0, &refusal) == EBPF_DONE &&
					is_unwritten(&refusal));
	CHECK("ebpf_set_value",
	      exact_ebpf_set_value(exact, "seen", 4, value, 7, 1, text, 0, &refusal) == EBPF_PARSE_GLOBAL_DATA);
	CHECK("ebpf_set_value",
	      is_told(&refusal, EBPF_PARSE_GLOBAL_DATA, 0) && refusal.size == 8 && refusal.other_size == 7);
	CHECK("ebpf_set_value", refusal.has == (EBPF_HAS_SIZE | EBPF_HAS_OTHER_SIZE));
	CHECK("ebpf_set_value", exact_ebpf_set_value(exact, "\xff", 1, value, 1, 1, text, 0, &refusal) == EBPF_BAD_NAME);
	CHECK("ebpf_set_value", ebpf_set_value(NULL, "seen", 4, value, 8, 1) == EBPF_CLOSED);
	release(&none);
}

/* The calls that are given rows with names: the proved ones take the names and the values of all rows as one text. */
#include "layer.h"
#include <stdlib.h>
#include <string.h>

/* Rows as the proved calls take them, in one block. */
struct gathered {
	void *block;
	void *rows;
	uint8_t *text, *bytes;
	size_t count, text_len, bytes_len;
};

/* Adds to a sum, or returns 0 where that is too large. */
static int add(size_t *sum, size_t more)
{
	if (more > SIZE_MAX / 2 - *sum)
		return 0;
	*sum += more;
	return 1;
}

/* Makes the block for `count` rows of a size and for the lengths that are summed up. */
static int make_room(struct gathered *to, size_t count, size_t row)
{
	size_t size = to->text_len;

	if (!add(&size, to->bytes_len) || count > (SIZE_MAX / 2 - size) / row)
		return 0;
	to->block = malloc(count * row + size + 1);
	if (!to->block)
		return 0;
	to->rows = to->block;
	to->text = (uint8_t *)to->block + count * row;
	to->bytes = to->text + to->text_len;
	to->count = count;
	to->text_len = to->bytes_len = 0;
	return 1;
}

/* Puts bytes behind those that are there, and says where. */
static size_t put(uint8_t *to, size_t *len, const void *bytes, size_t count)
{
	size_t at = *len;

	if (count)
		memcpy(to + at, bytes, count);
	*len += count;
	return at;
}

static int gather_descriptors(struct gathered *to, const struct ebpf_descriptor *rows, size_t count)
{
	memset(to, 0, sizeof(*to));
	for (size_t at = 0; rows && at < count; at++)
		if (rows[at].name && !add(&to->text_len, rows[at].name_len))
			return 0;
	if (!make_room(to, rows ? count : 0, sizeof(struct exact_descriptor)))
		return 0;
	for (size_t at = 0; at < to->count; at++) {
		struct exact_descriptor *row = (struct exact_descriptor *)to->rows + at;

		row->name_len = rows[at].name ? rows[at].name_len : 0;
		row->name_at = put(to->text, &to->text_len, rows[at].name, row->name_len);
		row->descriptor = rows[at].descriptor;
	}
	return 1;
}

static int gather_values(struct gathered *to, const struct ebpf_value_row *rows, size_t count)
{
	memset(to, 0, sizeof(*to));
	for (size_t at = 0; rows && at < count; at++)
		if ((rows[at].name && !add(&to->text_len, rows[at].name_len)) ||
		    (rows[at].value && !add(&to->bytes_len, rows[at].value_len)))
			return 0;
	if (!make_room(to, rows ? count : 0, sizeof(struct exact_value)))
		return 0;
	for (size_t at = 0; at < to->count; at++) {
		struct exact_value *row = (struct exact_value *)to->rows + at;

		row->name_len = rows[at].name ? rows[at].name_len : 0;
		row->name_at = put(to->text, &to->text_len, rows[at].name, row->name_len);
		row->value_len = rows[at].value ? rows[at].value_len : 0;
		row->value_at = put(to->bytes, &to->bytes_len, rows[at].value, row->value_len);
		row->must_exist = rows[at].must_exist;
	}
	return 1;
}

/* A closed handle is refused before anything that a call is given. */
static int is_closed(const struct ebpf_handle *handle)
{
	return !handle || !handle->exact.at;
}

typedef uint32_t exact_values(struct exact_handle *, const struct exact_value *, size_t, const void *, size_t,
			      const void *, size_t, void *, size_t, struct ebpf_refusal *);

/* What the two calls that are given values have in common. */
static uint32_t give_values(struct ebpf_handle *handle, const struct ebpf_value_row *rows, size_t count,
			    exact_values *call)
{
	struct ebpf_told told;
	struct gathered all;
	uint32_t number;

	if (is_closed(handle))
		return ebpf_layer_change(handle, EBPF_CLOSED, NULL);
	if (!gather_values(&all, rows, count))
		return ebpf_layer_change(handle, EBPF_MEMORY, NULL);
	ebpf_layer_begin(&told);
	do
		number = call(&handle->exact, all.rows, all.count, all.text, all.text_len, all.bytes, all.bytes_len,
			      EBPF_TOLD(told));
	while (ebpf_layer_is_cut(number, &told));
	free(all.block);
	return ebpf_layer_change(handle, number, &told);
}

uint32_t ebpf_set_values(struct ebpf_handle *handle, const struct ebpf_value_row *rows, size_t rows_len)
{
	return give_values(handle, rows, rows_len, exact_ebpf_set_values);
}

uint32_t ebpf_define_kconfig(struct ebpf_handle *handle, const struct ebpf_value_row *rows, size_t rows_len)
{
	return give_values(handle, rows, rows_len, exact_ebpf_define_kconfig);
}

uint32_t ebpf_relocate_maps(struct ebpf_handle *handle, const struct ebpf_descriptor *rows, size_t rows_len)
{
	struct ebpf_told told;
	struct gathered all;
	uint32_t number;

	if (is_closed(handle))
		return ebpf_layer_change(handle, EBPF_CLOSED, NULL);
	if (!gather_descriptors(&all, rows, rows_len))
		return ebpf_layer_change(handle, EBPF_MEMORY, NULL);
	ebpf_layer_begin(&told);
	do
		number = exact_ebpf_relocate_maps(&handle->exact, all.rows, all.count, all.text, all.text_len,
						  EBPF_TOLD(told));
	while (ebpf_layer_is_cut(number, &told));
	free(all.block);
	return ebpf_layer_change(handle, number, &told);
}

uint32_t ebpf_maps_without_descriptors(const struct ebpf_handle *handle, const struct ebpf_descriptor *rows,
				       size_t rows_len, size_t *count)
{
	struct ebpf_asked asked = { .kind = EBPF_KEPT_WITHOUT_DESCRIPTORS };
	struct gathered all;
	uint32_t number;

	if (is_closed(handle))
		return ebpf_layer_end(handle, EBPF_CLOSED, NULL);
	if (!gather_descriptors(&all, rows, rows_len))
		return ebpf_layer_end(handle, EBPF_MEMORY, NULL);
	asked.name = all.text;
	asked.name_len = all.text_len;
	asked.descriptors = all.rows;
	asked.descriptors_len = all.count;
	number = ebpf_layer_taken(handle, &asked, count);
	free(all.block);
	return number;
}

#define ROWS all->rows, all->count, all->text, all->text_len
#define SYMBOLS EBPF_ARRAY(of->symbols, of->symbols_len)

/* What all passes are made over: what the handle holds, or a file. */
struct prepared {
	struct exact_handle *exact;
	const uint8_t *file;
	size_t file_len;
	int is_file;
};

/* Over types that were read. */
static uint32_t prepare_with(const struct prepared *over, const struct ebpf_prepare_inputs *of,
			     const struct gathered *all, struct ebpf_told *told)
{
	struct exact_btf *btf = (struct exact_btf *)&of->btf->exact;

	if (over->is_file)
		return exact_ebpf_prepare_with(EBPF_ARRAY(over->file, over->file_len), btf, ROWS, SYMBOLS, over->exact,
					       EBPF_TOLD(*told));
	return exact_ebpf_prepare_handle_with(over->exact, btf, ROWS, SYMBOLS, EBPF_TOLD(*told));
}

/* Over types as bytes. */
static uint32_t prepare_bytes(const struct prepared *over, const struct ebpf_prepare_inputs *of,
			      const struct gathered *all, struct ebpf_told *told)
{
	if (over->is_file)
		return exact_ebpf_prepare(EBPF_ARRAY(over->file, over->file_len), EBPF_ARRAY(of->types, of->types_len),
					  ROWS, SYMBOLS, over->exact, EBPF_TOLD(*told));
	return exact_ebpf_prepare_handle(over->exact, EBPF_ARRAY(of->types, of->types_len), ROWS, SYMBOLS,
					 EBPF_TOLD(*told));
}

/* Runs all passes. */
static uint32_t prepare(struct ebpf_handle *handle, const struct prepared *over, const struct ebpf_prepare_inputs *of)
{
	struct ebpf_told told;
	struct gathered all;
	uint32_t number;

	if (!gather_descriptors(&all, of->descriptors, of->descriptors_len))
		return ebpf_layer_change(handle, EBPF_MEMORY, NULL);
	ebpf_layer_begin(&told);
	do
		number = (of->btf ? prepare_with : prepare_bytes)(over, of, &all, &told);
	while (ebpf_layer_is_cut(number, &told));
	free(all.block);
	return ebpf_layer_change(handle, number, &told);
}

uint32_t ebpf_prepare(const uint8_t *file, size_t file_len, const struct ebpf_prepare_inputs *inputs,
		      struct ebpf_handle **handle)
{
	struct ebpf_prepare_inputs with = ebpf_prepare_defaults();
	struct ebpf_handle *made = ebpf_layer_make();
	struct prepared over;

	*handle = made;
	if (!made)
		return EBPF_MEMORY;
	if (!ebpf_layer_options(inputs, &with, sizeof(with)))
		return ebpf_layer_end(made, EBPF_BAD_OPTIONS, NULL);
	over = (struct prepared){ &made->exact, file, file_len, 1 };
	return prepare(made, &over, &with);
}

uint32_t ebpf_prepare_handle(struct ebpf_handle *handle, const struct ebpf_prepare_inputs *inputs)
{
	struct ebpf_prepare_inputs with = ebpf_prepare_defaults();
	struct prepared over;

	if (is_closed(handle))
		return ebpf_layer_change(handle, EBPF_CLOSED, NULL);
	if (!ebpf_layer_options(inputs, &with, sizeof(with)))
		return ebpf_layer_change(handle, EBPF_BAD_OPTIONS, NULL);
	over = (struct prepared){ &handle->exact, NULL, 0, 0 };
	return prepare(handle, &over, &with);
}

/* What a handle keeps for its caller: lists, and what belongs to a row of one. */
#include "layer.h"
#include <stdlib.h>
#include <string.h>

/* What was taken last of a kind, for the program or the map of an index; or NULL. */
const struct ebpf_kept *ebpf_layer_find(const struct ebpf_handle *handle, enum ebpf_kept_kind kind, size_t index)
{
	const struct ebpf_kept *kept = handle->kept;

	while (kept && (kept->kind != kind || kept->index != index))
		kept = kept->next;
	return kept;
}

/* Memory for so many rows and so much text, or NULL. */
static struct ebpf_kept *make(const struct ebpf_asked *asked, struct ebpf_counts counts)
{
	size_t row = ebpf_layer_row(asked->kind), room = SIZE_MAX / 2 - sizeof(struct ebpf_kept);
	struct ebpf_kept *made;

	if (counts.text > room || counts.rows > (room - counts.text) / row)
		return NULL;
	made = malloc(sizeof(*made) + counts.rows * row + counts.text + 1);
	if (!made)
		return NULL;
	made->kind = asked->kind;
	made->index = asked->index;
	made->count = counts.rows;
	made->text = (char *)made->rows + counts.rows * row;
	made->text[counts.text] = 0;
	return made;
}

/*
 * Asks for the list until there is room for it, and keeps it. NULL where that is refused, and where a configuration has
 * no value; the handle has the error.
 */
const struct ebpf_kept *ebpf_layer_take(const struct ebpf_handle *handle, struct ebpf_asked *asked)
{
	struct ebpf_handle *of = (struct ebpf_handle *)handle;
	struct ebpf_counts counts = { 0, 0 };
	struct ebpf_kept *kept;
	struct ebpf_told told;
	uint32_t number;

	if (!handle)
		return NULL;
	kept = make(asked, counts);
	ebpf_layer_begin(&told);
	do {
		number = kept ? ebpf_layer_ask(handle, asked, kept, &counts, &told) : EBPF_MEMORY;
		if (number == EBPF_ROOM) {
			free(kept);
			kept = make(asked, counts);
		}
	} while (number == EBPF_ROOM || ebpf_layer_is_cut(number, &told));
	ebpf_layer_end(handle, number, &told);
	if (number != EBPF_DONE || !asked->is_found) {
		free(kept);
		return NULL;
	}
	kept->next = of->kept;
	of->kept = kept;
	return kept;
}

/* Drops all that the handle keeps but its error. */
void ebpf_layer_drop(struct ebpf_handle *handle)
{
	while (handle->kept) {
		struct ebpf_kept *next = handle->kept->next;

		free(handle->kept);
		handle->kept = next;
	}
}

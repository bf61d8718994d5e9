/* The call that leaves programs out: the proved one takes their names as rows over one text. */
#include "layer.h"
#include <stdlib.h>
#include <string.h>

/* The names in one block: a row for each, and behind the rows their text. NULL where there is no memory. */
static struct exact_descriptor *gather(const char *const *names, size_t count, size_t *text_len)
{
	struct exact_descriptor *rows;
	size_t room, len;
	char *text;

	*text_len = 0;
	for (size_t at = 0; at < count; at++) {
		len = names[at] ? strlen(names[at]) : 0;
		if (len > SIZE_MAX / 2 - *text_len)
			return NULL;
		*text_len += len;
	}
	room = SIZE_MAX / 2 - *text_len;
	if (count > room / sizeof(*rows))
		return NULL;
	rows = malloc(count * sizeof(*rows) + *text_len + 1);
	if (!rows)
		return NULL;
	text = (char *)(rows + count);
	*text_len = 0;
	for (size_t at = 0; at < count; at++) {
		len = names[at] ? strlen(names[at]) : 0;
		rows[at] = (struct exact_descriptor){ *text_len, len, -1 };
		if (len)
			memcpy(text + *text_len, names[at], len);
		*text_len += len;
	}
	return rows;
}

uint32_t ebpf_leave_out(struct ebpf_handle *handle, const char *const *names, size_t count)
{
	struct exact_descriptor *rows;
	struct ebpf_told told;
	size_t text_len;
	uint32_t number;

	if (!handle || !handle->exact.at)
		return ebpf_layer_change(handle, EBPF_CLOSED, NULL);
	if (!names)
		count = 0;
	rows = gather(names, count, &text_len);
	if (!rows)
		return ebpf_layer_change(handle, EBPF_MEMORY, NULL);
	ebpf_layer_begin(&told);
	do
		number = exact_ebpf_leave_out(&handle->exact, rows, count, rows + count, text_len, EBPF_TOLD(told));
	while (ebpf_layer_is_cut(number, &told));
	free(rows);
	return ebpf_layer_change(handle, number, &told);
}

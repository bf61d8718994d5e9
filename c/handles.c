/* The calls that make a handle and that free one. */
#include "layer.h"
#include <stdlib.h>
#include <string.h>

uint64_t ebpf_layer_nothing;

/* A handle without an object, or NULL. */
struct ebpf_handle *ebpf_layer_make(void)
{
	struct ebpf_handle *made = calloc(1, sizeof(*made));

	if (made)
		ebpf_layer_end(made, EBPF_DONE, NULL);
	return made;
}

/* Reads a struct of options, of which `known` has the defaults. Whether this library knows what it says. */
int ebpf_layer_options(const void *options, void *known, size_t size)
{
	const uint8_t *bytes = options;
	size_t given = size;

	if (!options)
		return 1;
	memcpy(&given, options, sizeof(given));
	if (given < sizeof(given))
		return 0;
	for (size_t at = size; at < given; at++)
		if (bytes[at])
			return 0;
	memset(known, 0, size);
	memcpy(known, options, given < size ? given : size);
	return 1;
}

/* Opens a file into a handle. */
static uint32_t open_into(struct ebpf_handle *made, const uint8_t *file, size_t file_len,
			  const struct ebpf_open_options *with, struct ebpf_told *told)
{
	if (with->max_bytes)
		return exact_ebpf_open_within(EBPF_ARRAY(file, file_len), with->parsing == EBPF_LENIENT, with->max_bytes,
					      &made->exact, EBPF_TOLD(*told));
	if (with->parsing == EBPF_STRICT)
		return exact_ebpf_open(EBPF_ARRAY(file, file_len), &made->exact, EBPF_TOLD(*told));
	return exact_ebpf_open_broad(EBPF_ARRAY(file, file_len), &made->exact, EBPF_TOLD(*told));
}

uint32_t ebpf_open(const uint8_t *file, size_t file_len, const struct ebpf_open_options *options,
		   struct ebpf_handle **handle)
{
	struct ebpf_open_options with = ebpf_open_defaults();
	struct ebpf_handle *made = ebpf_layer_make();
	struct ebpf_told told;
	uint32_t number;

	*handle = made;
	if (!made)
		return EBPF_MEMORY;
	if (!ebpf_layer_options(options, &with, sizeof(with)) || with.parsing > EBPF_STRICT || with.reserved)
		return ebpf_layer_end(made, EBPF_BAD_OPTIONS, NULL);
	ebpf_layer_begin(&told);
	do
		number = open_into(made, file, file_len, &with, &told);
	while (ebpf_layer_is_cut(number, &told));
	return ebpf_layer_end(made, number, &told);
}

uint32_t ebpf_clone(const struct ebpf_handle *handle, struct ebpf_handle **copy)
{
	struct exact_handle closed = { NULL };
	struct ebpf_handle *made = ebpf_layer_make();
	uint32_t number = made ? exact_ebpf_clone(EBPF_EXACT(handle), &made->exact) : EBPF_MEMORY;

	if (!handle || !handle->exact.at)
		number = EBPF_CLOSED;
	if (number != EBPF_DONE) {
		free(made);
		made = NULL;
	}
	*copy = made;
	return ebpf_layer_end(handle, number, NULL);
}

void ebpf_close(struct ebpf_handle *handle)
{
	if (!handle)
		return;
	exact_ebpf_close(&handle->exact);
	ebpf_layer_drop(handle);
	free(handle->long_name);
	free(handle->sentence);
	free(handle);
}

/* ---- the types of a kernel */

uint32_t ebpf_btf_open(const uint8_t *types, size_t types_len, struct ebpf_btf **btf)
{
	struct ebpf_btf *made = calloc(1, sizeof(*made));
	uint32_t number = made ? exact_ebpf_btf_open(EBPF_ARRAY(types, types_len), &made->exact) : EBPF_MEMORY;

	if (number != EBPF_DONE) {
		free(made);
		made = NULL;
	}
	*btf = made;
	return number;
}

void ebpf_btf_close(struct ebpf_btf *btf)
{
	if (!btf)
		return;
	exact_ebpf_btf_close(&btf->exact);
	free(btf);
}

/* The error of the last call, which the handle keeps. */
#include "layer.h"
#include <stdio.h>
#include <stdlib.h>
#include <string.h>

void ebpf_layer_begin(struct ebpf_told *told)
{
	memset(&told->refusal, 0, sizeof(told->refusal));
	told->at = told->name;
	told->room = EBPF_NAME_ROOM;
	told->is_cut = 0;
}

static void release(struct ebpf_told *told)
{
	if (told->at != told->name)
		free(told->at);
	told->at = told->name;
}

/* Whether the call is to be made once more, with more room for the name of its refusal. It changed nothing. */
int ebpf_layer_is_cut(uint32_t number, struct ebpf_told *told)
{
	size_t room = told->room > SIZE_MAX / 8 ? 0 : 4 * told->room;
	char *at;

	if (number == EBPF_DONE || told->refusal.name_len < told->room)
		return 0;
	at = room ? malloc(room + 1) : NULL;
	if (!at) {
		told->is_cut = 1;
		return 0;
	}
	release(told);
	told->at = at;
	told->room = room;
	return 1;
}

/* Puts what was said into the handle, which has no error. */
static void keep(struct ebpf_handle *handle, struct ebpf_told *told)
{
	struct ebpf_error *error = &handle->error;

	error->refusal = told->refusal;
	error->is_cut = told->is_cut;
	error->name_len = told->refusal.name_len;
	told->at[error->name_len] = 0;
	if (told->at == told->name) {
		memcpy(handle->name, told->name, error->name_len + 1);
		error->name = handle->name;
	} else {
		error->name = handle->long_name = told->at;
		told->at = told->name;
	}
}

/* Keeps the error of a call, of which nothing was told where `told` is NULL. */
uint32_t ebpf_layer_end(const struct ebpf_handle *handle, uint32_t number, struct ebpf_told *told)
{
	struct ebpf_handle *of = (struct ebpf_handle *)handle;

	if (of) {
		free(of->long_name);
		free(of->sentence);
		of->long_name = of->sentence = NULL;
		memset(&of->error, 0, sizeof(of->error));
		of->error.name = "";
		if (number != EBPF_DONE && told)
			keep(of, told);
		of->error.number = of->error.refusal.number = number;
	}
	if (told)
		release(told);
	return number;
}

/* The same, of a call that may have changed the object. */
uint32_t ebpf_layer_change(struct ebpf_handle *handle, uint32_t number, struct ebpf_told *told)
{
	if (handle)
		ebpf_layer_drop(handle);
	return ebpf_layer_end(handle, number, told);
}

const struct ebpf_error *ebpf_last_error(const struct ebpf_handle *handle)
{
	static const struct ebpf_error no_memory = {
		.name = "", .number = EBPF_MEMORY, .refusal = { .number = EBPF_MEMORY }
	};

	return handle ? &handle->error : &no_memory;
}

/* ---- a sentence */

/* The details of a refusal, in the order of their bits. */
static const struct {
	const char *name;
	size_t at;
} details[] = {
	{ "slot", offsetof(struct ebpf_refusal, slot) },
	{ "offset", offsetof(struct ebpf_refusal, offset) },
	{ "symbol", offsetof(struct ebpf_refusal, symbol) },
	{ "address", offsetof(struct ebpf_refusal, address) },
	{ "other address", offsetof(struct ebpf_refusal, other_address) },
	{ "section", offsetof(struct ebpf_refusal, section) },
	{ "size", offsetof(struct ebpf_refusal, size) },
	{ "other size", offsetof(struct ebpf_refusal, other_size) },
	{ "type", offsetof(struct ebpf_refusal, type_id) },
	{ "relocation", offsetof(struct ebpf_refusal, relocation) },
	{ "index", offsetof(struct ebpf_refusal, index) },
	{ "count", offsetof(struct ebpf_refusal, count) },
	{ "kind", offsetof(struct ebpf_refusal, kind) },
};

#define DETAILS (sizeof(details) / sizeof(*details))

/* Room for each: its name, a number of 64 bits, and what is between them. */
#define DETAIL_ROOM 40

/* Writes the details in brackets. */
static void put_details(char *to, const struct ebpf_refusal *refusal)
{
	const char *before = " (";

	for (size_t at = 0; at < DETAILS; at++) {
		uint64_t number;

		if (!(refusal->has & 1u << at))
			continue;
		memcpy(&number, (const char *)refusal + details[at].at, sizeof(number));
		to += sprintf(to, "%s%s %llu", before, details[at].name, (unsigned long long)number);
		before = ", ";
	}
	strcpy(to, refusal->has ? ")" : "");
}

const char *ebpf_explain(const struct ebpf_handle *handle)
{
	const struct ebpf_error *error = ebpf_last_error(handle);
	const char *text = ebpf_strerror(error->number);
	size_t len = strlen(text);
	char *sentence;

	if (!handle || (!error->name_len && !error->refusal.has))
		return text;
	if (handle->sentence)
		return handle->sentence;
	if (error->name_len > SIZE_MAX / 2)
		return text;
	sentence = malloc(len + error->name_len + DETAILS * DETAIL_ROOM + 8);
	if (!sentence)
		return text;
	memcpy(sentence, text, len);
	if (error->name_len) {
		len += (size_t)sprintf(sentence + len, ": \"");
		memcpy(sentence + len, error->name, error->name_len);
		len += error->name_len;
		sentence[len++] = '"';
	}
	put_details(sentence + len, &error->refusal);
	((struct ebpf_handle *)handle)->sentence = sentence;
	return sentence;
}

/* ---- names of numbers */

/* The names of the numbers of the layer. */
static const char *own_name(uint32_t number)
{
	switch (number) {
	case EBPF_BAD_OPTIONS:
		return "BadOptions";
	case EBPF_NO_ROW:
		return "NoRow";
	case EBPF_OTHER_VERSION:
		return "OtherVersion";
	default:
		return NULL;
	}
}

uint32_t ebpf_number_name(uint32_t number, char *text, size_t room, size_t *len)
{
	const char *name = own_name(number);
	size_t no_len = 0;

	if (!len)
		len = &no_len;
	if (!name)
		return exact_ebpf_number_name(number, EBPF_ARRAY(text, room), len);
	*len = strlen(name);
	if (!text || room < *len)
		return EBPF_ROOM;
	memcpy(text, name, *len);
	return EBPF_DONE;
}

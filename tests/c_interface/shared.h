/* What the test programs of the C interface share. */
#ifndef SHARED_H
#define SHARED_H

#define _GNU_SOURCE
#include "exact.h"
#include <err.h>
#include <stdio.h>
#include <stdlib.h>
#include <string.h>

struct bytes {
	uint8_t *at;
	size_t len;
};

/* Zeros, one more than are asked for: the proved calls take no null pointer. */
static inline void *zeros(size_t count, size_t size)
{
	void *made = calloc(count + 1, size);

	if (!made)
		errx(3, "no memory");
	return made;
}

static inline struct bytes read_file(const char *path)
{
	FILE *file = fopen(path, "rb");
	struct bytes read = { NULL, 0 };
	size_t room = 0;

	if (!file)
		err(3, "%s", path);
	do {
		room = 2 * room + 4096;
		read.at = realloc(read.at, room);
		if (!read.at)
			errx(3, "no memory");
		read.len += fread(read.at + read.len, 1, room - read.len, file);
	} while (read.len == room);
	fclose(file);
	return read;
}

/* What the proved calls take: a public handle begins with it. */
#define EXACT(handle) ((handle) ? (struct exact_handle *)(handle) : &(struct exact_handle){ NULL })

/* Opens a file by strict parsing; NULL behind a refusal. */
static inline uint32_t open_strictly(const uint8_t *file, size_t file_len, struct ebpf_handle **handle)
{
	struct ebpf_open_options options = ebpf_open_defaults();
	uint32_t number;

	options.parsing = EBPF_STRICT;
	number = ebpf_open(file, file_len, &options, handle);
	if (number != EBPF_DONE) {
		ebpf_close(*handle);
		*handle = NULL;
	}
	return number;
}

static inline void print_hex(const void *bytes, size_t len)
{
	for (size_t at = 0; at < len; at++)
		printf("%02x", ((const uint8_t *)bytes)[at]);
}

#endif

/* What the parts of `layer` share. */
#ifndef LAYER_TESTS_H
#define LAYER_TESTS_H

#include "checked.h"

/* The files that it is given. */
struct layer_files {
	struct bytes small, counter, loaded, no_kind, types;
};

/* The object of a file, by lenient parsing. */
struct ebpf_handle *object_of(const struct bytes *file);

/* Whether the last error of a handle has the number. */
int is_last(const struct ebpf_handle *object, uint32_t number);

/* layer_lists.c: what a handle keeps for its caller */
void check_kept(const struct layer_files *files);

/* layer_types.c: a kernel's types that are read once */
void check_types(const struct layer_files *files);

/* layer_wanted.c: descriptors and symbols that an object wants */
void check_wanted(const struct layer_files *files);

/* layer_leaving.c: programs that are left out */
void check_leaving(void);

/* layer_memory.c: each allocation failing in turn */
void check_memory(const struct layer_files *files);

#endif

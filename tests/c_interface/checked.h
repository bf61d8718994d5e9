/* What the parts of `bounds` share. */
#ifndef CHECKED_H
#define CHECKED_H

#include "guarded.h"

extern size_t passed, failed;

void count_check(int holds, const char *of, const char *what, int line);

#define CHECK(of, holds) count_check(holds, of, #holds, __LINE__)

/* The object of a file that can be opened. */
struct ebpf_handle *opened(const struct guarded *file);

/* ebpf_set_value over an object with the variable `seen`, of 8 bytes. */
void check_values_of_one(struct ebpf_handle *object);

/* ebpf_set_values over an object with the variables `wanted` and `seen`. */
void check_values_by_rows(const struct guarded *file);

/* A call that lists, with a name for what a refusal is about. */
typedef uint32_t told_list_call(struct ebpf_handle *, void *, size_t, char *, size_t, struct ebpf_counts *, char *, size_t,
				struct ebpf_refusal *);

struct told_list {
	const char *name;
	told_list_call *call;
	size_t row;   /* its size, in bytes */
	size_t names; /* how many places of names a row begins with */
};

/* Such a call on an object of which it lists some, with more room than it needs, with less and with none. */
void check_told_list(const struct told_list *list, struct ebpf_handle *of);

/* One thing by its name, link maps, and what records come to: over an object whose program `p` calls another function,
 * and one with the program `on_packet`, the map `counts` and records, over a kernel's types. */
void check_found_calls(const struct guarded *small, const struct guarded *counter, const struct guarded *types);

/* Null pointers, over an object with programs, maps, variables and no externs. */
void check_nulls(const struct guarded *file);

/* ebpf_set_value for a variable that an object lacks, with so much room for its name. */
void check_about(struct ebpf_handle *object, const char *variable, size_t room);

/* The calls for loaders, over an object with externs of .kconfig and a map of maps that has initial values. */
void check_loader_calls(const struct guarded *file);

#endif

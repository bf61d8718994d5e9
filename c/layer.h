/* What the files of the layer share. */
#ifndef EBPF_LAYER_H
#define EBPF_LAYER_H

#include "ebpf.h"
#include "exact.h"

/* No name of this part is seen outside the library. */
#ifdef __GNUC__
#pragma GCC visibility push(hidden)
#endif

/* Names up to this length need no memory of their own. */
#define EBPF_NAME_ROOM 127

struct ebpf_kept;

/* A handle: what the proved calls have of it, its error, and what it keeps for its caller. */
struct ebpf_handle {
	struct exact_handle exact;
	struct ebpf_error error;
	struct ebpf_kept *kept;
	char *long_name; /* the name of the error, where it is longer than `name` */
	char *sentence;	 /* what ebpf_explain said of it */
	char name[EBPF_NAME_ROOM + 1];
};

/* What a proved call says of its refusal. It is no memory of the handle: a name of that may be given to the call. */
struct ebpf_told {
	struct ebpf_refusal refusal;
	char *at; /* `room` bytes, and one for a zero */
	size_t room;
	uint32_t is_cut;
	char name[EBPF_NAME_ROOM + 1];
};

/* The types of a kernel: what the proved calls have of them. */
struct ebpf_btf {
	struct exact_btf exact;
};

/* Where an empty array is. */
extern uint64_t ebpf_layer_nothing;

/* A null handle is a closed one, in a place of the call's own. */
#define EBPF_EXACT(handle) ((handle) ? (struct exact_handle *)&(handle)->exact : &closed)

/* Null types are closed ones. */
#define EBPF_TYPES(btf) ((btf) ? (struct exact_btf *)&(btf)->exact : &no_types)

/* A null array is empty. */
#define EBPF_ARRAY(array, count) (array) ? (void *)(array) : (void *)&ebpf_layer_nothing, (array) ? (count) : 0

/* Where a proved call says why it refuses. */
#define EBPF_TOLD(told) (told).at, (told).room, &(told).refusal

/* errors.c */
void ebpf_layer_begin(struct ebpf_told *told);
int ebpf_layer_is_cut(uint32_t number, struct ebpf_told *told);
uint32_t ebpf_layer_end(const struct ebpf_handle *handle, uint32_t number, struct ebpf_told *told);
uint32_t ebpf_layer_change(struct ebpf_handle *handle, uint32_t number, struct ebpf_told *told);

/* handles.c */
struct ebpf_handle *ebpf_layer_make(void);
int ebpf_layer_options(const void *options, void *known, size_t size);

/* kept.c: what a handle keeps. Those before EBPF_KEPT_SLOTS are lists of rows with names */
enum ebpf_kept_kind {
	EBPF_KEPT_PROGRAMS,
	EBPF_KEPT_MAPS,
	EBPF_KEPT_EXTERNS,
	EBPF_KEPT_SECTIONS,
	EBPF_KEPT_KCONFIG,
	EBPF_KEPT_VARIABLES,
	EBPF_KEPT_INITIAL_SLOTS,
	EBPF_KEPT_OUTCOMES,
	EBPF_KEPT_REASONS,
	EBPF_KEPT_COPIES,
	EBPF_KEPT_WITHOUT_DESCRIPTORS,
	EBPF_KEPT_STRUCT_OPS_MAPS,
	EBPF_KEPT_STRUCT_OPS_PROGRAMS,
	EBPF_KEPT_SLOTS,
	EBPF_KEPT_FUNC_INFOS,
	EBPF_KEPT_LINE_INFOS,
	EBPF_KEPT_SECTION_NAME,
	EBPF_KEPT_CONTENTS,
	EBPF_KEPT_LICENSE,
	EBPF_KEPT_TYPES,
	EBPF_KEPT_LEAST_TYPES,
	EBPF_KEPT_CONFIGURED,
	EBPF_KEPT_NUMBERED,
	EBPF_KEPT_STRUCT_OPS_VALUE,
};

struct ebpf_kept {
	struct ebpf_kept *next;
	enum ebpf_kept_kind kind;
	size_t index; /* of the program or the map that it is of */
	size_t count; /* how many rows or values */
	char *text;   /* behind these, with the names of rows; else one zero byte */
	_Alignas(8) uint8_t rows[];
};

/* What is asked for, and what the proved call is given for it. */
struct ebpf_asked {
	enum ebpf_kept_kind kind;
	size_t index;
	const void *name; /* or a file, or types, or the names of descriptors */
	size_t name_len;
	const struct exact_descriptor *descriptors;
	size_t descriptors_len;
	struct exact_btf *btf; /* types that were read, in the place of bytes */
	const char *config;
	size_t config_len;
	uint64_t number;
	struct ebpf_verdict_summary *summary;
	uint32_t is_found; /* 0: the configuration has no value */
};

const struct ebpf_kept *ebpf_layer_find(const struct ebpf_handle *handle, enum ebpf_kept_kind kind, size_t index);
const struct ebpf_kept *ebpf_layer_take(const struct ebpf_handle *handle, struct ebpf_asked *asked);
void ebpf_layer_drop(struct ebpf_handle *handle);

/* lists.c */
uint32_t ebpf_layer_taken(const struct ebpf_handle *handle, struct ebpf_asked *asked, size_t *count);

/* asking.c */
size_t ebpf_layer_row(enum ebpf_kept_kind kind);
uint32_t ebpf_layer_ask(const struct ebpf_handle *handle, struct ebpf_asked *asked, struct ebpf_kept *into,
			struct ebpf_counts *counts, struct ebpf_told *told);

#ifdef __GNUC__
#pragma GCC visibility pop
#endif
#endif

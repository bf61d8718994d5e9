/* What the files of the loader share. */
#ifndef LOADER_H
#define LOADER_H

#define _GNU_SOURCE
#include "ebpf.h"
#include <err.h>
#include <linux/bpf.h>
#include <stdio.h>
#include <stdlib.h>
#include <string.h>

enum { ARENA = 33 }; /* BPF_MAP_TYPE_ARENA: headers before Linux 6.9 lack it */

struct bytes {
	uint8_t *at;
	size_t len;
};

/* A map of struct_ops, copied of what the library says of it. */
struct struct_ops {
	struct ebpf_struct_ops_map row;
	char *name;
	uint8_t *value;
	struct ebpf_struct_ops_program *programs;
	char **program_names;
	int descriptor;
};

/* An object that is loaded. */
struct loading {
	struct ebpf_handle *object;
	struct bytes file;
	struct ebpf_btf *kernel_types; /* NULL until they are asked for */
	struct bytes kernel_symbols;
	struct bytes types; /* the object's types as the library writes them for the kernel; kept until it changes */
	int own_types; /* the descriptor of the object's types; -1 where it has none, or the kernel doesn't take them */
	int *maps;     /* the descriptor of each map, in the order of the library's list */
	int *programs; /* the descriptor of each program in that order, -1 until it is loaded */
	uint8_t *arena; /* the pages of the arena, where it has one */
	struct struct_ops *struct_ops;
	size_t struct_ops_count;
};

/* files.c: memory, and the bytes of files */
void *zeros(size_t count, size_t size);
int *no_descriptors(size_t count);
struct bytes read_stream(FILE *stream, const char *name);
struct bytes read_file(const char *path);

/* calls.c: what the library and the kernel answer */
void check(const struct loading *of, const char *what, uint32_t number);
const void *need(const struct loading *of, const char *what, const void *kept);
void clear(union bpf_attr *attr);
void put_name(char *to, const char *name);
int bpf(enum bpf_cmd command, union bpf_attr *attr);
char *log_buffer(size_t *size);
_Noreturn void refused(const char *log, const char *what, const char *name);

/* kconfig.c */
uint32_t running_version(void);
void define_kconfig(struct loading *of, const char *config_path);

/* types.c */
const struct ebpf_btf *kernel_types(struct loading *of);
const struct ebpf_btf *wanted_types(struct loading *of);
void load_types(struct loading *of);
uint32_t target_of(struct loading *of, size_t program);
int has_function(struct loading *of, const char *name);
void print_targets(struct loading *of);

/* shared.c */
int has_shared_variable(const struct loading *of, uint32_t section_type);

/* maps.c */
void make_maps(struct loading *of);
int has_map(const struct loading *of, const char *name, size_t *at);
size_t find_map(const struct loading *of, const char *name);

/* initial.c */
void put_initial(const struct loading *of, int are_programs);

/* struct_ops.c */
void list_struct_ops(struct loading *of);
const struct struct_ops *map_of_program(const struct loading *of, const char *name, uint32_t *member);
void make_struct_ops(struct loading *of);
void register_struct_ops(const struct loading *of, const char *name, unsigned milliseconds);
void free_struct_ops(struct loading *of);

/* programs.c */
void load_programs(struct loading *of);
size_t find_program(const struct loading *of, const char *name);

/* running.c */
void run(int loaded, const struct ebpf_program *program, struct bytes given, unsigned milliseconds);

/* printing.c */
void print_held(struct loading *of, const char *name);

#endif

/* What an object has, line by line. */
#ifndef LISTED_H
#define LISTED_H

#include "ebpf.h"

void put_programs(struct ebpf_handle *object);
void put_program_sections(struct ebpf_handle *object);
void put_maps(struct ebpf_handle *object);
void put_externs(struct ebpf_handle *object);
void put_sections(struct ebpf_handle *object);
void put_info(struct ebpf_handle *object);
void put_slots(struct ebpf_handle *object);
void put_records(struct ebpf_handle *object);

/* Makes a descriptor for each map: 1, 2, .. in the order of the list. The caller frees both. */
size_t number_maps(struct ebpf_handle *object, struct ebpf_descriptor **rows, char **text);

#endif

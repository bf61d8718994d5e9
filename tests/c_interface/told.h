/* What calls tell of a refusal. */
#ifndef TOLD_H
#define TOLD_H

#include "shared.h"

/* A refusal that no call wrote. */
struct ebpf_refusal unwritten(void);
int is_unwritten(const struct ebpf_refusal *refusal);

/* Whether it is of this number and this many bytes of a name, and has 0 in the place of each number that it lacks. */
int is_told(const struct ebpf_refusal *refusal, uint32_t number, size_t name_len);

/* Prints the numbers that an error states, as ` {slot 3 offset 8}`; nothing where it states none. */
void put_details(const struct ebpf_refusal *refusal);

#endif

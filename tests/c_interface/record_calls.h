/* What CO-RE records come to. */
#ifndef RECORD_CALLS_H
#define RECORD_CALLS_H

#include "loader_calls.h"

/* Makes the call of an action, and prints what it lists; its number. -1 where no call has the name. */
int64_t record_call(const struct made_on *on, const char *name);

/* The number of a call that reads. -1 where no call has the name. */
int64_t ask_record_call(const struct made_on *on, const char *call);

/* Relocates an object to types, and ends the program where it refuses by another record than the first that was told. */
uint32_t relocate_as_told(const struct made_on *on);

#endif

/* Maps that are completed, and maps of struct_ops. */
#ifndef STRUCT_OPS_CALLS_H
#define STRUCT_OPS_CALLS_H

#include "loader_calls.h"

/* Makes the call of an action, and prints what it lists; its number. -1 where no call has the name. */
int64_t struct_ops_call(const struct made_on *on, const char *name, const char *rest);

/* The number of a call that reads. -1 where no call has the name. */
int64_t ask_struct_ops_call(const struct made_on *on, const char *call);

#endif

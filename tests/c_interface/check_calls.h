/* The verdict of a kernel on an object, and what is asked of types that were read. */
#ifndef CHECK_CALLS_H
#define CHECK_CALLS_H

#include "loader_calls.h"

/* Makes the call of an action, and prints what it lists; its number. -1 where no call has the name. */
int64_t check_call(const struct made_on *on, const char *name);

/* The number of a call that reads. -1 where no call has the name. */
int64_t ask_check_call(const struct made_on *on, const char *call);

#endif

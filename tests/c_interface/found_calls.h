/* One thing by its name, and what a program is made of once it is linked. */
#ifndef FOUND_CALLS_H
#define FOUND_CALLS_H

#include "loader_calls.h"

/* Makes the call of an action, and prints what it finds; its number. -1 where no call has the name. */
int64_t found_call(const struct made_on *on, const char *name, char *rest);

/* The number of a call that reads, with this room. -1 where no call has the name. */
int64_t ask_found_call(const struct made_on *on, const char *call, const char *name, struct room *room);

/* Links the programs of an object, and ends the program where one is not made of what its link map said. */
uint32_t link_as_told(const struct made_on *on);

#endif

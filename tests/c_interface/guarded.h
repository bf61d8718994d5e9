/* Memory whose end is the end of a page, with none behind it: a read or a write past it ends the program. */
#ifndef GUARDED_H
#define GUARDED_H

#include "shared.h"
#include <sys/mman.h>

#define PAGE 4096u

struct guarded {
	uint8_t *at; /* `size` bytes, 0x55 each */
	size_t size;
	uint8_t *pages;
	size_t mapped;
};

static inline struct guarded guarded(size_t size)
{
	struct guarded made = { NULL, size, NULL, (size + 2 * PAGE - 1) / PAGE * PAGE + PAGE };

	made.pages = mmap(NULL, made.mapped, PROT_READ | PROT_WRITE, MAP_PRIVATE | MAP_ANONYMOUS, -1, 0);
	if (made.pages == MAP_FAILED || mprotect(made.pages + made.mapped - PAGE, PAGE, PROT_NONE))
		err(3, "mmap");
	memset(made.pages, 0x55, made.mapped - PAGE);
	made.at = made.pages + made.mapped - PAGE - size;
	return made;
}

/* The same with these bytes, which can't be written. */
static inline struct guarded guarded_copy(const void *bytes, size_t size)
{
	struct guarded made = guarded(size);

	memcpy(made.at, bytes, size);
	if (mprotect(made.pages, made.mapped - PAGE, PROT_READ))
		err(3, "mprotect");
	return made;
}

static inline int is_filled(const uint8_t *from, const uint8_t *to)
{
	while (from < to && *from == 0x55)
		from++;
	return from == to;
}

/* Whether all bytes from one on, and those in front of the memory, are as they were made. */
static inline int is_untouched(const struct guarded *held, size_t from)
{
	return is_filled(held->pages, held->at) && is_filled(held->at + from, held->at + held->size);
}

static inline void release(struct guarded *held)
{
	munmap(held->pages, held->mapped);
}

#endif

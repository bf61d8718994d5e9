/* Memory of `passes`: parts that end where a page begins that can't be touched, and how much is taken. */
#ifndef PARTS_H
#define PARTS_H

#include <malloc.h>
#include <stdint.h>
#include <stdio.h>
#include <stdlib.h>
#include <sys/mman.h>

#if defined(__has_feature)
#if __has_feature(address_sanitizer)
#define __SANITIZE_ADDRESS__
#endif
#endif
#if defined(__SANITIZE_ADDRESS__)
size_t __sanitizer_get_current_allocated_bytes(void);
#endif

/* Room for one file or buffer, and behind it, which is a page or some. */
#define ROOM (1 << 22)
#define PAGE (1 << 16)

/* The part of memory in front of a page that can't be touched. */
struct part {
	uint8_t *end;
};

static void stop(const char *what)
{
	perror(what);
	exit(3);
}

static struct part made(void)
{
	uint8_t *at = mmap(NULL, ROOM + PAGE, PROT_READ | PROT_WRITE, MAP_PRIVATE | MAP_ANONYMOUS, -1, 0);

	if (at == MAP_FAILED || mprotect(at + ROOM, PAGE, PROT_NONE))
		stop("memory");
	return (struct part){ at + ROOM };
}

/* So many bytes at the end of a part. */
static void *room(struct part part, size_t size)
{
	return size > ROOM ? NULL : part.end - size;
}

/* The bytes that the program has taken and not freed. */
static size_t taken(void)
{
#if defined(__SANITIZE_ADDRESS__)
	return __sanitizer_get_current_allocated_bytes();
#else
	return mallinfo2().uordblks;
#endif
}

#endif

/*
 * Counts the bytes that a Rattle program holds: what it asked for of each block that it has not given back, and the most
 * that it held at once.
 *
 * A Rattle program takes memory by rattle_alloc and rattle_realloc and gives it back by rattle_dealloc. The program is
 * linked with them, so their first bytes are overwritten by a jump.
 */
#define _GNU_SOURCE
#include <stdint.h>
#include <stdio.h>
#include <stdlib.h>
#include <string.h>
#include <sys/mman.h>
#include <unistd.h>

struct block {
	uint64_t is_some;
	void *start;
};

struct block rattle_alloc(size_t size, size_t align);
struct block rattle_realloc(void *block, size_t kept, size_t size, size_t align);
void rattle_dealloc(void *block);

/* What stands before each block that is counted: the bytes that were asked for, and that this is so. */
struct head {
	size_t size;
	uint64_t mark;
};

#define MARK 0x68656164206f6672ull

static long live, most;

static struct head *head_of(void *block)
{
	struct head *head = (struct head *)block - 1;

	return head->mark == MARK ? head : NULL;
}

static struct block counted(struct head *head, size_t size)
{
	struct block block = {head != NULL, head ? (void *)(head + 1) : (void *)16};

	if (!head)
		return block;
	head->size = size;
	head->mark = MARK;
	live += (long)size;
	if (live > most)
		most = live;
	return block;
}

static struct block counted_alloc(size_t size, size_t align)
{
	(void)align;
	return counted(malloc(size + sizeof(struct head)), size);
}

static void counted_dealloc(void *block)
{
	struct head *head = head_of(block);

	if (!head) {
		free(block);
		return;
	}
	live -= (long)head->size;
	head->mark = 0;
	free(head);
}

static struct block counted_realloc(void *block, size_t kept, size_t size, size_t align)
{
	long before = most;
	struct block moved = counted_alloc(size, align);

	if (!moved.is_some)
		return moved;
	memcpy(moved.start, block, kept < size ? kept : size);
	counted_dealloc(block);
	/* A block may grow where it is: it does not count twice. */
	most = before > live ? before : live;
	return moved;
}

/* Overwrites the beginning of a function by `movabs $to, %rax; jmp *%rax`. */
static void lead(void *from, void *to)
{
	unsigned char jump[12] = {0x48, 0xb8, [10] = 0xff, 0xe0};
	uintptr_t page = (uintptr_t)sysconf(_SC_PAGESIZE);

	memcpy(jump + 2, &to, sizeof(to));
	if (mprotect((void *)((uintptr_t)from & ~(page - 1)), 2 * page, PROT_READ | PROT_WRITE | PROT_EXEC)) {
		perror("mprotect");
		_exit(3);
	}
	memcpy(from, jump, sizeof(jump));
}

/* Counts from here on. */
void live_bytes_begin(void)
{
	lead((void *)rattle_alloc, (void *)counted_alloc);
	lead((void *)rattle_realloc, (void *)counted_realloc);
	lead((void *)rattle_dealloc, (void *)counted_dealloc);
}

/* The bytes that are held now. */
long live_bytes(void)
{
	return live;
}

/* The most bytes that were held at once since the last call, and the count of the most begins anew. */
long most_bytes(void)
{
	long was = most;

	most = live;
	return was;
}

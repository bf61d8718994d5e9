/*
 * Refuses memory to the program that it is preloaded into (glibc). A growth is a call of malloc, calloc, posix_memalign or
 * aligned_alloc, or one of realloc for more bytes than the block was asked for.
 *
 * GROWTHS_REFUSED   N: the Nth growth is refused; N-: that and all behind it; 0: none
 * GROWTHS_MARKED    1: growths count behind the line "== begin" on standard output, up to the line "== end";
 *                   0: all count
 *
 * At the end "growths MET REFUSED" stands on standard error: how many were met, and how many of them refused.
 */
#define _GNU_SOURCE
#include <errno.h>
#include <stddef.h>
#include <stdint.h>
#include <stdlib.h>
#include <string.h>
#include <sys/syscall.h>
#include <unistd.h>

void *__libc_malloc(size_t);
void *__libc_realloc(void *, size_t);
void *__libc_memalign(size_t, size_t);
void __libc_free(void *);

static unsigned long first, met, refused;
static int goes_on, is_marked, counts;

/* What stands before each block of malloc, calloc and realloc: the bytes that were asked for, and that this is so. */
struct head {
	size_t size;
	uint64_t mark;
};

#define MARK 0x68656164206f6672ull

static struct head *head_of(void *block)
{
	struct head *head = (struct head *)block - 1;

	return head->mark == MARK ? head : NULL;
}

static int is_refused(void)
{
	if (!counts)
		return 0;
	met++;
	if (first == 0 || met < first || (met > first && !goes_on))
		return 0;
	refused++;
	errno = ENOMEM;
	return 1;
}

static void *with_head(struct head *head, size_t size)
{
	if (!head)
		return NULL;
	head->size = size;
	head->mark = MARK;
	return head + 1;
}

static int is_huge(size_t size)
{
	if (size < SIZE_MAX - sizeof(struct head))
		return 0;
	errno = ENOMEM;
	return 1;
}

void *malloc(size_t size)
{
	if (is_refused() || is_huge(size))
		return NULL;
	return with_head(__libc_malloc(size + sizeof(struct head)), size);
}

void *calloc(size_t count, size_t size)
{
	size_t bytes;
	void *block;

	if (__builtin_mul_overflow(count, size, &bytes)) {
		errno = ENOMEM;
		return NULL;
	}
	/* not malloc: of that and memset a compiler makes calloc */
	if (is_refused() || is_huge(bytes))
		return NULL;
	block = with_head(__libc_malloc(bytes + sizeof(struct head)), bytes);
	return block ? memset(block, 0, bytes) : NULL;
}

void free(void *block)
{
	struct head *head;

	if (!block)
		return;
	head = head_of(block);
	if (!head) {
		__libc_free(block);
		return;
	}
	head->mark = 0;
	__libc_free(head);
}

void *realloc(void *block, size_t size)
{
	struct head *head;

	if (!block)
		return malloc(size);
	head = head_of(block);
	if (size == 0) {
		free(block);
		return NULL;
	}
	if (!head)
		return is_refused() ? NULL : __libc_realloc(block, size);
	if ((size > head->size && is_refused()) || is_huge(size))
		return NULL;
	return with_head(__libc_realloc(head, size + sizeof(struct head)), size);
}

int posix_memalign(void **to, size_t align, size_t size)
{
	if (is_refused())
		return ENOMEM;
	*to = __libc_memalign(align, size);
	return *to ? 0 : ENOMEM;
}

void *aligned_alloc(size_t align, size_t size)
{
	return is_refused() ? NULL : __libc_memalign(align, size);
}

ssize_t write(int file, const void *bytes, size_t size)
{
	static const char begin[] = "== begin\n", end[] = "== end\n";

	if (is_marked && file == 1 && size == sizeof(begin) - 1 && !memcmp(bytes, begin, size))
		counts = 1;
	if (is_marked && file == 1 && size == sizeof(end) - 1 && !memcmp(bytes, end, size))
		counts = 0;
	return syscall(SYS_write, file, bytes, size);
}

ssize_t __write(int file, const void *bytes, size_t size)
{
	return write(file, bytes, size);
}

__attribute__((constructor)) static void start(void)
{
	const char *number = getenv("GROWTHS_REFUSED"), *marked = getenv("GROWTHS_MARKED");
	char *rest = "";

	first = number ? strtoul(number, &rest, 10) : 0;
	goes_on = *rest == '-';
	is_marked = marked && *marked == '1';
	counts = !is_marked;
}

static char *put(char *to, const char *text)
{
	while (*text)
		*to++ = *text++;
	return to;
}

static char *put_number(char *to, unsigned long number)
{
	char digits[24], *from = digits + sizeof(digits) - 1;

	*from = 0;
	do
		*--from = '0' + number % 10;
	while (number /= 10);
	return put(to, from);
}

__attribute__((destructor)) static void finish(void)
{
	char line[80], *to = put(line, "growths ");

	to = put(put_number(to, met), " ");
	to = put(put_number(to, refused), "\n");
	syscall(SYS_write, 2, line, to - line);
}

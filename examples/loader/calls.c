/* What the library and the kernel answer. */
#include "loader.h"
#include <sys/syscall.h>
#include <unistd.h>

/* Ends the loader where the library refuses: why, what that is about and what else is known of it. */
void check(const struct loading *of, const char *what, uint32_t number)
{
	if (number != EBPF_DONE)
		errx(1, "%s: the library refuses: %s (%u)", what, ebpf_explain(of->object), number);
}

/* What the library keeps, or the end where it refuses that. */
const void *need(const struct loading *of, const char *what, const void *kept)
{
	if (!kept)
		check(of, what, ebpf_last_error(of->object)->number);
	return kept;
}

/* All zero, which the kernel asks of what a command doesn't use; an initialiser of a union clears one member alone. */
void clear(union bpf_attr *attr)
{
	memset(attr, 0, sizeof(*attr));
}

/* The kernel keeps 15 bytes of a name. */
void put_name(char *to, const char *name)
{
	memcpy(to, name, strnlen(name, BPF_OBJ_NAME_LEN - 1));
}

int bpf(enum bpf_cmd command, union bpf_attr *attr)
{
	return syscall(SYS_bpf, command, attr, sizeof(*attr));
}

/* Where the kernel writes why it refuses. */
char *log_buffer(size_t *size)
{
	static char log[1 << 24];

	*size = sizeof(log);
	return log;
}

/* Ends the loader with the kernel's own words. */
_Noreturn void refused(const char *log, const char *what, const char *name)
{
	err(1, "%s\nthe kernel refuses %s %s", log, what, name);
}

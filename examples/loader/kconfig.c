/* Values of the externs that the kernel's configuration gives. */
#include "loader.h"
#include <sys/utsname.h>
#include <unistd.h>

static struct utsname running_kernel(void)
{
	struct utsname kernel;

	if (uname(&kernel))
		err(1, "uname");
	return kernel;
}

static uint32_t version(uint32_t major, uint32_t minor, uint32_t patch)
{
	return major << 16 | minor << 8 | (patch < 255 ? patch : 255);
}

uint32_t running_version(void)
{
	struct utsname kernel = running_kernel();
	unsigned major, minor, patch = 0;

	if (sscanf(kernel.release, "%u.%u.%u", &major, &minor, &patch) < 2)
		errx(1, "the kernel's release %s begins with no version", kernel.release);
	return version(major, minor, patch);
}

/* The name of the kernel's function for bpf(2) where system calls are wrapped, by the processor. */
static const char *wrapped_call(void)
{
#if defined(__x86_64__)
	return "__x64_sys_bpf";
#elif defined(__aarch64__)
	return "__arm64_sys_bpf";
#elif defined(__s390x__)
	return "__s390x_sys_bpf";
#elif defined(__riscv)
	return "__riscv_sys_bpf";
#else
	return NULL;
#endif
}

/* Whether a loader knows the value of an extern by the kernel's version and types alone. */
static int is_known(struct loading *of, const char *name, uint64_t *value)
{
	uint32_t running = running_version();

	if (!strcmp(name, "LINUX_KERNEL_VERSION"))
		*value = running;
	else if (!strcmp(name, "LINUX_HAS_BPF_COOKIE"))
		*value = running >= version(5, 15, 0);
	else if (!strcmp(name, "LINUX_HAS_SYSCALL_WRAPPER"))
		*value = wrapped_call() && has_function(of, wrapped_call());
	else
		return 0;
	return 1;
}

/* What zcat makes of /proc/config.gz, so that the loader needs no library that unpacks. */
static struct bytes unpacked_config(void)
{
	FILE *unpacked = popen("exec zcat /proc/config.gz", "r");
	struct bytes config;

	if (!unpacked)
		err(1, "zcat");
	config = read_stream(unpacked, "/proc/config.gz");
	if (pclose(unpacked))
		errx(1, "zcat doesn't unpack /proc/config.gz");
	return config;
}

/* The configuration of the running kernel, or that of a file; empty where the kernel doesn't tell its own. */
static struct bytes read_config(const char *given)
{
	struct utsname kernel = running_kernel();
	char path[sizeof(kernel.release) + 16];

	if (given)
		return read_file(given);
	snprintf(path, sizeof(path), "/boot/config-%s", kernel.release);
	if (!access(path, R_OK))
		return read_file(path);
	if (!access("/proc/config.gz", R_OK))
		return unpacked_config();
	return (struct bytes){ zeros(0, 1), 0 };
}

/* The value of an extern, or NULL where none is known. */
static const uint8_t *value_of(struct loading *of, const char *name, struct bytes config, size_t *len)
{
	const uint8_t *value;
	uint64_t known;

	if (is_known(of, name, &known))
		value = ebpf_kconfig_number(of->object, name, strlen(name), known, len);
	else
		value = ebpf_kconfig_value(of->object, name, strlen(name), (const char *)config.at, config.len, len);
	if (!value)
		check(of, name, ebpf_last_error(of->object)->number);
	return value;
}

/* Defines externs by the values that are known; the library refuses where one is wanted and isn't known. */
static void define_externs(struct loading *of, size_t externs, struct bytes config)
{
	struct ebpf_value_row *rows = zeros(externs, sizeof(*rows)), *row = rows;

	for (size_t at = 0; at < externs; at++) {
		row->name = ebpf_kconfig_at(of->object, at, NULL);
		row->name_len = strlen(row->name);
		row->value = value_of(of, row->name, config, &row->value_len);
		row += row->value != NULL;
	}
	check(of, "externs of .kconfig", ebpf_define_kconfig(of->object, rows, row - rows));
	free(rows);
}

/* Defines the externs that the kernel's configuration gives; reads it only where there are some. */
void define_kconfig(struct loading *of, const char *config_path)
{
	size_t externs = ebpf_kconfig_count(of->object);
	struct bytes config;

	check(of, "externs of .kconfig", ebpf_last_error(of->object)->number);
	if (!externs)
		return;
	config = read_config(config_path);
	define_externs(of, externs, config);
	free(config.at);
}

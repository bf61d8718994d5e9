/*
 * How long libbpf takes to read type information: `types_times FILE RUNS` prints 'first N us' and 'least N us' of so
 * many calls of btf__new() in one process.
 */
#include <bpf/btf.h>
#include <stdio.h>
#include <stdlib.h>
#include <time.h>

static double now(void)
{
	struct timespec at;

	clock_gettime(CLOCK_MONOTONIC, &at);
	return at.tv_sec * 1e6 + at.tv_nsec / 1e3;
}

static char *read_all(const char *path, long *size)
{
	FILE *file = fopen(path, "rb");
	long room = 1 << 20;
	char *bytes = malloc(room);
	size_t more;

	if (!file || !bytes)
		return NULL;
	*size = 0;
	while ((more = fread(bytes + *size, 1, room - *size, file)) > 0) {
		*size += more;
		if (*size == room && !(bytes = realloc(bytes, room *= 2)))
			return NULL;
	}
	fclose(file);
	return bytes;
}

int main(int count, char **words)
{
	double first = 0, least = 0;
	long size;
	char *bytes = count == 3 ? read_all(words[1], &size) : NULL;

	if (!bytes)
		return 2;
	for (int run = 0; run < atoi(words[2]); run++) {
		double start = now(), time;
		struct btf *types = btf__new(bytes, size);

		time = now() - start;
		if (!types)
			return 1;
		btf__free(types);
		if (run == 0)
			first = time;
		if (run == 0 || time < least)
			least = time;
	}
	printf("first %.0f us, least %.0f us\n", first, least);
	return 0;
}

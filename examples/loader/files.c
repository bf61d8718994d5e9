/* Memory, and the bytes of files. */
#include "loader.h"

/* Zeros, one more than are asked for: calloc(0) may be NULL. */
void *zeros(size_t count, size_t size)
{
	void *made = calloc(count + 1, size);

	if (!made)
		errx(1, "no memory");
	return made;
}

/* A list of descriptors, none of which is open. */
int *no_descriptors(size_t count)
{
	int *list = zeros(count, sizeof(*list));

	for (size_t at = 0; at < count; at++)
		list[at] = -1;
	return list;
}

/* All bytes up to the end of a stream. */
struct bytes read_stream(FILE *stream, const char *name)
{
	struct bytes read = { NULL, 0 };
	size_t room = 0;

	do {
		room = 2 * room + 65536;
		read.at = realloc(read.at, room);
		if (!read.at)
			errx(1, "no memory");
		read.len += fread(read.at + read.len, 1, room - read.len, stream);
	} while (read.len == room);
	if (ferror(stream))
		err(1, "%s", name);
	return read;
}

struct bytes read_file(const char *path)
{
	FILE *file = fopen(path, "rb");
	struct bytes read;

	if (!file)
		err(1, "%s", path);
	read = read_stream(file, path);
	fclose(file);
	return read;
}

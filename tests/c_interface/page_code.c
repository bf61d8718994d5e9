/*
 * Runs the C of README.md and docs/C.md. page_code.py writes each block into a file, which is included here behind the
 * declarations that the page takes for given.
 *
 * usage: page_code OBJECT TYPES OTHER      README.md: OBJECT and a kernel's TYPES; docs/C.md: the object OTHER
 */
#include "shared.h"

/* The number of slots of a linked program, and where its slot 11 leads. */
static void prepare(struct bytes object_file, struct bytes kernel)
{
	const uint8_t *file = object_file.at, *types = kernel.at;
	size_t file_len = object_file.len, types_len = kernel.len;
	const struct ebpf_descriptor maps[] = { { "counts", 6, 1 } };
	size_t map_count = 1, room = 64, count = 0;
	struct ebpf_insn *slots = zeros(room, sizeof(*slots));

#include "prepared.inc"
	printf("prepared %u: %zu slots, slot 11 calls %#x\n", refused, count, (unsigned)slots[11].imm);
	free(slots);
}

static struct ebpf_handle *opened(struct bytes file)
{
	struct ebpf_handle *handle;
	uint32_t number = open_strictly(file.at, file.len, &handle);

	if (number != EBPF_DONE)
		errx(3, "ebpf_open: %u", number);
	return handle;
}

/* A file from a stranger. */
static void open_within(struct bytes of)
{
	const uint8_t *file = of.at;
	size_t file_len = of.len;
	struct ebpf_handle *handle;
	uint32_t number;

#include "opened.inc"
	printf(number ? "not opened\n" : "opened\n");
	ebpf_close(handle);
}

/* All passes over types that were read. */
static void prepare_over(struct bytes file, struct bytes kernel)
{
	struct ebpf_handle *handle = opened(file);
	const uint8_t *types = kernel.at;
	size_t types_len = kernel.len, maps = 0, count = 0;
	struct ebpf_descriptor rows[16];
	struct ebpf_map map;
	uint32_t number;

	for (; maps < 16 && (rows[maps].name = ebpf_map_at(handle, maps, &map)); maps++) {
		rows[maps].name_len = map.name_len;
		rows[maps].descriptor = (int32_t)maps + 3;
	}
#include "read.inc"
	ebpf_program_slots(handle, 0, &count);
	printf("over types that were read: %u, %zu slots\n", number, count);
	ebpf_close(handle);
	ebpf_btf_close(btf);
}

/* The programs as the handle keeps them, and as they are written into buffers. */
static void list(struct bytes file)
{
	struct ebpf_handle *handle = opened(file);
	uint32_t number;

#include "kept.inc"
#include "listed.inc"
	printf("listed %u:", number);
	for (size_t row = 0; row < counts.rows; row++)
		printf(" %s %zu", text + rows[row].name_at, rows[row].slots);
	printf("\n");
	free(rows);
	free(text);
	ebpf_close(handle);
}

/* The refusal of a value of another size. */
static void refuse(struct bytes file)
{
	struct ebpf_handle *handle = opened(file);
	uint32_t number;

#include "refused.inc"
	printf("refused %u\n", number);
	ebpf_close(handle);
}

int main(int words, char **word)
{
	struct bytes object, types, other;

	if (words != 4)
		errx(2, "usage: page_code OBJECT TYPES OTHER");
	object = read_file(word[1]);
	types = read_file(word[2]);
	other = read_file(word[3]);
	prepare(object, types);
	open_within(other);
	prepare_over(other, types);
	list(other);
	refuse(other);
	free(object.at);
	free(types.at);
	free(other.at);
	return 0;
}

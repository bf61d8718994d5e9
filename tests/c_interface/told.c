/* What calls tell of a refusal. */
#include "told.h"

/* A field for each bit of ebpf_refusal.has. */
static const struct {
	enum ebpf_detail bit;
	const char *name;
	size_t at;
} details[] = {
	{ EBPF_HAS_SLOT, "slot", offsetof(struct ebpf_refusal, slot) },
	{ EBPF_HAS_OFFSET, "offset", offsetof(struct ebpf_refusal, offset) },
	{ EBPF_HAS_SYMBOL, "symbol", offsetof(struct ebpf_refusal, symbol) },
	{ EBPF_HAS_ADDRESS, "address", offsetof(struct ebpf_refusal, address) },
	{ EBPF_HAS_OTHER_ADDRESS, "other_address", offsetof(struct ebpf_refusal, other_address) },
	{ EBPF_HAS_SECTION, "section", offsetof(struct ebpf_refusal, section) },
	{ EBPF_HAS_SIZE, "size", offsetof(struct ebpf_refusal, size) },
	{ EBPF_HAS_OTHER_SIZE, "other_size", offsetof(struct ebpf_refusal, other_size) },
	{ EBPF_HAS_TYPE, "type", offsetof(struct ebpf_refusal, type_id) },
	{ EBPF_HAS_RELOCATION, "relocation", offsetof(struct ebpf_refusal, relocation) },
	{ EBPF_HAS_INDEX, "index", offsetof(struct ebpf_refusal, index) },
	{ EBPF_HAS_COUNT, "count", offsetof(struct ebpf_refusal, count) },
	{ EBPF_HAS_KIND, "kind", offsetof(struct ebpf_refusal, kind) },
};

#define COUNT (sizeof(details) / sizeof(*details))

static uint64_t detail(const struct ebpf_refusal *refusal, size_t at)
{
	uint64_t number;

	memcpy(&number, (const char *)refusal + details[at].at, sizeof(number));
	return number;
}

struct ebpf_refusal unwritten(void)
{
	struct ebpf_refusal made;

	memset(&made, 0x55, sizeof(made));
	return made;
}

int is_unwritten(const struct ebpf_refusal *refusal)
{
	struct ebpf_refusal made = unwritten();

	return !memcmp(refusal, &made, sizeof(made));
}

int is_told(const struct ebpf_refusal *refusal, uint32_t number, size_t name_len)
{
	uint32_t has = refusal->has;

	for (size_t at = 0; at < COUNT; at++) {
		if (!(refusal->has & details[at].bit) && detail(refusal, at))
			return 0;
		has &= ~(uint32_t)details[at].bit;
	}
	return !has && refusal->number == number && refusal->name_len == name_len;
}

void put_details(const struct ebpf_refusal *refusal)
{
	const char *before = " {";

	for (size_t at = 0; at < COUNT; at++) {
		if (!(refusal->has & details[at].bit))
			continue;
		printf("%s%s %llu", before, details[at].name, (unsigned long long)detail(refusal, at));
		before = " ";
	}
	if (refusal->has)
		printf("}");
}

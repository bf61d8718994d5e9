#include "record_calls.h"
#include "told.h"

struct outcomes {
	struct ebpf_record_outcome *rows;
	const char **sections;
	size_t count;
	uint32_t number;
};

/* The outcomes. Their sections are the handle's, until it is changed. */
static struct outcomes outcomes_of(const struct made_on *on)
{
	struct outcomes told = { NULL, NULL, 0, 0 };

	told.number = ebpf_record_outcomes(on->object, on->types.at, on->types.len, &told.count);
	told.rows = zeros(told.count, sizeof(*told.rows));
	told.sections = zeros(told.count, sizeof(*told.sections));
	for (size_t at = 0; at < told.count; at++) {
		told.sections[at] = ebpf_record_outcome_at(on->object, at, &told.rows[at]);
		if (!told.sections[at])
			errx(3, "an outcome is not there");
	}
	return told;
}

static void free_outcomes(struct outcomes *told)
{
	free(told->rows);
	free(told->sections);
}

static void put_row(const struct ebpf_record_outcome *row, const char *section)
{
	if (strlen(section) != row->name_len)
		errx(3, "a name that does not end where its row says");
	printf("record %zu of %s ", row->number, section);
	if (row->has_slot)
		printf("at %zu:%llu:%zu ", row->section, (unsigned long long)row->address, row->slot);
	else if (row->section || row->address || row->slot)
		errx(3, "a place without a slot");
	if (row->result == EBPF_RECORD_VALUE)
		printf("value %llu\n", (unsigned long long)row->value);
	else if (row->result == EBPF_RECORD_ABSENT)
		printf("absent %u\n", row->absence);
	else
		printf("refused %u\n", row->fault);
	if (row->value && row->result != EBPF_RECORD_VALUE)
		errx(3, "a value of a record without one");
	if (!row->absence != (row->result != EBPF_RECORD_ABSENT) || !row->fault != (row->result != EBPF_RECORD_REFUSED))
		errx(3, "a reason of a record of another result");
}

static int64_t put_outcomes(const struct made_on *on)
{
	struct outcomes told = outcomes_of(on);
	uint32_t number = told.number;

	for (size_t at = 0; number == EBPF_DONE && at < told.count; at++)
		put_row(&told.rows[at], told.sections[at]);
	free_outcomes(&told);
	return number;
}

/* The place of the first row that is refused, or how many rows there are. */
static size_t first_refused(const struct outcomes *told)
{
	size_t at = 0;

	while (at < told->count && told->rows[at].result != EBPF_RECORD_REFUSED)
		at++;
	return at;
}

/* A section without records may have a name that the file lacks, or that can't be read. */
static int is_of_section(uint32_t number)
{
	return number == EBPF_TYPES_SECTION_NOT_FOUND || number == EBPF_TYPES_FAULT_INVALID_STRING_OFFSET;
}

uint32_t relocate_as_told(const struct made_on *on)
{
	struct outcomes told = outcomes_of(on);
	size_t first = first_refused(&told);
	const struct ebpf_record_outcome *refused = first < told.count ? &told.rows[first] : NULL;
	char section[256] = "";
	const char *name;
	uint32_t number;

	if (refused)
		snprintf(section, sizeof(section), "%s", told.sections[first]);
	number = ebpf_relocate_types(on->object, on->types.at, on->types.len);
	name = ebpf_last_error(on->object)->name;
	if (number != EBPF_PASS_MADE && number != EBPF_PASS_ORDER) {
		if (told.number != EBPF_DONE && number != told.number)
			errx(3, "ebpf_relocate_types answers %u, and ebpf_record_outcomes %u", number, told.number);
		if (refused && number == refused->fault && !is_of_section(number) && refused->name_len &&
		    strcmp(name, section))
			errx(3, "ebpf_relocate_types is about another section than its first record");
		if (told.number == EBPF_DONE && number != (refused ? refused->fault : EBPF_DONE) && !is_of_section(number))
			errx(3, "ebpf_relocate_types answers %u, and its first record was told another", number);
	}
	free_outcomes(&told);
	return number;
}

int64_t record_call(const struct made_on *on, const char *name)
{
	return strcmp(name, "outcomes") ? -1 : put_outcomes(on);
}

int64_t ask_record_call(const struct made_on *on, const char *call)
{
	if (strcmp(call, "outcomes"))
		return -1;
	return ebpf_record_outcomes(on->object, on->types.at, on->types.len, NULL);
}

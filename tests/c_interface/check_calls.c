#include "check_calls.h"

typedef uint32_t call_over_types(const struct ebpf_handle *, const struct ebpf_btf *);

/* Makes a call over the types, which are read for it. */
static int64_t over_types(const struct made_on *on, call_over_types *call)
{
	struct ebpf_btf *btf;
	uint32_t number = ebpf_btf_open(on->types.at, on->types.len, &btf);

	if (number == EBPF_DONE)
		number = call(on->object, btf);
	ebpf_btf_close(btf);
	return number;
}

static void put_reason(const struct ebpf_reason *row, const char *program)
{
	const char *subject = program + row->subject_at;

	if (strlen(program) != row->name_len || strlen(subject) != row->subject_len || row->name_at)
		errx(3, "a name that does not end where its row says");
	if (!row->has_slot && (row->slot || row->section || row->address || row->function_slot))
		errx(3, "a slot of a reason without one");
	if (!row->has_relocation && row->relocation)
		errx(3, "a relocation of a reason without one");
	printf("reason %u '%s' '%s'", row->kind, program, subject);
	if (row->has_slot)
		printf(" slot %zu at %zu:%llu:%zu", row->slot, row->section, (unsigned long long)row->address,
		       row->function_slot);
	if (row->has_relocation)
		printf(" relocation %zu", row->relocation);
	if (row->number)
		printf(" number %llu", (unsigned long long)row->number);
	if (row->fault)
		printf(" fault %u", row->fault);
	printf("\n");
}

static uint32_t put_verdict(const struct ebpf_handle *object, const struct ebpf_btf *btf)
{
	struct ebpf_verdict_summary summary = { 77, 77, 77, 77, 77 };
	uint32_t number = ebpf_check(object, btf, &summary);
	const char *program;
	struct ebpf_reason row;
	size_t count = 0;

	if (number != EBPF_DONE) {
		if (summary.reasons != 77 || summary.verdict != 77)
			errx(3, "a summary behind a refusal");
		return number;
	}
	printf("verdict %u ok %zu break %zu without target %zu\n", summary.verdict, summary.programs_ok,
	       summary.programs_break, summary.programs_without_target);
	for (; (program = ebpf_reason_at(object, count, &row)); count++)
		put_reason(&row, program);
	if (count != summary.reasons)
		errx(3, "other reasons than were counted");
	return number;
}

static uint32_t judge(const struct ebpf_handle *object, const struct ebpf_btf *btf)
{
	return ebpf_check(object, btf, NULL);
}

static uint32_t cut_types(const struct ebpf_handle *object, const struct ebpf_btf *btf)
{
	return ebpf_least_types(object, btf, NULL) ? EBPF_DONE : object ? ebpf_last_error(object)->number : EBPF_CLOSED;
}

int64_t check_call(const struct made_on *on, const char *name)
{
	return strcmp(name, "check") ? -1 : over_types(on, put_verdict);
}

int64_t ask_check_call(const struct made_on *on, const char *call)
{
	if (!strcmp(call, "check"))
		return over_types(on, judge);
	return strcmp(call, "least_types") ? -1 : over_types(on, cut_types);
}

/* A kernel's types that are read once: each call that is given them is the call over their bytes. */
#include "layer.h"

/* Whether two handles have the same error: number, name and details. */
static int same_errors(const struct ebpf_handle *one, const struct ebpf_handle *other)
{
	const struct ebpf_error *a = ebpf_last_error(one), *b = ebpf_last_error(other);

	return a->number == b->number && a->name_len == b->name_len && !strcmp(a->name, b->name) &&
	       !memcmp(&a->refusal, &b->refusal, sizeof(a->refusal));
}

/* Whether they hold the same programs, slot by slot, and the same externs. */
static int same_objects(const struct ebpf_handle *one, const struct ebpf_handle *other)
{
	size_t count = ebpf_program_count(one), a = 0, b = 0;
	struct ebpf_extern first, second;

	if (count != ebpf_program_count(other) || ebpf_extern_count(one) != ebpf_extern_count(other))
		return 0;
	for (size_t at = 0; at < count; at++) {
		const struct ebpf_insn *slots = ebpf_program_slots(one, at, &a), *others = ebpf_program_slots(other, at, &b);

		if (!slots || !others || a != b || memcmp(slots, others, a * sizeof(*slots)))
			return 0;
	}
	for (size_t at = 0; ebpf_extern_at(one, at, &first); at++)
		if (!ebpf_extern_at(other, at, &second) || memcmp(&first, &second, sizeof(first)))
			return 0;
	return 1;
}

/* Both calls are made on an object of their own: they return the same, and leave the same. */
#define ALIKE(name, file, by_bytes, by_types)                                                                        \
	do {                                                                                                         \
		struct ebpf_handle *one = object_of(file), *other = object_of(file);                                 \
		uint32_t first = by_bytes, second = by_types;                                                        \
                                                                                                                     \
		CHECK(name, first == second && same_errors(one, other));                                             \
		CHECK(name, same_objects(one, other));                                                               \
		ebpf_close(one);                                                                                     \
		ebpf_close(other);                                                                                   \
	} while (0)

/* The numbers of maps by name, so that all passes can be made. */
static size_t rows_of(const struct ebpf_handle *of, struct ebpf_descriptor *rows, size_t room)
{
	struct ebpf_map map;
	size_t at = 0;

	for (; at < room && (rows[at].name = ebpf_map_at(of, at, &map)); at++) {
		rows[at].name_len = map.name_len;
		rows[at].descriptor = (int32_t)at + 1;
	}
	return at;
}

/* All passes over an object, by bytes or by types. */
static uint32_t prepared(struct ebpf_handle *of, const struct bytes *types, const struct ebpf_btf *btf)
{
	struct ebpf_prepare_inputs inputs = ebpf_prepare_defaults();
	struct ebpf_descriptor rows[16];

	inputs.descriptors = rows;
	inputs.descriptors_len = rows_of(of, rows, 16);
	inputs.types = types ? types->at : NULL;
	inputs.types_len = types ? types->len : 0;
	inputs.btf = btf;
	return ebpf_prepare_handle(of, &inputs);
}

/* The same from a file, of whose maps no descriptors are given. */
static uint32_t prepared_file(const struct bytes *file, const struct bytes *types, const struct ebpf_btf *btf,
			      struct ebpf_handle **of)
{
	struct ebpf_prepare_inputs inputs = ebpf_prepare_defaults();

	ebpf_close(*of);
	inputs.types = types ? types->at : NULL;
	inputs.types_len = types ? types->len : 0;
	inputs.btf = btf;
	return ebpf_prepare(file->at, file->len, &inputs, of);
}

static void check_passes(const struct bytes *file, const struct bytes *types, const struct ebpf_btf *btf)
{
	static const uint8_t line[] = "ffffffff81000000 T other\n", bad[] = "\xff\n";

	ALIKE("types", file, ebpf_relocate_types(one, types->at, types->len), ebpf_relocate_types_with(other, btf));
	ALIKE("externs", file, ebpf_resolve_externs(one, types->at, types->len, line, sizeof(line) - 1),
	      ebpf_resolve_externs_with(other, btf, line, sizeof(line) - 1));
	ALIKE("externs", file, ebpf_resolve_externs(one, types->at, types->len, bad, sizeof(bad) - 1),
	      ebpf_resolve_externs_with(other, btf, bad, sizeof(bad) - 1));
	ALIKE("externs", file, ebpf_resolve_externs(one, types->at, types->len, NULL, 0),
	      ebpf_resolve_externs_with(other, btf, NULL, 7));
	ALIKE("all passes", file, prepared(one, types, NULL), prepared(other, NULL, btf));
	/* the bytes beside types are not read */
	ALIKE("all passes", file, prepared(one, types, NULL), prepared(other, file, btf));
	ALIKE("a file", file, prepared_file(file, types, NULL, &one), prepared_file(file, NULL, btf, &other));
	ALIKE("no file", file, prepared_file(&(struct bytes){ NULL, 9 }, types, NULL, &one),
	      prepared_file(&(struct bytes){ NULL, 9 }, NULL, btf, &other));
}

static void check_order(const struct bytes *file, const struct ebpf_btf *btf)
{
	struct ebpf_handle *of = object_of(file);

	CHECK("the order", ebpf_relocate_types_with(of, btf) == EBPF_DONE && is_last(of, EBPF_DONE));
	CHECK("the order", ebpf_relocate_types_with(of, btf) == EBPF_PASS_MADE && is_last(of, EBPF_PASS_MADE));
	CHECK("the order", prepared(of, NULL, btf) == EBPF_PASS_MADE);
	CHECK("the order", ebpf_resolve_externs_with(of, btf, NULL, 0) == EBPF_DONE);
	CHECK("the order", ebpf_resolve_externs_with(of, btf, NULL, 0) == EBPF_PASS_MADE);
	CHECK("the order", ebpf_relocate_types_with(of, btf) == EBPF_PASS_ORDER && is_last(of, EBPF_PASS_ORDER));
	CHECK("the order", prepared(of, NULL, btf) == EBPF_PASS_ORDER);
	ebpf_close(of);
}

static void check_outcome_rows(const struct bytes *file, const struct bytes *types, const struct ebpf_btf *btf)
{
	struct ebpf_handle *one = object_of(file), *other = object_of(file);
	struct ebpf_record_outcome first, second;
	size_t count = 77, also = 78;

	CHECK("outcomes", ebpf_record_outcomes(one, types->at, types->len, &count) == EBPF_DONE);
	CHECK("outcomes", ebpf_record_outcomes_with(other, btf, &also) == EBPF_DONE && count == also && is_last(other, 0));
	for (size_t at = 0; at < count; at++) {
		const char *name = ebpf_record_outcome_at(one, at, &first), *same = ebpf_record_outcome_at(other, at, &second);

		CHECK("outcomes", name && same && !strcmp(name, same) && !memcmp(&first, &second, sizeof(first)));
	}
	CHECK("outcomes", !ebpf_record_outcome_at(other, also, NULL) && is_last(other, EBPF_NO_ROW));
	ebpf_close(one);
	ebpf_close(other);
}

static void check_targets(const struct bytes *types, const struct ebpf_btf *btf)
{
	static const char *const names[] = { "fentry/tcp_connect", "fentry/none", "fentry", "xdp", "iter/task", "lsm/file_open", "tp_btf/x", "\xff", "" };

	for (size_t at = 0; at < sizeof(names) / sizeof(*names); at++) {
		uint32_t answer = 77, type_id = 78, other = 77, other_id = 78;
		uint32_t number = ebpf_attach_target(names[at], strlen(names[at]), types->at, types->len, &answer, &type_id);

		CHECK("targets", ebpf_attach_target_with(names[at], strlen(names[at]), btf, &other, &other_id) == number);
		CHECK("targets", answer == other && type_id == other_id);
		CHECK("targets", ebpf_attach_target_with(names[at], strlen(names[at]), NULL, &other, &other_id) == EBPF_CLOSED);
		CHECK("targets", answer == other && type_id == other_id);
	}
	CHECK("targets", ebpf_attach_target_with(NULL, 9, btf, NULL, NULL) == EBPF_DONE);
}

/* Whether the outcomes over some types are those over others. */
static int same_outcomes(const struct bytes *file, const struct ebpf_btf *types, const struct ebpf_btf *others)
{
	struct ebpf_handle *one = object_of(file), *other = object_of(file);
	struct ebpf_record_outcome first, second;
	size_t count = 77, also = 78;
	int same = ebpf_record_outcomes_with(one, types, &count) == ebpf_record_outcomes_with(other, others, &also);

	same &= count == also;
	for (size_t at = 0; same && at < count; at++)
		same = ebpf_record_outcome_at(one, at, &first) && ebpf_record_outcome_at(other, at, &second) &&
		       !memcmp(&first, &second, sizeof(first));
	ebpf_close(one);
	ebpf_close(other);
	return same;
}

static void check_least(const struct bytes *file, const struct bytes *types, const struct ebpf_btf *btf)
{
	struct ebpf_handle *of = object_of(file), *closed = NULL;
	struct ebpf_btf *read = NULL;
	size_t len = 77;
	const uint8_t *least = ebpf_least_types(of, btf, &len);

	CHECK("least types", least && len >= 24 && len <= types->len && is_last(of, EBPF_DONE));
	CHECK("least types", least && ebpf_btf_open(least, len, &read) == EBPF_DONE);
	CHECK("least types", same_outcomes(file, btf, read));
	ebpf_btf_close(read);
	len = 77;
	CHECK("least types", !ebpf_least_types(of, NULL, &len) && is_last(of, EBPF_CLOSED) && len == 77);
	CHECK("least types", !ebpf_least_types(NULL, btf, &len) && len == 77);
	CHECK("ebpf_open", ebpf_open(NULL, 0, NULL, &closed) == EBPF_PARSE_TOO_SHORT);
	CHECK("least types", !ebpf_least_types(closed, btf, NULL) && is_last(closed, EBPF_CLOSED));
	ebpf_close(closed);
	ebpf_close(of);
}

static void check_verdict(const struct bytes *file, const struct ebpf_btf *btf)
{
	struct ebpf_handle *of = object_of(file), *other = object_of(file), *closed = NULL;
	struct ebpf_verdict_summary summary, again = { 77, 78, 79, 80, 81 };
	struct ebpf_reason row;
	const char *name;
	size_t breaking = 0, at = 0;

	CHECK("a verdict", !ebpf_reason_at(of, 0, &row) && is_last(of, EBPF_NO_ROW));
	CHECK("a verdict", ebpf_check(of, btf, &summary) == EBPF_DONE && is_last(of, EBPF_DONE));
	CHECK("a verdict", summary.programs_ok + summary.programs_break + summary.programs_without_target ==
				   ebpf_program_count(of));
	for (; (name = ebpf_reason_at(of, at, &row)); at++) {
		CHECK("a verdict", strlen(name) == row.name_len && !row.name_at);
		CHECK("a verdict", strlen(name + row.subject_at) == row.subject_len);
		CHECK("a verdict", !row.name_len || !ebpf_find_program(of, name, row.name_len, NULL));
		CHECK("a verdict", row.kind >= EBPF_REASON_EMPTY_SECTION && row.kind <= EBPF_REASON_TARGET);
		breaking += row.kind != EBPF_REASON_TARGET;
	}
	CHECK("a verdict", at == summary.reasons && is_last(of, EBPF_NO_ROW));
	CHECK("a verdict", (summary.verdict == EBPF_VERDICT_OK) == !breaking && !breaking == !summary.programs_break);
	CHECK("a verdict", same_objects(of, other) && ebpf_check(of, btf, NULL) == EBPF_DONE);
	CHECK("a verdict", ebpf_check(of, NULL, &again) == EBPF_CLOSED && is_last(of, EBPF_CLOSED));
	CHECK("a verdict", ebpf_check(NULL, btf, &again) == EBPF_CLOSED && !ebpf_reason_at(NULL, 0, NULL));
	CHECK("ebpf_open", ebpf_open(NULL, 0, NULL, &closed) == EBPF_PARSE_TOO_SHORT);
	CHECK("a verdict", ebpf_check(closed, btf, &again) == EBPF_CLOSED && is_last(closed, EBPF_CLOSED));
	CHECK("a verdict", again.programs_ok == 77 && again.reasons == 80 && again.verdict == 81);
	/* a call that takes the handle without const drops the list */
	CHECK("a verdict", ebpf_sanitize(of, 1) == EBPF_DONE && !ebpf_reason_at(of, 0, NULL) && is_last(of, EBPF_NO_ROW));
	ebpf_close(closed);
	ebpf_close(other);
	ebpf_close(of);
}

/* Null types, null handles, and types that can't be read. */
static void check_closed(const struct bytes *file, const struct bytes *types, const struct ebpf_btf *btf)
{
	struct ebpf_handle *of = object_of(file);
	struct ebpf_btf *made = (void *)file;
	size_t count = 77;

	CHECK("ebpf_btf_open", ebpf_btf_open(NULL, 0, &made) == EBPF_TYPES_READ_INVALID_HEADER && !made);
	made = (void *)file;
	CHECK("ebpf_btf_open", ebpf_btf_open(NULL, 9, &made) == EBPF_TYPES_READ_INVALID_HEADER && !made);
	for (size_t len = 0; len < types->len; len += 1 + types->len / 64) {
		struct ebpf_handle *other = object_of(file);
		uint32_t number = ebpf_relocate_types(other, types->at, len);

		made = (void *)file;
		CHECK("ebpf_btf_open", ebpf_btf_open(types->at, len, &made) == number && !made);
		ebpf_close(other);
	}
	ebpf_btf_close(NULL);
	CHECK("null types", ebpf_relocate_types_with(of, NULL) == EBPF_CLOSED && is_last(of, EBPF_CLOSED));
	CHECK("null types", ebpf_resolve_externs_with(of, NULL, NULL, 0) == EBPF_CLOSED && is_last(of, EBPF_CLOSED));
	CHECK("null types", ebpf_record_outcomes_with(of, NULL, &count) == EBPF_CLOSED && is_last(of, EBPF_CLOSED));
	CHECK("null types", count == 77 && !ebpf_record_outcome_at(of, 0, NULL) && is_last(of, EBPF_NO_ROW));
	CHECK("null types", ebpf_relocate_types_with(of, btf) == EBPF_DONE);
	ebpf_close(of);
	CHECK("a null handle", ebpf_relocate_types_with(NULL, btf) == EBPF_CLOSED);
	CHECK("a null handle", ebpf_resolve_externs_with(NULL, btf, NULL, 0) == EBPF_CLOSED);
	CHECK("a null handle", ebpf_record_outcomes_with(NULL, btf, &count) == EBPF_CLOSED && count == 77);
	CHECK("a null handle", ebpf_relocate_types_with(NULL, NULL) == EBPF_CLOSED);
	CHECK("ebpf_open", ebpf_open(NULL, 0, NULL, &of) == EBPF_PARSE_TOO_SHORT);
	CHECK("a closed handle", ebpf_relocate_types_with(of, btf) == EBPF_CLOSED && is_last(of, EBPF_CLOSED));
	CHECK("a closed handle", prepared(of, NULL, btf) == EBPF_CLOSED);
	ebpf_close(of);
}

/* A struct of inputs without the types, as an older header has it. */
static void check_older_inputs(const struct bytes *file, const struct bytes *types, const struct ebpf_btf *btf)
{
	struct ebpf_prepare_inputs inputs = ebpf_prepare_defaults();
	struct ebpf_handle *of = object_of(file);

	inputs.size = offsetof(struct ebpf_prepare_inputs, btf);
	inputs.btf = btf;
	inputs.types = types->at;
	inputs.types_len = 3;
	CHECK("inputs", ebpf_prepare_handle(of, &inputs) == EBPF_TYPES_READ_INVALID_HEADER);
	inputs.size = sizeof(inputs);
	CHECK("inputs", ebpf_prepare_handle(of, &inputs) == EBPF_MAPS_MISSING_DESCRIPTOR);
	ebpf_close(of);
}

void check_types(const struct layer_files *files)
{
	struct ebpf_btf *btf = NULL;

	CHECK("ebpf_btf_open", ebpf_btf_open(files->types.at, files->types.len, &btf) == EBPF_DONE && btf);
	check_passes(&files->small, &files->types, btf);
	check_passes(&files->counter, &files->types, btf);
	check_passes(&files->loaded, &files->types, btf);
	check_passes(&files->no_kind, &files->types, btf);
	check_order(&files->counter, btf);
	check_outcome_rows(&files->counter, &files->types, btf);
	check_outcome_rows(&files->small, &files->types, btf);
	check_targets(&files->types, btf);
	check_least(&files->counter, &files->types, btf);
	check_least(&files->small, &files->types, btf);
	check_verdict(&files->counter, btf);
	check_verdict(&files->small, btf);
	check_verdict(&files->loaded, btf);
	check_closed(&files->counter, &files->types, btf);
	check_older_inputs(&files->counter, &files->types, btf);
	ebpf_btf_close(btf);
}

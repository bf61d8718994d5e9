/*
 * Loads the programs of an eBPF object file into the running kernel, runs one of them, and prints what it returns and what a
 * map or a variable holds then; on bpf(2) and libebpf.a alone.
 *
 * usage: loader [--config FILE] [--wait MILLISECONDS] [--without PROGRAM].. FILE PROGRAM [MAP|VARIABLE [BYTES]]
 *        loader [--wait MILLISECONDS] --load FILE [STRUCT_OPS]
 *        loader --targets FILE
 *
 * BYTES: a file with the bytes that the program runs on; 64 zero bytes if left out.
 * --config: a file with the kernel's configuration; if left out that of the running kernel, by /boot/config-RELEASE or by
 *           /proc/config.gz, which `zcat` unpacks.
 * --wait: how long to wait between the run and the map, or how long a program of tp_btf stays attached.
 * --without: leaves a program out, so that an extern that the kernel lacks stops only this program.
 * --load: loads the programs and maps of the file, and runs nothing. The map of struct_ops of the name STRUCT_OPS gets its
 *         value, and is registered for the time of --wait.
 * --targets: prints what the programs are attached to, as ids of the kernel's types, and loads nothing.
 *
 * Of sections with `?` only PROGRAM is loaded; the others are left out, with what they alone need. A program of iter runs as
 * a walk, whose lines are printed; one of tp_btf is attached; the others run once by themselves, where the kernel does that.
 * Each map is made anew, also where it says that it is to be pinned. The status is 0, or 1 with a line on standard error that
 * says whether the library or the kernel refuses, and what, behind the kernel's own log.
 */
#include "loader.h"
#include <unistd.h>

struct options {
	const char *config;
	unsigned milliseconds;
	int targets;
	int only_loads;
	const char **without; /* the names of programs that are left out */
	size_t without_count;
	char **words;
	int count;
};

static _Noreturn void usage(void)
{
	fputs("usage: loader [--config FILE] [--wait MILLISECONDS] [--without PROGRAM].. FILE PROGRAM [MAP|VARIABLE [BYTES]]\n"
	      "       loader [--wait MILLISECONDS] --load FILE [STRUCT_OPS]\n"
	      "       loader --targets FILE\n",
	      stderr);
	exit(2);
}

static struct options parse(int count, char **word)
{
	struct options of = { 0 };
	int at = 1;

	of.without = zeros(count, sizeof(*of.without));
	for (; at < count && !strncmp(word[at], "--", 2); at++) {
		if (!strcmp(word[at], "--targets"))
			of.targets = 1;
		else if (!strcmp(word[at], "--load"))
			of.only_loads = 1;
		else if (!strcmp(word[at], "--config") && at + 1 < count)
			of.config = word[++at];
		else if (!strcmp(word[at], "--wait") && at + 1 < count)
			of.milliseconds = strtoul(word[++at], NULL, 10);
		else if (!strcmp(word[at], "--without") && at + 1 < count)
			of.without[of.without_count++] = word[++at];
		else
			usage();
	}
	of.words = word + at;
	of.count = count - at;
	if (of.count < (of.targets || of.only_loads ? 1 : 2) || of.count > (of.targets ? 1 : of.only_loads ? 2 : 4))
		usage();
	return of;
}

/* The program that runs; NULL where none does. */
static const char *asked_program(const struct options *options)
{
	return options->targets || options->only_loads ? NULL : options->words[1];
}

/* Whether a program is loaded: sections with `?` load the one that runs alone, and struct_ops those that its maps have. */
static int is_wanted(const struct loading *of, const char *name, const struct ebpf_program *program, const char *asked)
{
	uint32_t member;

	if (program->program_type == BPF_PROG_TYPE_STRUCT_OPS && of->struct_ops && !map_of_program(of, name, &member))
		return 0;
	return !(program->flags & EBPF_OPTIONAL) || (asked && !strcmp(asked, name));
}

/* Leaves out what is not loaded: the programs of --without too. */
static void leave_out(struct loading *of, const char *path, const struct options *options)
{
	const char *name, *asked = asked_program(options);
	size_t count = options->without_count;
	const char **names = zeros(count + ebpf_program_count(of->object), sizeof(*names));
	struct ebpf_program program;

	memcpy(names, options->without, count * sizeof(*names));
	for (size_t at = 0; !options->targets && (name = ebpf_program_at(of->object, at, &program)); at++)
		if (!is_wanted(of, name, &program, asked))
			names[count++] = name;
	check(of, path, ebpf_leave_out(of->object, names, count));
	free(names);
}

static void open_object(struct loading *of, const char *path, const struct options *options)
{
	if (ebpf_check_version())
		errx(1, "the library has the version %u", ebpf_version_number());
	of->file = read_file(path);
	check(of, path, ebpf_open(of->file.at, of->file.len, NULL, &of->object));
	check(of, path, ebpf_complete_maps(of->object, of->file.at, of->file.len, sysconf(_SC_PAGESIZE)));
	if (!options->targets)
		list_struct_ops(of);
	leave_out(of, path, options);
}

/* Runs all passes over the object. */
static void prepare(struct loading *of, const char *path)
{
	struct ebpf_prepare_inputs inputs = ebpf_prepare_defaults();
	size_t count = ebpf_map_count(of->object);
	struct ebpf_descriptor *rows = zeros(count, sizeof(*rows));
	struct ebpf_map map;

	for (size_t at = 0; at < count; at++) {
		rows[at].name = ebpf_map_at(of->object, at, &map);
		rows[at].name_len = map.name_len;
		rows[at].descriptor = of->maps[at];
	}
	inputs.btf = wanted_types(of);
	inputs.descriptors = rows;
	inputs.descriptors_len = count;
	inputs.symbols = of->kernel_symbols.at;
	inputs.symbols_len = of->kernel_symbols.len;
	check(of, path, ebpf_prepare_handle(of->object, &inputs));
	free(rows);
}

/* From the opened object to programs that the kernel has, with all that they refer to. */
static void load(struct loading *of, const struct options *options)
{
	uint32_t wants_symbols = 0;

	define_kconfig(of, options->config);
	load_types(of);
	make_maps(of);
	make_struct_ops(of);
	put_initial(of, 0);
	check(of, "symbols", ebpf_wants_symbols(of->object, &wants_symbols));
	if (wants_symbols) /* they take long to read */
		of->kernel_symbols = read_file("/proc/kallsyms");
	prepare(of, options->words[0]);
	load_programs(of);
	put_initial(of, 1);
}

static void free_all(struct loading *of)
{
	free_struct_ops(of);
	ebpf_close(of->object);
	free(of->file.at);
	ebpf_btf_close(of->kernel_types);
	free(of->kernel_symbols.at);
	free(of->maps);
	free(of->programs);
}

static void load_and_run(struct loading *of, const struct options *options)
{
	size_t asked = find_program(of, options->words[1]);
	struct ebpf_program program;
	struct bytes given = { NULL, 64 };

	if (options->count > 3)
		given = read_file(options->words[3]);
	else
		given.at = zeros(given.len, 1);
	load(of, options);
	need(of, options->words[1], ebpf_program_at(of->object, asked, &program));
	run(of->programs[asked], &program, given, options->milliseconds);
	if (options->count > 2)
		print_held(of, options->words[2]);
	free(given.at);
}

static void load_and_register(struct loading *of, const struct options *options)
{
	load(of, options);
	if (options->count > 1)
		register_struct_ops(of, options->words[1], options->milliseconds);
}

int main(int count, char **word)
{
	struct loading of = { .object = NULL };
	struct options options = parse(count, word);

	open_object(&of, options.words[0], &options);
	if (options.targets)
		print_targets(&of);
	else if (options.only_loads)
		load_and_register(&of, &options);
	else
		load_and_run(&of, &options);
	free_all(&of);
	free(options.without);
	return 0;
}

"""The commands of `ebpf` over their whole run."""
from growths import inputs
from growths.run import CRATES, Row

OUT_OF_MEMORY = b"ebpf: out of memory\n"


class CommandRow(Row):
    """A run with each growth refused: status 2, and a line on memory. What stands on standard output is the beginning of
    what the run prints with memory: `check` prints a kernel's line when it is done. `status` is that with memory."""

    is_marked = False

    may_do_without = True

    def __init__(self, what, *words, status=0):
        super().__init__(f"ebpf {words[0]} on {what}", CRATES / "ebpf/out/ebpf", *words)
        self.status = status

    def ample_fault(self, ample):
        return None if ample.status == self.status else f"status {ample.status}, {ample.err[:200]!r}"

    def refused_fault(self, ample, run):
        if run.status != 2 or not run.err.endswith(OUT_OF_MEMORY) or not ample.out.startswith(run.out):
            return f"status {run.status}, {run.err[:200]!r}, {run.out[:200]!r}"
        return None


def rows_of(*words, references=()):
    """The rows of a command, behind whose words a file comes."""
    return [
        CommandRow("the small object", *words, inputs.SMALL),
        CommandRow("an object of clang", *words, inputs.COUNTER),
        CommandRow("all kinds of references", *words, inputs.REFERENCES, *references),
        CommandRow("no object", *words, b"foo", status=1),
        CommandRow("no file", *words, "/nowhere/file", status=2),
    ]


def rows():
    core, core_types = inputs.core()
    kernel = ["--btf", inputs.KERNEL, "--kallsyms", inputs.LINES]
    return [
        *rows_of("list"),
        *rows_of("list", "--json"),
        CommandRow("a kernel", "check", core, core_types),
        CommandRow("a kernel that lacks a field", "check", inputs.COUNTER, inputs.TASKS, inputs.KERNEL, status=1),
        CommandRow("kernels, as JSON", "check", "--json", "--all", inputs.COUNTER, inputs.TASKS, core_types, status=1),
        CommandRow("types that can't be read", "check", inputs.COUNTER, b"foo", status=2),
        CommandRow("a kernel", "btf", core, "--btf", core_types, "--output", "/dev/null"),
        CommandRow("records", "btf", inputs.COUNTER, "--btf", inputs.TASKS, "--output", "/dev/null", "--allow-ids", "--json"),
        *rows_of("inspect", references=kernel),
        *rows_of("inspect", "--json", references=kernel),
        *rows_of("link", references=kernel),
        CommandRow("records and lines", "link", "--lines", inputs.COUNTER, "--btf", inputs.TASKS),
        CommandRow("bytes", "link", "--bytes", inputs.COUNTER, "--btf", inputs.TASKS),
    ]

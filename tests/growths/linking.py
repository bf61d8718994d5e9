"""Programs over their whole run."""
from growths import inputs
from growths.run import CRATES, Row

# The crates of programs with one command line and one set of texts.
PROGRAMS = ["ebpf_link", "cli_inspect_program"]

STAGES = ["btf", "parse", "types", "maps", "ksyms", "externs", "calls"]


class ProgramRow(Row):
    """A run with each growth refused: it prints nothing but a line on memory, its own or that of a stage. `said` is the
    line that it prints with memory, where it refuses."""

    is_marked = False

    may_do_without = True

    def __init__(self, crate, what, *words, said=None):
        name = crate.removesuffix("_program").replace("cli_", "ebpf_").replace("_", "-")
        super().__init__(f"{name} on {what}", CRATES / crate / "out" / crate, *words)
        texts = ["memory"] + [f"{stage}: OutOfMemory" for stage in STAGES]
        self.memory_lines = [f"{name}: {text}\n".encode() for text in texts]
        self.said = f"{name}: {said}\n".encode() if said else b""

    def ample_fault(self, ample):
        wanted = (1, True, self.said) if self.said else (0, False, b"")
        found = (ample.status, ample.out == b"", ample.err)
        return None if found == wanted else f"status {ample.status}, {ample.err[:200]!r}, {ample.out[:200]!r}"

    def refused_fault(self, ample, run):
        allowed = self.memory_lines + ([self.said] if self.said else [])
        if (run.status, run.out) != (1, b"") or run.err not in allowed:
            return f"status {run.status}, {run.err[:200]!r}, {run.out[:200]!r}"
        return None


def rows_of(crate):
    core, core_types = inputs.core()
    references = [inputs.REFERENCES, "--btf", inputs.KERNEL, "--kallsyms", inputs.LINES]
    return [
        ProgramRow(crate, "the small object", inputs.SMALL),
        ProgramRow(crate, "a program by its name", inputs.SMALL, "--program", "p"),
        ProgramRow(crate, "two calls with records", inputs.two_calls()),
        ProgramRow(crate, "all kinds of references", *references),
        ProgramRow(crate, "an object of clang", inputs.COUNTER, "--btf", inputs.TASKS),
        ProgramRow(crate, "a relocation by types", core, "--btf", core_types),
        ProgramRow(crate, "no object", b"foo", said="parse: ElfError"),
        ProgramRow(crate, "another name", inputs.SMALL, "--program", "q", said="no program q"),
        ProgramRow(crate, "no types", inputs.SMALL, "--btf", b"foo", said="btf: InvalidHeader"),
        ProgramRow(crate, "no file", "/nowhere/file", said="cannot read /nowhere/file"),
    ]


def rows():
    return [row for crate in PROGRAMS for row in rows_of(crate)]

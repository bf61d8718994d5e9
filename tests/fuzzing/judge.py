"""What a run may leave: the statuses and lines that docs/CLI.md ('ebpf-link and ebpf-inspect') states."""
import re

STAGES = "btf|parse|types|maps|ksyms|externs|calls"

SLOT = rb"[0-9a-f]{2}(?: [0-9a-f]{2}){7}\n"
HEAD = re.compile(rb"program (.*?) slots (\d+)\n", re.DOTALL)
SLOTS = re.compile(rb"(?:%s)*" % SLOT)
COPY = rb"copy \d+ \d+ \d+ 0x[0-9a-f]+ .*?\n"
# A name may hold a line's end, so a report ends where the next one or the output does.
REPORT = re.compile(rb"%s(?:%s)*(?:ref \d+ \d+ (?:call|load)\n)*(?=program |\Z)" % (COPY.replace(rb"\d+", b"0", 1), COPY), re.DOTALL)

# A line of slots: eight numbers of two digits.
SLOT_LENGTH = 24


def line_of(name):
    """The lines of status 1."""
    said = rf"cannot read [^\n]*|({STAGES}): [A-Z][A-Za-z]*|memory|no program [^\0]*|cannot write"
    return re.compile(rf"{name}: ({said})\n")


def usage_of(name):
    return f"usage: {name} FILE [--btf FILE] [--kallsyms FILE] [--program NAME]\n"


def heads(out):
    """The heads of the programs: names and numbers of slots."""
    return HEAD.findall(out)


def wrong_slots(out):
    """What is wrong with the output of ebpf-link."""
    at = 0
    while at < len(out):
        head = HEAD.match(out, at)
        if head is None:
            return f"no head of a program at byte {at}"
        rows = SLOTS.match(out, head.end())
        if rows.end() - rows.start() != SLOT_LENGTH * int(head[2]):
            return f"{(rows.end() - rows.start()) // SLOT_LENGTH} slots behind {head[0]!r}"
        at = rows.end()
    return None


def wrong_report(out):
    """What is wrong with the output of ebpf-inspect."""
    at = 0
    while at < len(out):
        head = HEAD.match(out, at)
        rows = head and REPORT.match(out, head.end())
        if not rows:
            return f"no head of a program with its copies at byte {at}"
        at = rows.end()
    return None


def fault(name, run):
    """What is wrong with a run of the program of a name, or None."""
    if run.status is None:
        return "no end in 10 s"
    if run.status not in (0, 1, 2):
        return f"ended with {run.status}, {run.err[:400]!r}"
    err = run.err.decode("utf-8", "replace")
    if run.status == 0:
        if err:
            return f"status 0 with {run.err[:200]!r}"
        return wrong_slots(run.out) if name == "ebpf-link" else wrong_report(run.out)
    if run.out:
        return f"status {run.status} beside output, {run.err[:200]!r}"
    if run.status == 2:
        return None if err == usage_of(name) else f"status 2 with {run.err[:200]!r}"
    return None if line_of(name).fullmatch(err) else f"status 1 with {run.err[:200]!r}"


def difference(first, second):
    """How the runs of both programs on one input differ in what has to be the same, or None: what is refused and why, and
    which programs there are. Where one finds no memory, the other may."""
    behind = [run.err.partition(b": ")[2] for run in (first, second)]
    if b"memory\n" in behind:
        return None
    if first.status != second.status or first.status == 1 and behind[0] != behind[1]:
        said = [f"{run.status}, {why[:200]!r}" for run, why in zip((first, second), behind)]
        return f"the first program answers {said[0]}, and the second {said[1]}"
    if first.status == 0 and heads(first.out) != heads(second.out):
        return "the programs print other heads"
    return None

"""The verdict of a kernel on an object: the test cases of `ebpf check` with one kernel, and the fields of reasons."""
import re

from c_interface.record_rows import ASKED, LOCAL, OTHER
from c_interface.runs import CallsRow
from checked import absences, functions, kconfig, lacking, sizes, walks
from checked.lacking import FUNCTION, NEITHER, ends
from checked.objects import GLOBAL, GONE, LACKS_B, WEAK, Code, address, call, function, helper, move, object_of, program
from growths.inputs import SMALL
from rows import core_sides
from rows.btf import btf, integer
from rows.core_sides import MOVE, OFFSET, S, enum_of
from rows.elf import CALL_CODE, EXIT, File, slot

# The first line that `ebpf check` prints of a kernel, and a location under a finding.
OF_KERNEL = re.compile(r"(ok|breaks) +(\d+)/(\d+) programs  kernel(?:  \((\d+) no target\))?\n")
LOCATION = re.compile(r"^    (\w+) slot (\d+)(?: |$)", re.MULTILINE)

# What the calls print of a verdict, and of a reason of a slot.
VERDICT = re.compile(r"verdict (\d) ok (\d+) break (\d+) without target (\d+)")
OF_SLOT = re.compile(r"reason \d+ '(\w+)' '.*' slot (\d+) at ")

# A reason of a relocation that is refused, by its index among the records, and such a record with the slot that it is at.
OF_RELOCATION = re.compile(r"reason 4 '(\w+)' '' relocation (\d+) ")
RECORD = re.compile(r"record \d+ of \S+ at \d+:\d+:(\d+) ")


def places_of(lines):
    """The programs and the slots that reasons are of."""
    slots = [found.group(1) for found in map(RECORD.match, lines) if found]
    relocations = [found.groups() for found in map(OF_RELOCATION.match, lines) if found]
    of_relocations = {(program, slots[int(at)]) for program, at in relocations}
    return of_relocations | {found.groups() for found in map(OF_SLOT.match, lines) if found}


def agrees(printed):
    """What is wrong with a verdict beside what `ebpf check` prints."""
    word, some, all_of, lacking_target = OF_KERNEL.match(printed).groups(default="0")
    broken = int(some) if word == "breaks" else 0
    breaks = printed.partition("BREAKS\n")[2].partition("GUARDED")[0].partition("CHANGED")[0].partition("NO TARGET")[0]
    places = set(LOCATION.findall(breaks))

    def judge(lines):
        found = VERDICT.fullmatch(lines[1]) if len(lines) > 2 else None
        if found is None:
            return f"{lines[:3]}"
        verdict, runs, breaking, without = map(int, found.groups())
        if (verdict, breaking, runs + without) != (int(broken > 0), broken, int(all_of) - broken):
            return f"{lines[1]} where ebpf check prints {printed.splitlines()[0]}"
        if not broken and without != int(lacking_target):
            return f"{lines[1]} where {lacking_target} have no target"
        missing = places - places_of(lines)
        return f"no reason at {sorted(missing)[:4]}" if missing else None

    return judge


class Recorder:
    """Takes the test cases of `ebpf check` that have one kernel, and no other words."""

    def __init__(self):
        self.files, self.cases = {}, []

    def write(self, name, data):
        self.files[name] = data
        return name

    def row(self, name, words, status, out=None, *rest, **more):
        if words == ["check", "object", "kernel"] and out and OF_KERNEL.match(out):
            files = self.files["object"], self.files["kernel"], b""
            self.cases.append(CallsRow(f"a verdict: {name}", files, ["open_broad", "check", "outcomes"], agrees(out)))
            return None
        raise LookupError(name)

    def __getattr__(self, name):
        raise LookupError(name)


def of_program():
    """The test cases of `ebpf check`: of each function of cases those before the first that asks for something else."""
    recorder = Recorder()
    for module in (absences, functions, kconfig, lacking, sizes, walks):
        for cases in module.ROWS:
            try:
                cases(recorder)
            except LookupError:
                continue
    return recorder.cases


def exact(name, data, kernel, verdict, *reasons):
    return CallsRow(f"reasons: {name}", (data, kernel, b""), ["open_broad", "check"], ["open_broad 0", f"verdict {verdict}", *reasons, "check 0"])


ONE_BREAKS = "1 ok 0 break 1 without target 0"


def relocations():
    """Those of a program, and those of none."""
    data = core_sides.object_of(LOCAL, [(8 * at, *row[:3]) for at, row in enumerate(ASKED)], [MOVE] * len(ASKED))
    absent = [at for at, row in enumerate(ASKED) if row[3].startswith("absent")]
    refused = [(at, row[3].split()[1]) for at, row in enumerate(ASKED) if row[3].startswith("refused")]
    poisoned = [f"reason 6 'p' '' slot {at} at 3:0:{at} relocation {at}" for at in absent]
    lines = [f"reason 4 'p' '' relocation {at} fault {fault}" for at, fault in refused]
    yield exact("what relocations come to", data, btf(*OTHER), ONE_BREAKS, *poisoned, *lines)
    held, said = core_sides.type_parts(S, ("kprobe/p", [(0, OFFSET, 2, "0:1")]), ("other", [(0, OFFSET, 2, "0:0")]))
    file = File().code("kprobe/p", MOVE + EXIT).data(".BTF", held).data(".BTF.ext", said).symbol("p", 0x12, 3, 0, 16)
    yield exact("a relocation of no program", file.bytes(), btf(*S), ONE_BREAKS, "reason 4 '' '' relocation 1 fault 240")
    inside = object_of([program(move(0, 0), call("g"), EXIT), function("g", move(0, 0), GONE, EXIT)])
    yield exact("a function's slot", inside, LACKS_B, ONE_BREAKS, "reason 6 'p' '' slot 4 at 4:0:1 relocation 0")


def programs():
    """Programs with reasons of their own, and without."""
    numbers = btf(enum_of("bpf_func_id", ("BPF_FUNC_one", 1)), enum_of("bpf_map_type", ("BPF_MAP_TYPE_HASH", 1)))
    two = object_of([program(helper(1), helper(9), EXIT), program(helper(1), EXIT, section="kprobe/q", name="q")])
    yield exact("a helper", two, numbers, "1 ok 1 break 1 without target 0", "reason 7 'p' '' slot 1 at 3:0:1 number 9")
    maps = object_of([program(move(0, 0), address(1, "m"), address(1, "n"), EXIT)], maps={"m": 9, "n": 1})
    yield exact("a map", maps, numbers, ONE_BREAKS, "reason 9 'p' 'm' slot 1 at 3:0:1 number 9")
    weak = object_of([program(move(0, 0), call("f"), EXIT)], FUNCTION, {"f": WEAK})
    yield exact("a weak extern", weak, NEITHER, ONE_BREAKS, "reason 8 'p' 'f' slot 1 at 3:0:1 number 2")
    strong = object_of([program(call("f"), EXIT), program(EXIT, section="kprobe/q", name="q")], FUNCTION, {"f": GLOBAL})
    yield exact("an extern", strong, NEITHER, "1 ok 0 break 2 without target 0", "reason 2 '' 'f' fault 408")
    lost = object_of([program(slot(CALL_CODE, 0x10, imm=5), EXIT), program(EXIT, section="kprobe/q", name="q")])
    yield exact("a program that can't be linked", lost, NEITHER, "1 ok 1 break 1 without target 0", "reason 5 'p' 'p' fault 602")
    undeclared = object_of([program(call("x"), EXIT)], externs={"x": GLOBAL})
    yield exact("a pass that refuses", undeclared, NEITHER, ONE_BREAKS, "reason 3 '' 'p' fault 506")


def targets():
    """A program without a target doesn't break by that alone."""
    target = "reason 10 'p' 'x'"
    yield exact("no target", ends("fentry/x"), NEITHER, "0 ok 0 break 0 without target 1", target)
    both = object_of([Code("fentry/x", "p", [helper(9), EXIT]), program(EXIT, section="kprobe/q", name="q")])
    kernel = btf(enum_of("bpf_func_id", ("BPF_FUNC_one", 1)))
    slot_of = "reason 7 'p' '' slot 0 at 3:0:0 number 9"
    yield exact("no target beside a helper", both, kernel, "1 ok 1 break 1 without target 0", slot_of, target)


def refused():
    yield exact("an object without types", SMALL, btf(integer("int", 4)), "0 ok 1 break 0 without target 0")
    yield CallsRow("a verdict without types", (SMALL, b"", b""), ["open", "check"], ["open 0", "check 200"])
    yield CallsRow("a verdict on a closed handle", (SMALL, btf(*S), b""), ["check"], ["check 3"])
    files = object_of([program(GONE, EXIT)]), LACKS_B, b""
    lines = ["verdict " + ONE_BREAKS, "reason 6 'p' '' slot 0 at 3:0:0 relocation 0", "check 0"]
    yield CallsRow("a verdict twice", files, ["open_broad", "check", "check"], ["open_broad 0", *lines, *lines])


def rows():
    return [*of_program(), *relocations(), *programs(), *targets(), *refused()]

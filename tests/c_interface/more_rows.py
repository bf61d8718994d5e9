"""Rows of the C interface that the other test programs don't have as they are asked here."""
from growths.inputs import COUNTER, KERNEL, LINES, REFERENCES, SMALL, TASKS
from rows import broad, loaded_names, values
from rows.btf import btf, datasec, function, integer, prototype, struct_of, variable
from rows.elf import CALL, CALL32, EXIT, FUNCTION, File, changed
from rows.names import cases as cases_of_names
from rows.resolved import GLOBAL, function_of, variable_of_void, with_extern

from c_interface import builds
from c_interface.kinds import numbers_of, numbers_read
from c_interface.runs import CallsRow


# Names of sections that are no programs' sections.
OTHERS = ["", "license", ".text"]


def kinds():
    """A program in a section of each name that says a kind, and of names that say none."""
    for case in cases_of_names():
        for action, text in case.gives.items():
            word, *rest = action.split(" ", 1)
            name = rest[0] if rest else ""
            if word != "kind" or name in OTHERS:
                continue
            files = File().code(name, EXIT).symbol("p", FUNCTION, 3, 0, 8).bytes(), b"", b""
            if text.startswith("the "):
                wanted = [f"open 144 {name}"]
            else:
                wanted = ["open 0", f"program p {numbers_of(text)} section 3 address 0"]
            yield CallsRow(f"the section {name}", files, ["open", "programs"][: len(wanted)], wanted)


def broad_kinds():
    """A program in a section of each name that loaders know, and of others, as it is read broadly."""
    for name in broad.NAMES:
        wanted = numbers_read(broad.broad(name), loaded_names.loaded(name))
        lines = ["open_broad 0", f"program foo {wanted} section 3 address 0"]
        yield CallsRow(f"the section {name}, broadly", (broad.program_of(name), b"", b""), ["open_broad", "programs"], lines)


def broad_files():
    """Files that both readings take, and what one alone refuses."""
    shows = ["info", "programs", "listed", "declared", "sections", "slots", "records"]

    def is_same(lines):
        half = len(lines) // 2
        return None if lines[1:half] == lines[half + 1 :] and half > 1 else f"{lines[half]}: another object by another reading"

    for name, data in [("counter", COUNTER), ("references", REFERENCES), ("the small object", SMALL)]:
        yield CallsRow(f"both readings: {name}", (data, b"", b""), ["open", *shows, "open_broad", *shows], is_same)
    for case in broad.orders():
        answer = "open_broad 156" if case.gives[list(case.gives)[1]] == "BigEndianCode" else "open_broad 0"
        yield CallsRow(case.name, (case.files["object"], b"", b""), ["open", "open_broad"], ["open 0", answer])


def small_object():
    """The small object's first bytes, and a byte of it changed: what reads them all says the same of each."""
    data = SMALL.read_bytes()
    for end in range(len(data)):
        wanted = "open 100" if end < 64 else "open 104"
        yield CallsRow(f"the first {end} bytes", (data[:end], b"", b""), ["open"], [wanted])
    yield CallsRow("another class", (changed(data, 4, b"\1"), b"", b""), ["open"], ["open 102"])
    yield CallsRow("another order", (changed(data, 5, b"\3"), b"", b""), ["open"], ["open 103"])
    yield CallsRow("no magic number", (changed(data, 0, b"\0"), b"", b""), ["open"], ["open 101"])


def numbers():
    """Refusals of each stage that no other row has."""
    typed, void = function_of("f", GLOBAL), variable_of_void("v")
    struct = struct_of("s", 4, ("a", 1, 0))
    held = with_extern("v", GLOBAL, integer("int", 4), struct, variable("v", 2), datasec(".ksyms", 3))
    called = variable_of_void("v", slots=[CALL, EXIT], relocations=[(0, CALL32)])
    other = btf(integer("int", 4), prototype(1), function("f", 2), variable("v", 1))
    resolve, relocate = ["open", "resolve"], ["open", "types"]
    other_value = ["open", "value=other:must:00000000"]
    closed = ["calls", "ask=programs", "clone"]
    return [
        CallsRow("no types for a function", (typed, b"", b""), resolve, ["open 0", "resolve 400"]),
        CallsRow("types that can't be read", (typed, b"types", b""), resolve, ["open 0", "resolve 200"]),
        CallsRow("types to relocate by that can't be read", (SMALL, b"types", b""), relocate, ["open 0", "types 200"]),
        CallsRow("no types to relocate by", (SMALL, b"", b""), relocate, ["open 0", "types 200"]),
        CallsRow("a function of another type", (typed, other, b""), resolve, ["open 0", "resolve 402 f"]),
        CallsRow("a variable of another type", (held, other, b""), resolve, ["open 0", "resolve 403 v"]),
        CallsRow("no function in the kernel", (typed, KERNEL, b""), resolve, ["open 0", "resolve 408 f"]),
        CallsRow("no UTF-8", (void, b"", b"\xff D v\n"), resolve, ["open 0", "resolve 406"]),
        CallsRow("no address", (void, b"", b"x D v\n"), resolve, ["open 0", "resolve 407 invalid address: x"]),
        CallsRow(
            "a call of an address",
            (called, b"", b"1 D v\n"),
            [*resolve, "externs"],
            ["open 0", "resolve 0", "externs 507 p"],
        ),
        CallsRow("a variable without a map", (values.variables(), b"", b""), other_value, ["open 0", "value 152 {section 4}"]),
        CallsRow("a closed handle", (SMALL, b"", b""), closed, ["calls 3", "ask 3", "clone 3"]),
        CallsRow("no such program", (SMALL, b"", b""), ["open", "ask=slots:q"], ["open 0", "ask 4"]),
        CallsRow("no such map", (SMALL, b"", b""), ["open", "ask=map_data:m"], ["open 0", "ask 5"]),
        CallsRow("no name", (SMALL, b"", b""), ["open", "ask=slots"], ["open 0", "ask 4"]),
    ]


def unchanged():
    """What a refused call leaves is what stood before it; a copy has what the first one has."""
    pairs = [
        ("a variable that isn't there", (COUNTER, b"", b""), "value=none:must:00"),
        ("types that can't be read", (COUNTER, b"types", b""), "types"),
        ("no function in the kernel", (function_of("f", GLOBAL), KERNEL, b""), "resolve"),
    ]
    shows = ["info", "programs", "listed", "declared", "sections", "slots", "records"]

    def is_same(lines):
        answers = "value", "types", "resolve", "clone"
        middle = next(at for at, line in enumerate(lines) if at and line.split()[0] in answers)
        same = lines[1:middle] == lines[middle + 1 :]
        return None if same and middle > 1 else f"{lines[middle]}: another object behind it"

    for name, files, action in pairs:
        yield CallsRow(f"unchanged: {name}", files, ["open", *shows, action, *shows], is_same)
    for name, files in [("counter", (COUNTER, TASKS, b"")), ("references", (REFERENCES, KERNEL, LINES))]:
        yield CallsRow(f"a clone: {name}", files, ["prepare", *shows, "clone", *shows], is_same)


def changes():
    """A map's sizes, and a value that is written into a map's data."""
    entries = ["open", "entries=counts:9", "size=counts:24", "listed"]
    value = ["open", "value=wanted:must:2a000000", "listed"]

    def line_of(name, lines):
        return next(line for line in lines if line.startswith(f"map {name} "))

    def has_sizes(lines):
        line = line_of("counts", lines)
        return None if " value 24:" in line and " entries 9 " in line else line

    def has_value(lines):
        line = line_of(".rodata", lines)
        return None if line.endswith(" data 2a000000") else line

    yield CallsRow("sizes of a map", (COUNTER, b"", b""), entries, has_sizes)
    yield CallsRow("a value of a variable", (COUNTER, b"", b""), value, has_value)


def many_values():
    """Values of several variables: `a` has the four bytes of `.data`, and `b` the last two."""

    def answers(name, action, answer, data, file=None):
        def judge(lines):
            found = [line.rpartition(" ")[2] for line in lines if line.startswith("map .data ")]
            return None if lines[1] == answer and found == [data] else f"{lines} in place of {answer}, {data}"

        files = (file or values.variables(), b"", b"")
        return CallsRow(name, files, ["open", f"values{action}", "listed"], judge)

    still = "00000000"
    return [
        answers("no values", "", "values 0", still),
        answers("values of two variables", "=b:must:090a,a:must:01020304", "values 0", "0102090a"),
        answers("a later row over an earlier one", "=b:must:0102,b:must:0304", "values 0", "00000304"),
        answers("a later row over one of another size", "=b:must:01,b:must:0304", "values 0", "00000304"),
        answers("a later row of another size", "=b:must:0304,a:must:01020304,b:must:01", "values 150 b {size 2 other_size 1}", still),
        answers("a later row that may", "=c:must:01,c:may:01,b:must:0304", "values 0", "00000304"),
        answers("a later row that must", "=c:may:01,b:must:0304,c:must:01", "values 151 c", still),
        answers("a value of another size", "=a:must:01020304,b:must:09", "values 150 b {size 2 other_size 1}", still),
        answers("a value past the data", "=past:must:0102,a:must:01020304", "values 150 past {size 2 other_size 2}", still),
        answers("a value without a map", "=a:must:01020304,other:must:01020304", "values 152 {section 4}", still),
        # by names, not by rows
        answers("the first fault", "=past:must:0102,c:must:01", "values 151 c", still),
        answers("a name that is no text", "=a:must:01020304,\udcff:must:0304", "values 6", still),
        answers("no text before other faults", "=c:must:01,\udcff:must:0304", "values 6", still),
        answers("a value of no bytes", "=b:must:,a:must:01020304", "values 150 b {size 2 other_size 0}", still),
        CallsRow("values of a closed handle", (b"", b"", b""), ["values=\udcff:must:01"], ["values 3"]),
    ]


def prepared_handles():
    """What is prepared behind a handle is what a file's bytes give in one call, and what the passes give one by one."""
    shows = ["info", "programs", "listed", "declared", "sections", "slots", "records"]
    passes = ["types", "maps", "resolve", "externs", "calls"]
    counter = COUNTER, TASKS, b""
    value = "value=wanted:must:2a000000"

    def listed_behind(lines, answer):
        """What is listed behind an answer, up to the next file."""
        rest = lines[lines.index(answer) + 1 :] if answer in lines else []
        return rest[: rest.index("open 0")] if "open 0" in rest else rest

    def is_as_prepared(lines):
        first, second = listed_behind(lines, "prepare 0"), listed_behind(lines, "prepare_handle 0")
        return None if first == second and len(first) > 6 else f"{lines[:6]}: another object"

    def is_as_passes(lines):
        first, second = listed_behind(lines, "calls 0"), listed_behind(lines, "prepare_handle 0")
        has_value = any(line.startswith("map .rodata ") and line.endswith(" data 2a000000") for line in second)
        return None if first == second and has_value else f"{lines[:6]}: another object"

    for name, files in [("counter", counter), ("references", (REFERENCES, KERNEL, LINES))]:
        actions = ["prepare", *shows, "open", "prepare_handle", *shows]
        yield CallsRow(f"a handle prepared as a file: {name}", files, actions, is_as_prepared)
    actions = ["open", value, *passes, *shows, "open", value, "prepare_handle", *shows]
    yield CallsRow("a handle prepared with a value", counter, actions, is_as_passes)
    refused = [
        ("types that can't be read", (COUNTER, b"types", b""), "prepare_handle", "prepare_handle 200"),
        ("names before types", (COUNTER, b"types", b""), "prepare_handle=\udcff:1", "prepare_handle 6"),
        ("a map without a descriptor", counter, "prepare_handle=counts:1", "prepare_handle 320 .bss"),
        ("no function in the kernel", (function_of("f", GLOBAL), KERNEL, b""), "prepare_handle", "prepare_handle 408 f"),
    ]
    for name, files, action, answer in refused:

        def stays(lines, answer=answer):
            at = next(number for number, line in enumerate(lines) if line.startswith("prepare_handle "))
            right = lines[at] == answer
            return None if right and at > 1 and lines[1:at] == lines[at + 1 :] else f"{lines[at]}: another answer or object"

        yield CallsRow(f"a handle not prepared: {name}", files, ["open", *shows, action, *shows], stays)
    yield CallsRow("a closed handle isn't prepared", (b"", b"types", b""), ["prepare_handle=\udcff:1"], ["prepare_handle 3"])


PASSES = ["types", "maps", "resolve", "externs", "calls"]

# What is set before a pass, and never after one.
SETTINGS = ["value=wanted:must:2a000000", "values=wanted:must:2a000000", "entries=counts:9", "size=counts:9", "sanitize=0"]
MORE_SETTINGS = ["data=.rodata:01020304", "define=CONFIG_HZ:0a"]


def number_of(first, second):
    """What is answered to a pass, or to one after another."""
    made, asked = PASSES.index(first), PASSES.index(second)
    return 11 if asked == made else 12 if asked < made else 0


def passes_in_order():
    """A pass is made at most once and behind none that comes later, and what is refused changes nothing."""
    files = COUNTER, TASKS, b""
    shows = ["info", "programs", "listed", "declared", "slots", "records"]

    def in_order(first, second):
        number = number_of(first, second)

        def judge(lines):
            at = next((at for at, line in enumerate(lines) if line.startswith(f"{second} ") and at > 1), 0)
            if lines[1] != f"{first} 0" or lines[at] != f"{second} {number}":
                return f"{lines[1]}, {lines[at]}: wanted {second} {number}"
            same = lines[2:at] == lines[at + 1 :]
            return None if not number or (same and at > 2) else "a refused pass changes the object"

        return CallsRow(f"{second} after {first}", files, ["open", first, *shows, second, *shows], judge)

    def same_slots(lines):
        first, second = (lines[at + 1 :] for at, line in enumerate(lines) if line == "calls 0")
        first = first[: first.index("open 0")]
        return None if first == second and len(first) > 2 else "slots of another object"

    for first in PASSES:
        for second in PASSES:
            yield in_order(first, second)
        for action in SETTINGS + MORE_SETTINGS:
            name = action.split("=")[0]
            yield CallsRow(f"{name} after {first}", files, ["open", first, action], ["open 0", f"{first} 0", f"{name} 12"])
        prepared = ["open 0", f"{first} 0", f"prepare_handle {11 if first == 'types' else 12}"]
        yield CallsRow(f"prepared after {first}", files, ["open", first, "prepare_handle"], prepared)
        yield CallsRow(f"{first} after a copy of it", files, ["open", first, "clone", first], ["open 0", f"{first} 0", "clone 0", f"{first} 11"])
    for action in PASSES + ["prepare_handle"]:
        number = 11 if action == "calls" else 12
        yield CallsRow(f"{action} of a prepared handle", files, ["open", "prepare_handle", action], ["open 0", "prepare_handle 0", f"{action} {number}"])
        yield CallsRow(f"{action} of a prepared file", files, ["prepare", action], ["prepare 0", f"{action} {number}"])
    # the retry that comes to mind: a pass too many, and then what is left
    many = ["types", "types", "maps", "maps", "types", "resolve", "maps", "externs", "prepare_handle", "resolve", "calls"]
    yield CallsRow("slots after passes too many", files, ["open", *PASSES, "slots", "open", *many, "slots"], same_slots)
    bad = ["open 0", "types 200", "types 200", "prepare_handle 200", "maps 0", "types 12"]
    yield CallsRow("a refused pass isn't made", (COUNTER, b"types", b""), ["open", "types", "types", "prepare_handle", "maps", "types"], bad)


def names():
    """Each number of the header has a name of its own, and no other number has one."""
    known = builds.numbers_of_header()

    def judge(lines):
        found = {int(line.split()[0]): line.partition(" ")[2] for line in lines}
        wrong = sorted(known ^ set(found))
        same = len(found) - len(set(found.values()))
        return f"{wrong} have a name or none, {same} the name of another" if wrong or same else None

    yield CallsRow("names of numbers", (b"", b"", b""), ["names"], judge)


def sections_of_programs():
    """The name of a program's section; of two sections with one name the earlier one isn't listed."""
    one = File().code("fentry.s/x", EXIT).symbol("p", FUNCTION, 3, 0, 8).bytes()
    two = File().code("tp", EXIT).code("tp", EXIT).symbol("p", FUNCTION, 3, 0, 8).symbol("q", FUNCTION, 4, 0, 8).bytes()
    loaded = "program p kind 21 flags 9 type 26 attach 24 section 3 address 0"
    yield CallsRow(
        "the section of a program", (one, b"", b""), ["open", "programs", "named"], ["open 0", loaded, "program p in 'fentry.s/x'"]
    )
    yield CallsRow(
        "two sections of one name", (two, b"", b""), ["open", "named"], ["open 0", "program p in ''", "program q in 'tp'"]
    )


def rows():
    return [*names(), *kinds(), *broad_kinds(), *broad_files(), *sections_of_programs(), *small_object(), *numbers(), *unchanged(), *changes(), *many_values(), *prepared_handles(), *passes_in_order()]

"""One map or program by its name, and what a program is made of once it is linked."""
from c_interface.runs import CallsRow
from growths.inputs import COUNTER, SMALL, two_calls
from rows import linked
from rows.elf import CALL32, EXIT, LOAD64, NOTHING, call_by
from rows.records import PROGRAM, TEXT


def by_names():
    files = COUNTER, b"", b""
    maps = ["find_map=counts", "find_map=.rodata", "find_map=tables"]
    lines = [
        "map counts section 10 kind 2 type 1 entries 64 data 0 inner 0",
        "map .rodata section 8 kind 5 type 2 entries 1 data 4 inner 0",
        "map tables section 10 kind 2 type 12 entries 8 data 0 inner 1",
    ]
    yield CallsRow("maps by their names", files, ["open", *maps], lambda said: same_but_sections(said, lines, "find_map"))
    program = "program on_packet section 6 address 0 slots 15 kind 6 flags 0 type 6"
    yield CallsRow("a program by its name", files, ["open", "find_program=on_packet"], ["open 0", program, "find_program 0"])
    absent = ["", "count", "countsx", "on_packet", "\udcff"]
    answers = ["open 0", *["find_map 5"] * len(absent)]
    yield CallsRow("maps that aren't there", files, ["open", *[f"find_map={name}" for name in absent]], answers)
    absent = ["", "on_packe", "counts", "\udcff"]
    answers = ["open 0", *["find_program 4"] * len(absent)]
    yield CallsRow("programs that aren't there", files, ["open", *[f"find_program={name}" for name in absent]], answers)
    closed = ["find_map=counts", "find_program=\udcff"]
    yield CallsRow("by a name of a closed handle", files, closed, ["find_map 3", "find_program 3"])
    yield CallsRow("a map as it is set", files, ["open", "entries=counts:9", "find_map=counts"], has_entries)


def same_but_sections(said, lines, action):
    """The lines of rows, each before its call's number; which section a compiler puts a map in is its own."""
    wanted = ["open 0", *[part for line in lines for part in (line, f"{action} 0")]]

    def without(line):
        words = line.split()
        return words[:3] + words[4:] if words[0] == "map" else words

    return None if list(map(without, said)) == list(map(without, wanted)) else f"{said} in place of {wanted}"


def has_entries(lines):
    return None if " entries 9 " in lines[2] else lines[2]


def maps_of_links():
    def row(name, data, lines, program="p"):
        actions = ["open", f"link_map={program}", f"link_references={program}"]
        copies = [line for line in lines if line.startswith("copy ")]
        references = [line for line in lines if line.startswith("reference ")]
        wanted = ["open 0", *copies, "link_map 0", *references, "link_references 0"]
        return CallsRow(f"a link map: {name}", (data, b"", b""), actions, wanted)

    program = "copy p at 0 slots 2 section 3 address 0"
    yield row(
        "two calls",
        two_calls(),
        [
            "copy p at 0 slots 3 section 3 address 0",
            "copy f at 3 slots 2 section 4 address 0",
            "copy g at 5 slots 1 section 4 address 16",
            "reference 0 to 3 call 1",
            "reference 1 to 5 call 1",
            "reference 3 to 5 call 1",
        ],
    )
    yield row(
        "an address",
        linked.by_section([linked.LOAD, NOTHING, EXIT], 4, LOAD64),
        ["copy p at 0 slots 3 section 3 address 0", "copy g at 3 slots 1 section 4 address 8", "reference 0 to 3 call 0"],
    )
    yield row("no reference", linked.calling([EXIT], []), ["copy p at 0 slots 1 section 3 address 0"])
    yield row(
        "a program that calls itself",
        linked.calling([linked.CALL, EXIT], []),
        [program, "copy p at 2 slots 2 section 3 address 0", "reference 0 to 2 call 1", "reference 2 to 2 call 1"],
    )
    other = ["copy B at 0 slots 2 section 4 address 0", "copy A at 2 slots 2 section 3 address 0", "copy f at 4 slots 1 section 5 address 0"]
    calls = ["reference 0 to 2 call 1", "reference 2 to 4 call 1"]
    yield row("another program", linked.two_programs(), [*other, *calls], "B")
    yield row("a name of two", linked.two_names(), ["copy q at 0 slots 2 section 3 address 0", "copy f at 2 slots 1 section 4 address 0", calls[0]], "q")


def refused():
    def row(name, data, *answers):
        """A program and the answer for each, by both calls."""
        actions, wanted = ["open"], ["open 0"]
        for program, answer in answers:
            actions += [f"link_map={program}", f"link_references={program}"]
            wanted += [f"link_map {answer}", f"link_references {answer}"]
        return CallsRow(f"no link map: {name}", (data, b"", b""), actions, wanted)

    absent = [(name, 4) for name in ("", "q", "pp", "f", "\udcff")]
    yield row("no such program", SMALL, *absent)
    yield row("no function", linked.by_section([call_by(1), EXIT], 4, CALL32), ("p", "602 p {address 16}"))
    yield row("a call of data", linked.by_section([linked.CALL, EXIT], 5, LOAD64), ("p", "608 p {symbol 5}"))
    yield row("the earlier fault", linked.two_faults(), ("p", "602 p {address 48}"))
    yield row("a function without its record", two_calls(funcs=[(PROGRAM, [0])]), ("p", "603 p"))
    yield row("lines behind their function", two_calls(lines=[(PROGRAM, [0]), (TEXT, [8, 0])]), ("p", "609 p"))
    actions = ["link_map=p", "link_references=p"]
    yield CallsRow("a link map of a closed handle", (SMALL, b"", b""), actions, ["link_map 3", "link_references 3"])
    # the other program has a fault
    actions = ["open", "link_map=a", "link_map=b", "calls"]
    lines = ["copy a at 0 slots 2 section 4 address 0", "copy f at 2 slots 1 section 5 address 0"]
    wanted = ["open 0", *lines, "link_map 0", "link_map 602 b {address 48}", "calls 602 b {address 48}"]
    yield CallsRow("a link map beside a fault", (linked.second_faulty(), b"", b""), actions, wanted)


def rows():
    return [*by_names(), *maps_of_links(), *refused()]

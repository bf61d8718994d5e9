"""What CO-RE records come to over a kernel's types."""
import re

from c_interface.rows_of_objects import is_lone, slot_digits
from c_interface.runs import CallsRow
from growths.inputs import SMALL
from rows import core_sides
from rows.btf import btf, integer, pointer, struct_of, typedef
from rows.core_sides import EXISTS, INT_4, MOVE, OFFSET, POISON, RIGHT_SHIFT, S, SIZE, TYPE_SIZE, VARIANT_VALUE, enum_of, moved, object_of
from rows.elf import File, FUNCTION

# `s` with `a`, `b` and the struct `i`, the struct `gone`, the name `name` of an int and the enumeration `e`.
LOCAL = [
    integer("int", 4),
    struct_of("i", 4, ("x", 1, 0)),
    struct_of("s", 12, ("a", 1, 0), ("b", 1, 32), ("i", 2, 64)),
    struct_of("gone", 4, ("a", 1, 0)),
    typedef("name", 1),
    enum_of("e", ("X", 1)),
]
FIELDS, GONE, NAME, VARIANTS = 3, 4, 5, 6

# A kernel in which `s` has no `a`, its `b` is a pointer in an anonymous struct, and `i` has 16 bytes; `name` is a pointer, and
# `e` has another variant.
OTHER = [
    integer("int", 4),
    pointer(1),
    struct_of("i", 16, ("x", 1, 0), ("y", 1, 64)),
    struct_of("", 8, ("b", 2, 0)),
    struct_of("s", 32, ("c", 1, 0), ("", 4, 64), ("i", 3, 128)),
    typedef("name", 2),
    enum_of("e", ("Y", 1)),
]

# What is asked, a type, an access string, and what it comes to.
ASKED = [
    (OFFSET, FIELDS, "0:2", "value 16"),
    (EXISTS, FIELDS, "0:0", "value 0"),
    (TYPE_SIZE, GONE, "0", "absent 1"),
    (TYPE_SIZE, NAME, "0", "absent 2"),
    (OFFSET, FIELDS, "0:0", "absent 3"),
    (OFFSET, FIELDS, "0:1", "absent 4"),
    (VARIANT_VALUE, VARIANTS, "0", "absent 5"),
    (RIGHT_SHIFT, FIELDS, "0:2", "absent 6"),
    (OFFSET, FIELDS, "0:9", "refused 246"),
    (SIZE, FIELDS, "0:2", "value 16"),
    (TYPE_SIZE, 99, "0", "refused 226"),
    (OFFSET, FIELDS, "x", "refused 242"),
]


def reasons():
    relocations = [(8 * at, *row[:3]) for at, row in enumerate(ASKED)]
    data = object_of(LOCAL, relocations, [MOVE] * len(ASKED))
    lines = [f"record {at} of kprobe/p at 3:0:{at} {row[3]}" for at, row in enumerate(ASKED)]
    files = data, btf(*OTHER), b""
    actions = ["open", "outcomes", "types", "outcomes", "outcomes"]
    # a refused pass leaves the object, and so what its records come to
    yield CallsRow("what records come to", files, actions, ["open 0", *lines, "outcomes 0", "types 246 kprobe/p {index 9 count 3}", *[*lines, "outcomes 0"] * 2])


def places():
    """Two sections, of which one has no function at its record's slot, and one that the file lacks."""
    held, said = core_sides.type_parts(
        S, ("kprobe/p", [(8, OFFSET, 2, "0:1")]), ("other", [(0, SIZE, 2, "0:0")]), ("kprobe/q", [(0, EXISTS, 2, "0:0"), (8, SIZE, 2, "0:0")])
    )
    file = File().code("kprobe/p", 2 * MOVE).code("kprobe/q", 2 * MOVE).data(".BTF", held).data(".BTF.ext", said)
    file.symbol("p", FUNCTION, 3, 0, 16).symbol("q", FUNCTION, 4, 8, 8)
    lines = [
        "record 0 of kprobe/p at 3:0:1 value 8",
        "record 0 of other refused 240",
        "record 0 of kprobe/q refused 241",
        "record 1 of kprobe/q at 4:8:0 value 4",
    ]
    files = file.bytes(), btf(INT_4, struct_of("s", 12, ("a", 1, 0), ("b", 1, 64))), b""
    actions = ["open", "outcomes", "types"]
    yield CallsRow("places of records", files, actions, ["open 0", *lines, "outcomes 0", "types 240 other"])


def refused():
    types = core_sides.one_of(S, OFFSET, 2, "0:1")
    yield CallsRow("records over no types", (types, b"", b""), ["open", "outcomes"], ["open 0", "outcomes 200"])
    yield CallsRow("records over types that can't be read", (types, b"types", b""), ["open", "outcomes"], ["open 0", "outcomes 200"])
    yield CallsRow("no records", (SMALL, btf(*S), b""), ["open", "outcomes"], ["open 0", "outcomes 0"])
    yield CallsRow("records of a closed handle", (types, b"types", b""), ["outcomes"], ["outcomes 3"])


def written(name, files, slots):
    """The slots of the lone program `p` that moves become: each by the last of its records."""

    def judge(lines):
        found = {}
        for line in lines[1:-1]:
            row = re.fullmatch(r"record \d+ of kprobe/p at 3:\d+:(\d+) (?:value (\d+)|absent \d)", line)
            if row is None:
                return f"{line} of a program that is relocated"
            found[int(row[1])] = POISON if row[2] is None else moved(int(row[2]))
        wrong = [at for at, slot in found.items() if slots[at] != slot.hex()]
        return f"slots {wrong[:5]} are others" if wrong else None

    return CallsRow(f"the values of records: {name}", files, ["open", "outcomes"], judge)


def rows_of(case):
    """What is told of the moves that a case relocates."""
    if "object" not in case.files:
        return
    for action, text in case.gives.items():
        word, *words = action.split()
        if word != "types_relocated" or len(words) != 1 or not text.startswith("Ok "):
            continue
        slots = slot_digits(text.removeprefix("Ok "))
        data = case.files["object"]
        if is_lone(case, slots) and len(slots) * MOVE in data and all(slot[:2] in ("b7", "85") for slot in slots):
            yield written(case.name, (data, case.files[words[0]], b""), slots)


def rows():
    return [*reasons(), *places(), *refused()]

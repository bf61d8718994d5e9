"""What the programs of the command line print of the files of the other rows: the first fault by its stage and its
variant's name, and of files without one the slots, or what the linked programs are made of."""
import re
import struct

from make_call_object import call_object
from rows.case import Case, outcome_lines
from rows.elf import BIG, CALL, CALL32, EXIT, FUNCTION, LITTLE, LOAD64, NOTHING, File, changed
from rows.linked import END, call, links, slots
from rows.resolved import FAR, LOAD, variable_of_void
from rows.small_object import KIND, SECTIONS

# The variants of errors of parsing.
PARSING = """
    ElfError BtfError MissingLicenseNullTerminator InvalidLicense InvalidKernelVersion SectionError
    UnsupportedRelocationTarget InvalidProgramSection InvalidProgramCode InvalidMapDefinition SymbolTableConflict
    UnknownSymbol InvalidSymbol InvalidGlobalData SymbolNotFound MapNotFound NoSymbolsForSection NoBTF
""".split()


def done(text):
    return "\n".join(["status 0", *outcome_lines(text)])


def refused(program, text):
    return f"status 1\nebpf-{program}: {text}"


def first_word(text):
    return re.match(r"\w*", text)[0]


def variant_in(text):
    """The variant in the text of an error of relocation."""
    return re.search(r"error: (\w+)", text)[1]


def function_sizes(data):
    """The sizes of the symbols of functions."""
    order = LITTLE if data[5] == 1 else BIG
    (table,) = struct.unpack_from(f"{order}Q", data, 40)
    (count,) = struct.unpack_from(f"{order}H", data, 60)
    headers = [struct.unpack_from(f"{order}IIQQQQII", data, table + 64 * number) for number in range(count)]
    kind, offset, size = next((header[1], header[4], header[5]) for header in headers if header[1] == 2)
    rows = [struct.unpack_from(f"{order}IBBHQQ", data, at) for at in range(offset + 24, offset + size, 24)]
    return [row[5] for row in rows if row[1] & 15 == FUNCTION & 15]


def of_parsing(case, gives):
    """A file that is no object."""
    for action, text in gives.items():
        if action.startswith("parsed") and first_word(text.strip()) in PARSING:
            case.gives["link"] = refused("link", f"parse: {first_word(text.strip())}")
            return


# Of the files whose programs can be linked, the one that is refused for its maps before.
NO_SYMBOL = "a relocation to a symbol past the last"


def of_linking_programs(case, gives):
    """Programs that are linked with the functions that they reach, and those that can't be."""
    for action, text in gives.items():
        if action == "linked slots" and case.name == NO_SYMBOL:
            case.gives["link"] = refused("link", "maps: UnknownSymbol")
        elif action == "linked slots":
            case.gives["link"] = done(text)
        if action == "linked functions":
            case.gives["link"] = refused("link", f"calls: {variant_in(text)}")
            case.gives["inspect"] = refused("inspect", f"calls: {variant_in(text)}")


# What is printed of the files with references to maps: the descriptor 1 is that of `.bss`, 2 that of `.data`, 3 that of `m`.
MAPPED = {
    "a place in a map with data": ["18 21 00 00 02 00 00 00", "00 00 00 00 18 00 00 00"],
    "a map without data": ["18 11 00 00 03 00 00 00", "00 00 00 00 00 00 00 00"],
    "a map without data on a lone slot": ["18 11 00 00 03 00 00 00"],
    "two places in maps with data": ["18 21 00 00 02 00 00 00", "00 20 00 00 01 00 00 00", "00 00 00 00 7c 00 00 00"],
    "a map without data behind a place": [
        "18 21 00 00 02 00 00 00",
        "00 10 00 00 03 00 00 00",
        "00 00 00 00 00 00 00 00",
    ],
    "a map past the function": ["18 01 00 00 00 00 00 00"],
    "a place past 32 bits": "maps: MapAddressOverflow",
    "a map between slots": "maps: InvalidRelocationOffset",
    "a place on the last slot": "maps: InvalidRelocationOffset",
    "a map of an unknown symbol": "maps: UnknownSymbol",
    "a section without a map": "maps: SectionNotFound",
    # The call is of no symbol of a function, so of what follows it.
    "what is no reference to a map": "calls: UnknownFunction",
}


def of_fds(case, gives):
    """Descriptors of maps."""
    printed = MAPPED.get(case.name)
    if isinstance(printed, list):
        case.gives["link"] = done("\n".join([f"program p slots {len(printed)}", *printed]))
    elif printed:
        case.gives["link"] = refused("link", printed)


def with_types(case, name):
    return f"link types={name}" if name in case.files else "link"


def of_resolving(case, gives):
    """Externs that can't be resolved."""
    for action, text in gives.items():
        fault = re.match(r"\s*Err\((\w+)", text)
        if action == "resolved externs" and fault:
            case.gives[with_types(case, "kernel")] = refused("link", f"ksyms: {fault[1]}")
        elif action == "resolved externs" and function_sizes(case.files["object"]) == [0]:
            # a section without instructions has no program
            case.gives[with_types(case, "kernel")] = done("")


def of_type_relocation(case, gives):
    """Functions that are relocated to a kernel's types: the slots of a lone program, or the fault."""
    for action, text in gives.items():
        words = action.split()
        if words[0] != "types_relocated" or len(words) != 2:
            continue
        fault = re.match(r"[^ ]*: (\w+)", text)
        if first_word(text) in PARSING:
            case.gives[f"link types={words[1]}"] = refused("link", f"parse: {first_word(text)}")
            continue
        if fault:
            case.gives[f"link types={words[1]}"] = refused("link", f"types: {fault[1]}")
            continue
        lines = text.removeprefix("Ok ").split(", ")
        if function_sizes(case.files["object"]) == [8 * len(lines)]:
            case.gives[f"link types={words[1]}"] = done("\n".join([f"program p slots {len(lines)}"] + lines))


def add_to(cases):
    """Adds to cases what is printed of their files, as far as it follows from what they say."""
    for case in cases:
        gives = dict(case.gives)
        if "object" in case.files:
            of_parsing(case, gives)
            of_linking_programs(case, gives)
            of_fds(case, gives)
            of_resolving(case, gives)
            of_type_relocation(case, gives)


def made_of(name, count, copies, references):
    """The lines of a program: for each copy its base, slots, section, address and name; for each reference its place,
    its base and what it is."""
    lines = [f"program {name} slots {count}"]
    lines += [f"copy {base} {size} {section} 0x{address:x} {held}" for base, size, section, address, held in copies]
    return "\n".join(lines + [f"ref {place} {base} {what}" for place, base, what in references])


P = (0, 2, 3, 0, "p")

# What the linked programs are made of, by the names of their rows.
LINKED = {
    "calls itself": made_of("p", 4, [P, (2, 2, 3, 0, "p")], [(0, 2, "call"), (2, 2, "call")]),
    "calls in turn": made_of(
        "p",
        6,
        [(0, 3, 3, 0, "p"), (3, 2, 4, 0, "f"), (5, 1, 4, 16, "g")],
        [(0, 3, "call"), (1, 5, "call"), (3, 5, "call")],
    ),
    "stands where it is called first": made_of(
        "p",
        6,
        [(0, 3, 3, 0, "p"), (3, 1, 4, 16, "g"), (4, 2, 4, 0, "f")],
        [(0, 3, "call"), (1, 4, "call"), (4, 3, "call")],
    ),
    "depth first": made_of(
        "p",
        8,
        [(0, 3, 3, 0, "p"), (3, 2, 4, 0, "f"), (5, 1, 4, 16, "g"), (6, 2, 4, 24, "h")],
        [(0, 3, "call"), (1, 6, "call"), (3, 5, "call"), (6, 5, "call")],
    ),
    "calls another program": "\n".join(
        [
            made_of("A", 3, [(0, 2, 3, 0, "A"), (2, 1, 5, 0, "f")], [(0, 2, "call")]),
            made_of(
                "B", 5, [(0, 2, 4, 0, "B"), (2, 2, 3, 0, "A"), (4, 1, 5, 0, "f")], [(0, 2, "call"), (2, 4, "call")]
            ),
        ]
    ),
    # The function has the later name.
    "two names of one function": "\n".join(
        made_of(name, 3, [(0, 2, 3, 0, "q"), (2, 1, 4, 0, "f")], [(0, 2, "call")]) for name in "pq"
    ),
    "a call by a section": made_of("p", 3, [P, (2, 1, 4, 8, "g")], [(0, 2, "call")]),
    "a call by a section, of its first": made_of("p", 3, [P, (2, 1, 4, 0, "f")], [(0, 2, "call")]),
    "an address by a section": made_of("p", 4, [(0, 3, 3, 0, "p"), (3, 1, 4, 8, "g")], [(0, 3, "load")]),
}


def small():
    """The small object, and what is no object, no types and no program."""
    text = slots("p", call(1), END, END)
    parts = made_of("p", 3, [(0, 2, 1, 0, "p"), (2, 1, 2, 0, "f")], [(0, 2, "call")])
    return [
        Case(
            "the small object, printed",
            {"object": call_object(), "no_types": b"types"},
            {
                "link": done(text),
                "link program=p": done(text),
                "link program=q": refused("link", "no program q"),
                "link types=no_types": refused("link", "btf: InvalidHeader"),
                "inspect": done(parts),
                "inspect program=p": done(parts),
                "inspect program=q": refused("inspect", "no program q"),
                "inspect types=no_types": refused("inspect", "btf: InvalidHeader"),
            },
        ),
        # Without its relocation the call is of its own function, which has a copy of its own.
        Case(
            "the small object without its relocation, printed",
            changed(call_object(), SECTIONS + 5 * 64 + KIND, b"\0"),
            {
                "link": done(slots("p", call(1), END, call(-1), END)),
                "inspect": done(
                    made_of("p", 4, [(0, 2, 1, 0, "p"), (2, 2, 1, 0, "p")], [(0, 2, "call"), (2, 2, "call")])
                ),
            },
        ),
        # The kernel's types are read before the object.
        Case(
            "no file, printed",
            {"object": b"foo", "no_types": b"types"},
            {
                "link": refused("link", "parse: ElfError"),
                "link types=no_types": refused("link", "btf: InvalidHeader"),
                "inspect": refused("inspect", "parse: ElfError"),
            },
        ),
        Case("a file without sections, printed", b"\x7fELF\2\1" + bytes(58), {"link": done("")}),
    ]


def several():
    """Two programs: all by name, and one."""
    file = File().code("kprobe", EXIT).code("kprobe/a", EXIT)
    file.symbol("b", FUNCTION, 3, 0, 8).symbol("a", FUNCTION, 4, 0, 0)
    first, second = slots("a"), slots("b", END)
    return [
        Case(
            "two programs, printed",
            file.bytes(),
            {"link": done(f"{first}\n{second}"), "link program=a": done(first), "link program=b": done(second)},
        )
    ]


def externs():
    """A variable of the kernel whose address is told: it is loaded, or called."""
    loaded = variable_of_void("v", slots=[LOAD, NOTHING, EXIT], relocations=[(0, LOAD64)])
    called = variable_of_void("v", slots=[CALL, EXIT], relocations=[(0, CALL32)])
    lines = f"{FAR:x} D v\n".encode()
    low, high = FAR % 2**32 - 2**32, FAR // 2**32 - 2**32
    return [
        Case(
            "the address of a variable, printed",
            {"object": loaded, "kallsyms": lines},
            {"link": done(slots("p", ("18010000", low), ("00000000", high), END))},
        ),
        Case(
            "a call of an address, printed",
            {"object": called, "kallsyms": lines},
            {"link": refused("link", "externs: UnresolvableSymbol")},
        ),
    ]


def parts():
    """What linked programs are made of; a program by its name, beside others."""
    named = {"calls another program": "B", "two names of one function": "q"}
    cases = []
    for name, data, _ in links():
        gives = {"inspect": done(LINKED[name])}
        if name in named:
            lines = outcome_lines(LINKED[name])
            at = lines.index(next(line for line in lines if line.startswith(f"program {named[name]} ")))
            gives[f"inspect program={named[name]}"] = done("\n".join(lines[at:]))
        cases.append(Case(f"{name}, its parts", data, gives))
    return cases


def cases():
    return small() + several() + externs() + parts()

"""Programs that are linked with the functions that they reach."""
import struct

from rows.case import Case
from rows.elf import CALL, CALL32, EXIT, FUNCTION, LOAD64, NOTHING, SECTION, File, call_by, slot

# A load of an address 8 bytes behind a symbol, of two slots.
LOAD = slot(0x18, 1, imm=8)


def program(slots, functions):
    """The program `p`, symbol 1, in section 3, `kprobe/p`, and functions in section 4, `.text`, by name; their symbols
    have the numbers from 2 on. So far without references."""
    file = File().code("kprobe/p", b"".join(slots)).symbol("p", FUNCTION, 3, 0, 8 * len(slots))
    text = b""
    for name, slots in functions:
        file.symbol(name, FUNCTION, 4, len(text), 8 * len(slots))
        text += b"".join(slots)
    return file.code(".text", text)


def by_section(slots, symbol, kind):
    """A program with a relocation of a type at its first slot. `.text` has f at 0 and g at 8, each of one slot; symbol
    4 is the symbol of that section, and symbol 5 one of data in it."""
    file = program(slots, [("f", [EXIT]), ("g", [EXIT])]).symbol("", SECTION, 4, 0, 0).symbol("d", 1, 4, 0, 8)
    return file.relocations(3, [(0, symbol, kind)]).bytes()


def calling(slots, functions, from_program=(), from_text=()):
    """A program with calls of symbols: an offset and a symbol for each, of the program and of `.text`."""
    file = program(slots, functions)
    file.relocations(3, [(offset, symbol, CALL32) for offset, symbol in from_program])
    return file.relocations(4, [(offset, symbol, CALL32) for offset, symbol in from_text]).bytes()


def two_programs():
    """The program A calls the function f, and the program B calls A."""
    file = File().code("kprobe/a", CALL + EXIT).code("kprobe/b", CALL + EXIT).code(".text", EXIT)
    file.symbol("A", FUNCTION, 3, 0, 16).symbol("B", FUNCTION, 4, 0, 16).symbol("f", FUNCTION, 5, 0, 8)
    return file.relocations(3, [(0, 3, CALL32)]).relocations(4, [(0, 1, CALL32)]).bytes()


def two_names():
    """One function with the names p and q, that calls f."""
    file = File().code("kprobe/p", CALL + EXIT).code(".text", EXIT)
    file.symbol("p", FUNCTION, 3, 0, 16).symbol("q", FUNCTION, 3, 0, 16).symbol("f", FUNCTION, 4, 0, 8)
    return file.relocations(3, [(0, 3, CALL32)]).bytes()


def chain(callers):
    """A program that calls the first of a chain of functions, each of which calls the next, up to one that ends."""
    file = File().code("kprobe/p", CALL + EXIT).symbol("p", FUNCTION, 3, 0, 16)
    name = file.add_name("f")
    for number in range(callers):
        file.symbol(name, FUNCTION, 4, 16 * number, 16)
    file.symbol(name, FUNCTION, 4, 16 * callers, 8)
    return file.code(".text", (call_by(1) + EXIT) * callers + EXIT).relocations(3, [(0, 2, CALL32)]).bytes()


def two_faults():
    """A program that calls f, whose call finds no function, and then what is data."""
    file = program([CALL, CALL, EXIT], [("f", [call_by(5), EXIT])]).symbol("d", 1, 4, 0, 8)
    return file.relocations(3, [(0, 2, CALL32), (8, 3, CALL32)]).bytes()


def second_faulty():
    """The programs b, whose call finds no function, and a, which calls f."""
    file = File().code("kprobe/b", call_by(5) + EXIT).code("kprobe/a", CALL + EXIT).code(".text", EXIT)
    file.symbol("b", FUNCTION, 3, 0, 16).symbol("a", FUNCTION, 4, 0, 16).symbol("f", FUNCTION, 5, 0, 8)
    return file.relocations(4, [(0, 3, CALL32)]).bytes()


def slots(name, *rows):
    """The text of a program with these slots, each by its first four bytes and its last four as a number."""
    lines = [f"program {name} slots {len(rows)}"]
    return "\n".join(lines + [(bytes.fromhex(first) + struct.pack("<i", imm)).hex(" ") for first, imm in rows])


def call(imm):
    return ("85100000", imm)


END = ("95000000", 0)


def no_function(program, caller, address):
    return (
        f'EbpfRelocationError {{ function: "{program}", error: UnknownFunction'
        f' {{ address: {address}, caller_name: "{caller}" }} }}'
    )


def functions(*rows):
    """The text of functions: a name, a section, an address, and the number of slots."""
    return "\n".join(f"function {name} at {section} {at} offset {at} slots {count}" for name, section, at, count in rows)


P_F_G = functions(("p", 3, 0, 2), ("f", 4, 0, 1), ("g", 4, 8, 1))


def links():
    first, second = ("f", [CALL, EXIT]), ("g", [EXIT])
    return [
        # A program that calls itself has a copy of its own.
        ("calls itself", calling([CALL, EXIT], []), slots("p", call(1), END, call(-1), END)),
        # P calls f and g, f calls g.
        (
            "calls in turn",
            calling([CALL, CALL, EXIT], [first, second], [(0, 2), (8, 3)], [(0, 3)]),
            slots("p", call(2), call(3), END, call(1), END, END),
        ),
        # P calls g and f, f calls g: g stands first.
        (
            "stands where it is called first",
            calling([CALL, CALL, EXIT], [first, second], [(0, 3), (8, 2)], [(0, 3)]),
            slots("p", call(2), call(2), END, END, call(-2), END),
        ),
        # P calls f and h, and both call g: f, g, h.
        (
            "depth first",
            calling([CALL, CALL, EXIT], [first, second, ("h", [CALL, EXIT])], [(0, 2), (8, 4)], [(0, 3), (24, 3)]),
            slots("p", call(2), call(4), END, call(1), END, END, call(-2), END),
        ),
        (
            "calls another program",
            two_programs(),
            slots("A", call(1), END, END) + "\n" + slots("B", call(1), END, call(1), END, END),
        ),
        (
            "two names of one function",
            two_names(),
            slots("p", call(1), END, END) + "\n" + slots("q", call(1), END, END),
        ),
        # The second function of the section, and the first.
        ("a call by a section", by_section([call_by(0), EXIT], 4, CALL32), slots("p", call(1), END, END)),
        ("a call by a section, of its first", by_section([CALL, EXIT], 4, CALL32), slots("p", call(1), END, END)),
        (
            "an address by a section",
            by_section([LOAD, NOTHING, EXIT], 4, LOAD64),
            slots("p", ("18410000", 2), ("00000000", 0), END, END),
        ),
    ]


def faults():
    return [
        (
            "a call by a section, of neither",
            by_section([call_by(1), EXIT], 4, CALL32),
            no_function("p", "p", 16) + "\n" + P_F_G,
        ),
        (
            "a call of data",
            by_section([CALL, EXIT], 5, LOAD64),
            'EbpfRelocationError { function: "p", error: UnsupportedTextSymbol { index: 5 } }\n' + P_F_G,
        ),
        # P calls f, whose call finds no function, and then what is no function.
        (
            "the earlier fault of a callee",
            two_faults(),
            no_function("p", "f", 48) + "\n" + functions(("p", 3, 0, 3), ("f", 4, 0, 2)),
        ),
        # The program a has no fault, and stays as it was too.
        (
            "the fault of one program",
            second_faulty(),
            no_function("b", "b", 48) + "\n" + functions(("b", 3, 0, 2), ("a", 4, 0, 2), ("f", 5, 0, 1)),
        ),
    ]


def cases():
    linked = [
        Case(name, data, {"linked slots": expected, "prepared calls": "maps 0\n" + expected})
        for name, data, expected in links()
    ]
    counts = """
        program p slots 20001
        10000: 85 10 00 00 01 00 00 00
        10001: 95 00 00 00 00 00 00 00
    """
    linked.append(Case("a chain of 10,000 functions", chain(9999), {"linked slot_counts": counts}))
    return linked + [Case(name, data, {"linked functions": expected}) for name, data, expected in faults()]

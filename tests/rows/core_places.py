"""Sections of relocations by types, and the functions and slots that these are about.

Each relocation here asks for the size of the struct `s`, which is 24 in the kernel, and each slot is a move.
"""
from rows.btf import btf, struct_of
from rows.case import Case
from rows.core_sides import MOVE, TYPE_SIZE, types_relocated, moved, refused, type_parts, unreadable
from rows.elf import EXIT, FUNCTION, File

LOCAL = [struct_of("s", 8)]
KERNEL = btf(struct_of("s", 24))

FOUND = moved(24)


def asks(*places):
    return [(at, TYPE_SIZE, 1, "0") for at in places]


def with_types(file, *sections):
    held, said = type_parts(LOCAL, *sections)
    return file.data(".BTF", held).data(".BTF.ext", said).bytes()


def place(name, data, gives):
    return Case(name, {"object": data, "kernel": KERNEL}, {"types_relocated kernel": gives})


def one_program(*sections):
    """The program `p` of two slots, and these sections of relocations."""
    file = File().code("kprobe/p", 2 * MOVE).symbol("p", FUNCTION, 3, 0, 16)
    return with_types(file, *sections)


def program_of(data, symbols, *places):
    """A program section with symbols, each a name, an address and a size, and relocations at these places."""
    file = File().code("kprobe/p", data)
    for name, address, size in symbols:
        file.symbol(name, FUNCTION, 3, address, size)
    return with_types(file, ("kprobe/p", asks(*places)))


def text_of(address, *places):
    """`.text` at an address: `f` of one slot, and behind it `g` of two."""
    file = File().code(".text", 3 * MOVE, address=address)
    file.symbol("f", FUNCTION, 3, address, 8).symbol("g", FUNCTION, 3, (address + 8) % 2**64, 16)
    return with_types(file, (".text", asks(*places)))


def sections():
    lost = "SectionNotFound"
    good = ("kprobe/p", asks(0))
    slots = [MOVE, MOVE]
    bare = File().code("kprobe/p", MOVE).symbol("p", FUNCTION, 3, 0, 8)
    bare_types = File().code("kprobe/p", MOVE).symbol("p", FUNCTION, 3, 0, 8).data(".BTF", btf(*LOCAL))
    return [
        # Without types nothing is done; what lies in the section for instructions is not even read.
        place("no types to relocate to", bare.data(".BTF.ext", b"\0").bytes(), types_relocated(MOVE)),
        place("types and no relocations", bare_types.bytes(), types_relocated(MOVE)),
        # A section's name that can't be read: the section is named by where it stands.
        place(
            "relocations of a section without a name that can be read",
            one_program((1000, asks(0))),
            refused(unreadable(1000), *slots, section="section@1000"),
        ),
        # A section that the object does not have.
        place(
            "relocations of an unknown section",
            one_program(("kprobe/q", asks(0))),
            refused(lost, *slots, section="kprobe/q"),
        ),
        place(
            "an unknown section without relocations",
            one_program(("kprobe/q", [])),
            refused(lost, *slots, section="kprobe/q"),
        ),
        # Sections come in order, and nothing is left of those before a refusal.
        place(
            "a section without a name behind others",
            one_program(good, (1000, []), ("kprobe/q", [])),
            refused(unreadable(1000), *slots, section="section@1000"),
        ),
        place(
            "an unknown section before others",
            one_program(good, ("kprobe/q", []), (1000, [])),
            refused(lost, *slots, section="kprobe/q"),
        ),
        # The relocations of both are of one section.
        place(
            "two sections of relocations with one name",
            one_program(good, ("kprobe/p", asks(8))),
            types_relocated(FOUND, FOUND),
        ),
        place(
            "relocations of a section without functions",
            one_program((".BTF", asks(0))),
            refused("FunctionNotFound", *slots, section=".BTF"),
        ),
        # Of two sections with one name the later is meant.
        place(
            "relocations of the later of two sections",
            with_types(
                File()
                .code("kprobe/p", MOVE)
                .code("kprobe/p", MOVE)
                .symbol("p", FUNCTION, 3, 0, 8)
                .symbol("q", FUNCTION, 4, 0, 8),
                good,
            ),
            types_relocated(MOVE, FOUND),
        ),
    ]


def functions():
    lost = "FunctionNotFound"
    both = [("p", 0, 16), ("q", 8, 8)]
    first = ("p", 0, 8)
    # Two slots that lie behind four bytes, and as many bytes behind them.
    uneven = lambda at: program_of(bytes(4) + 2 * MOVE + bytes(4), [("p", 4, 16)], at)
    return [
        # The function with the lowest address that has the slot, which is the second one of the first function.
        place("a slot of two functions", program_of(2 * MOVE, both, 8), types_relocated(MOVE, FOUND, MOVE)),
        place("a slot behind the last function", program_of(2 * MOVE, both, 16), refused(lost, MOVE, MOVE, MOVE)),
        place("a slot before the first function", program_of(2 * MOVE, [("q", 8, 8)], 0), refused(lost, MOVE)),
        place("a slot between functions", program_of(3 * MOVE, [first, ("q", 16, 8)], 8), refused(lost, MOVE, MOVE)),
        place("a slot of an empty function", program_of(2 * MOVE, [("p", 0, 0), ("q", 8, 8)], 0), refused(lost, MOVE)),
        # A function of another section lies at the same offset.
        place(
            "a slot of a function in another section",
            with_types(
                File()
                .code("kprobe/p", MOVE)
                .code("kprobe/q", MOVE)
                .symbol("p", FUNCTION, 3, 0, 8)
                .symbol("q", FUNCTION, 4, 0, 8),
                ("kprobe/q", asks(0)),
            ),
            types_relocated(MOVE, FOUND),
        ),
        # The slot is counted from where the function begins.
        place("a slot of the second function", text_of(0, 16), types_relocated(MOVE, MOVE, FOUND)),
        place("a slot in a section with an address", text_of(256, 8), types_relocated(MOVE, FOUND, MOVE)),
        # `g` has the address 0, so its slots are shown first.
        place("a slot in a section at the end of the addresses", text_of(2**64 - 8, 0), types_relocated(MOVE, MOVE, FOUND)),
        # Divisions round down: 12 bytes are one slot and a half.
        place("a place inside a slot", program_of(2 * MOVE, [("p", 0, 16)], 12), types_relocated(MOVE, FOUND)),
        # Two slots from byte 4 on are taken for slots 0 and 1 of the section, so for the bytes up to 15. Of these 4 to
        # 11 are in the function's first slot, and 12 to 15 in its second.
        place("a place before an uneven function", uneven(3), refused(lost, MOVE, MOVE)),
        place("the first place of an uneven function", uneven(4), types_relocated(FOUND, MOVE)),
        place("the last place in an uneven function's first slot", uneven(11), types_relocated(FOUND, MOVE)),
        place("the first place in an uneven function's second slot", uneven(12), types_relocated(MOVE, FOUND)),
        place("the last place of an uneven function", uneven(15), types_relocated(MOVE, FOUND)),
        place("a place behind an uneven function", uneven(16), refused(lost, MOVE, MOVE)),
        # A slot that no relocation is about stays.
        place(
            "slots that relocations are about and others",
            program_of(EXIT + MOVE + EXIT + MOVE, [("p", 0, 32)], 24, 8),
            types_relocated(EXIT, FOUND, EXIT, FOUND),
        ),
    ]


def cases():
    return sections() + functions()

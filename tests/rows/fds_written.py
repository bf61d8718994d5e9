"""Descriptors of maps that are written into slots."""
from rows.case import Case
from rows.elf import CALL32, CALL_CODE, FUNCTION, LOAD64, NOTHING, OBJECT, PROGBITS, File, slot

# Loads of 64 bits: by 0, by 8, and with the greatest immediate.
LOAD = slot(0x18, 1)
LOAD_8 = slot(0x18, 1, imm=8)
LAST = slot(0x18, 1, imm=2**31 - 1)

# A symbol of no type without a section.
GLOBAL = 0x10


def referring(slots, relocations):
    """The program `p` of these slots in section 3, with relocations, each an offset, a symbol and a type. `.data` is
    section 4, `.bss` section 5 and `maps` section 6, with the map `m`; section 7 has no map. The symbols are 1 `p`, 2
    at address 16 of `.data`, 3 at address 100 of `.bss`, 4 `m`, 5 in section 7, 6 at address 1 of `.data`, and 7
    without section."""
    file = File().code("kprobe/p", b"".join(slots))
    file.section(".data", PROGBITS, 3, bytes(128)).section(".bss", PROGBITS, 3, bytes(128))
    file.section("maps", PROGBITS, 3, bytes(28)).data("other", bytes(8))
    file.symbol("p", FUNCTION, 3, 0, 8 * len(slots)).symbol("a", OBJECT, 4, 16, 4).symbol("b", OBJECT, 5, 100, 4)
    file.symbol("m", OBJECT, 6, 0, 28).symbol("x", OBJECT, 7, 0, 8).symbol("c", OBJECT, 4, 1, 1)
    return file.symbol("e", GLOBAL, 0, 0, 0).relocations(3, relocations).bytes()


def refused(error, slots):
    return f'Err(EbpfRelocationError {{ function: "p", error: {error} }}) {slots}'


def misplaced(offset, number):
    return f"InvalidRelocationOffset {{ offset: {offset}, relocation_number: {number} }}"


NO_MAP = 'SectionNotFound { section_index: 7, symbol_index: 5, symbol_name: Some("x") }'

# The slots, their relocations, the descriptors that are given, and what the slots are then.
ROWS = [
    (
        "a place in a map with data",
        [LOAD_8, NOTHING],
        [(0, 2, LOAD64)],
        ".data=7",
        "Ok(()) 18 21 00 00 07 00 00 00, 00 00 00 00 18 00 00 00",
    ),
    (
        "a map without data",
        [LOAD_8, NOTHING],
        [(0, 4, LOAD64)],
        "m=7",
        "Ok(()) 18 11 00 00 07 00 00 00, 00 00 00 00 00 00 00 00",
    ),
    ("a map without data on a lone slot", [LOAD], [(0, 4, LOAD64)], "m=1", "Ok(()) 18 11 00 00 01 00 00 00"),
    # The second slot would hold the first one's place, but it refers to a map itself.
    (
        "two places in maps with data",
        [LOAD_8, NOTHING, NOTHING],
        [(0, 2, LOAD64), (8, 3, LOAD64)],
        ".data=7 .bss=9",
        "Ok(()) 18 21 00 00 07 00 00 00, 00 20 00 00 09 00 00 00, 00 00 00 00 7c 00 00 00",
    ),
    (
        "a map without data behind a place",
        [LOAD_8, NOTHING, NOTHING],
        [(0, 2, LOAD64), (8, 4, LOAD64)],
        ".data=7 m=9",
        "Ok(()) 18 21 00 00 07 00 00 00, 00 10 00 00 09 00 00 00, 00 00 00 00 00 00 00 00",
    ),
    (
        "a place past 32 bits",
        [LAST, NOTHING],
        [(0, 6, LOAD64)],
        ".data=7",
        refused("MapAddressOverflow { offset: 0 }", "18 01 00 00 ff ff ff 7f, 00 00 00 00 00 00 00 00"),
    ),
    (
        "a map between slots",
        [LOAD_8, NOTHING],
        [(4, 2, LOAD64)],
        ".data=7",
        refused(misplaced(4, 0), "18 01 00 00 08 00 00 00, 00 00 00 00 00 00 00 00"),
    ),
    # No slot comes behind the second. The first stays as it was too.
    (
        "a place on the last slot",
        [LOAD_8, LOAD_8],
        [(0, 4, LOAD64), (8, 2, LOAD64)],
        "m=1 .data=7",
        refused(misplaced(8, 1), "18 01 00 00 08 00 00 00, 18 01 00 00 08 00 00 00"),
    ),
    (
        "a map of an unknown symbol",
        [LOAD_8],
        [(0, 9, LOAD64)],
        "",
        refused("UnknownSymbol { index: 9 }", "18 01 00 00 08 00 00 00"),
    ),
    ("a section without a map", [LOAD_8], [(0, 5, LOAD64)], "m=1", refused(NO_MAP, "18 01 00 00 08 00 00 00")),
    # A function, an extern, and a call of what has no map.
    (
        "what is no reference to a map",
        [LOAD_8, LOAD_8, slot(CALL_CODE, 0x10)],
        [(0, 1, LOAD64), (8, 7, LOAD64), (16, 5, CALL32)],
        "m=1",
        "Ok(()) 18 01 00 00 08 00 00 00, 18 01 00 00 08 00 00 00, 85 10 00 00 00 00 00 00",
    ),
    ("a map that is given twice", [LOAD], [(0, 4, LOAD64)], "m=1 m=2", "Ok(()) 18 11 00 00 02 00 00 00"),
    ("a map past the function", [LOAD], [(8, 4, LOAD64)], "", "Ok(()) 18 01 00 00 00 00 00 00"),
]


def cases():
    return [
        Case(name, referring(slots, relocations), {f"fds_written {given}".rstrip(): expected})
        for name, slots, relocations, given, expected in ROWS
    ]

"""Ids and addresses of externs that are written into slots."""
from rows.btf import btf, integer
from rows.case import Case
from rows.elf import CALL, CALL32, CALL_CODE, FUNCTION, LOAD64, NOTHING, File, slot

# A load of 64 bits, a call by 0, a slot whose immediate is 6, and a move.
LOAD = slot(0x18, 1)
CALL_BY_0 = slot(CALL_CODE, 0x10)
SIX = slot(0, imm=6)
MOVE = slot(0xB7, 1)

# A symbol of no type without a section.
GLOBAL = 0x10

FAR, NEAR = 0xFFFFFFFF81000010, 0x200000001


def referring(slots, relocations, types=".BTF"):
    """The program `p` of these slots in section 3, with relocations, each an offset, a symbol and a type, and a section
    with or without types. Symbol 1 is the extern `v`, symbol 2 `p`, and symbol 3 the extern `w`."""
    file = File().code("kprobe/p", b"".join(slots)).data(types, btf(integer("int", 4)))
    file.symbol("v", GLOBAL, 0, 0, 0).symbol("p", FUNCTION, 3, 0, 8 * len(slots)).symbol("w", GLOBAL, 0, 0, 0)
    return file.relocations(3, relocations).bytes()


def refused(error, slots):
    return f'Err(EbpfRelocationError {{ function: "p", error: {error} }}) {slots}'


def unresolved(slots):
    return refused('UnresolvableSymbol { name: "v" }', slots)


def misplaced(offset, slots):
    return refused(f"InvalidRelocationOffset {{ offset: {offset}, relocation_number: 0 }}", slots)


# The slots, their relocations, what is known of `v`, and what the slots are then.
ROWS = [
    ("a call of a weak extern", [CALL_BY_0], [(0, 1, CALL32)], "weak", "Ok(()) 85 00 00 00 81 18 54 77"),
    ("a call of a strong extern", [CALL_BY_0], [(0, 1, CALL32)], "strong", unresolved("85 10 00 00 00 00 00 00")),
    ("a weak extern on a lone slot", [LOAD], [(0, 1, LOAD64)], "weak", misplaced(0, "18 01 00 00 00 00 00 00")),
    (
        "a weak extern on two slots",
        [slot(0x18, 0x21, imm=5), SIX],
        [(0, 1, LOAD64)],
        "weak",
        "Ok(()) 18 01 00 00 00 00 00 00, 00 00 00 00 00 00 00 00",
    ),
    ("an extern on a move", [MOVE], [(0, 1, LOAD64)], "weak", misplaced(0, "b7 01 00 00 00 00 00 00")),
    (
        "the address of an extern",
        [LOAD, NOTHING],
        [(0, 1, LOAD64)],
        f"address:{FAR}",
        "Ok(()) 18 01 00 00 10 00 00 81, 00 00 00 00 ff ff ff ff",
    ),
    (
        "the id of a variable",
        [LOAD, SIX],
        [(0, 1, LOAD64)],
        "id:5",
        "Ok(()) 18 31 00 00 05 00 00 00, 00 00 00 00 00 00 00 00",
    ),
    ("the id of a function", [CALL], [(0, 1, CALL32)], "id:9", "Ok(()) 85 20 00 00 09 00 00 00"),
    ("a call of an address", [CALL], [(0, 1, CALL32)], f"address:{NEAR}", unresolved("85 10 00 00 ff ff ff ff")),
    (
        "a strong extern of which nothing is known",
        [LOAD, NOTHING],
        [(0, 1, LOAD64)],
        "strong",
        unresolved("18 01 00 00 00 00 00 00, 00 00 00 00 00 00 00 00"),
    ),
    # The call before it stays as it was too.
    (
        "a symbol that is none of the externs",
        [CALL, LOAD],
        [(0, 1, CALL32), (8, 3, LOAD64)],
        "id:9",
        refused('ExternNotFound { name: "w" }', "85 10 00 00 ff ff ff ff, 18 01 00 00 00 00 00 00"),
    ),
    ("a call of a program", [CALL], [(0, 2, CALL32)], "id:9", "Ok(()) 85 10 00 00 ff ff ff ff"),
    (
        "an extern of an unknown symbol",
        [CALL],
        [(0, 7, CALL32)],
        "id:9",
        refused("UnknownSymbol { index: 7 }", "85 10 00 00 ff ff ff ff"),
    ),
    ("an extern between slots", [CALL], [(2, 1, CALL32)], "id:9", misplaced(2, "85 10 00 00 ff ff ff ff")),
    # The slot behind the load is written before it is read as a call.
    (
        "a call behind a load",
        [LOAD, CALL, NOTHING],
        [(0, 1, LOAD64), (8, 1, CALL32)],
        "id:9",
        "Ok(()) 18 31 00 00 09 00 00 00, 85 20 00 00 09 00 00 00, 00 00 00 00 00 00 00 00",
    ),
    (
        "a load behind a load",
        [LOAD, LOAD, NOTHING],
        [(0, 1, LOAD64), (8, 1, LOAD64)],
        f"address:{NEAR}",
        "Ok(()) 18 01 00 00 01 00 00 00, 18 01 00 00 01 00 00 00, 00 00 00 00 02 00 00 00",
    ),
]


def cases():
    rows = [
        Case(name, referring(slots, relocations), {f"externs_written v={known}": expected})
        for name, slots, relocations, known, expected in ROWS
    ]
    # Nothing is looked at.
    bare = referring([MOVE], [(0, 1, LOAD64)], types=".BTF2")
    return rows + [Case("externs without types", bare, {"externs_written": "Ok(()) b7 01 00 00 00 00 00 00"})]

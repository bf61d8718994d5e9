"""Relocations one after the other, and which of several faults is answered."""
from rows.btf import INT, array, struct_of, ty
from rows.core_sides import (
    BAD_TYPE,
    EXISTS,
    INT_4,
    LEFT_SHIFT,
    LOAD,
    MOVE,
    OFFSET,
    POISON,
    S,
    TYPE_EXISTS,
    TYPE_SIZE,
    WIDE,
    types_relocated,
    bad_kind,
    bad_slot,
    bad_string,
    beside,
    conflict,
    no_slot,
    object_of,
    one_of,
    refused,
    row,
    too_nested,
    unknown,
    unreadable,
)
from rows.elf import NOTHING, slot

# The struct `s`, type 2, and the struct `v` of 16 bytes, type 3.
LOCAL = [*S, struct_of("v", 16)]

MOVES = 3 * [MOVE]


def in_order():
    """Relocations are applied in order, each over what those before it wrote."""
    large = [ty("", INT, 8, 64), ty("", INT, 4, 32), struct_of("s", 16, ("a", 1, 64), ("b", 2, 32))]
    small = [ty("", INT, 4, 32), struct_of("s", 8, ("a", 1, 0), ("b", 1, 32))]
    twice = [(0, TYPE_SIZE, 2, "0"), (0, TYPE_SIZE, 3, "0")]
    poisoned = [(0, TYPE_SIZE, 2, "0"), (0, TYPE_EXISTS, 2, "0")]
    second = [(0, TYPE_SIZE, 2, "0"), (8, TYPE_SIZE, 3, "0")]
    wide = [*WIDE, NOTHING]
    return [
        row("two sizes in one move", object_of(LOCAL, twice, [MOVE]), LOCAL, types_relocated(slot(0xB7, 1, imm=16))),
        # The first makes it a load of eight bytes, and the second leaves its size.
        row(
            "two fields in one load",
            object_of(small, [(0, OFFSET, 2, "0:0"), (0, OFFSET, 2, "0:1")], [LOAD]),
            large,
            types_relocated(slot(0x79, 0x12, 4)),
        ),
        # The slot has become a call, which carries nothing.
        row("a slot without a value and with one", object_of(LOCAL, poisoned, [MOVE]), [], refused(bad_slot(0, 1))),
        row("a slot without a value twice", object_of(LOCAL, twice, [MOVE]), [], types_relocated(POISON)),
        row(
            "the second slot of a wide load that fails",
            object_of(LOCAL, second, WIDE),
            [LOCAL[2]],
            refused(bad_slot(1, 1), *WIDE),
        ),
        # A slot of zeros is of the class of wide loads: it takes the low half, and the slot behind it the high half.
        row(
            "the second slot of a wide load",
            object_of(LOCAL, second, wide),
            LOCAL[1:],
            types_relocated(slot(0x18, 1, imm=8), slot(0, imm=16), slot(0)),
        ),
    ]


def first_of_several():
    """Whatever comes later, the first relocation that is at fault refuses, and nothing is written."""
    some = [(0, TYPE_SIZE, 2, "0"), (8, TYPE_SIZE, 9, "0"), (16, TYPE_SIZE, 2, "1"), (24, TYPE_SIZE, 2, "0")]
    turned = some[:1] + some[:0:-1]
    return [
        row("two relocations at fault", object_of(LOCAL, some, MOVES), LOCAL, refused(unknown(9), *MOVES)),
        row("the same turned", object_of(LOCAL, turned, MOVES), LOCAL, refused("FunctionNotFound", *MOVES)),
        row(
            "the number of a relocation at fault",
            object_of(LOCAL, [(16, EXISTS, 2, "0"), (8, EXISTS, 2, "0:0:0"), (0, EXISTS, 2, "0")], 3 * [MOVE]),
            LOCAL,
            refused(bad_kind(1), *MOVES),
        ),
    ]


def of_one():
    """The faults of one relocation: of its place, of its local type and access string, of the names of candidates, of
    their matches one by one, of the local field, of candidates that differ, and of its slot."""
    itself, other = struct_of("s", 8, ("", 1, 0)), struct_of("s", 8, ("x", 0, 0))
    jump = slot(0x05)
    sixteen = [ty("", INT, 16, 128), struct_of("s", 16, ("b", 1, 0))]
    elements = [INT_4, array(1, 2), struct_of("s", 8, ("b", 2, 0))]
    nameless = struct_of(1000, 8)
    outside = object_of(S, [(8, TYPE_SIZE, 9, "x")], [MOVE])
    of_sixteen = one_of(sixteen, LEFT_SHIFT, 2, "0:0")
    of_b = lambda slot: one_of(S, EXISTS, 2, "0:1", slot)
    of_element = one_of(elements, LEFT_SHIFT, 3, "0:0:1")
    # Types of the name whose fields differ, behind an int.
    differ = [INT_4, struct_of("s", 8, ("b", 1, 0)), struct_of("s", 8, ("b", 1, 32))]
    arrays = [INT_4, array(1, 2), struct_of("s", 8, ("b", 2, 0)), struct_of("s", 16, ("b", 2, 64))]
    return [
        row("a place before a local type", outside, S, refused("FunctionNotFound")),
        row("an access string before names", one_of(S, TYPE_SIZE, 2, "x"), [nameless], refused(bad_string("x"))),
        row("a part before names", one_of(S, EXISTS, 2, "0:0:0"), [nameless], refused(bad_kind())),
        row("names before matches", of_b(MOVE), [itself, nameless], refused(unreadable(1000))),
        # The first candidate, or the second one, is at fault before what is wrong with the local field.
        beside(
            "matches before the local field",
            of_sixteen,
            [
                ("first", [itself], refused(too_nested("s"))),
                ("second", [other, struct_of("s___n", 8, ("", 2, 0))], refused(too_nested("s___n"))),
                ("both", [struct_of("s___m", 8, ("", 1, 0)), itself], refused(too_nested("s___m"))),
                ("neither", [other], refused(BAD_TYPE)),
            ],
        ),
        row("matches before an element's shift", of_element, [itself], refused(too_nested("s"))),
        row("the local field before types that differ", of_sixteen, differ, refused(BAD_TYPE)),
        row("an element's shift before types that differ", of_element, arrays, refused(bad_kind())),
        row("types that differ before a slot", of_b(jump), differ, refused(conflict("s", "s"), jump)),
        row("types that differ before a missing slot", of_b(WIDE[0]), differ, refused(conflict("s", "s"), WIDE[0])),
        row("a missing slot", of_b(WIDE[0]), differ[:2], refused(no_slot(1, 1), WIDE[0])),
        # In one candidate the members come in order.
        row(
            "a member before the next",
            of_b(MOVE),
            [INT_4, struct_of("s", 8, ("", 9, 0), (1000, 1, 0))],
            refused(unknown(9)),
        ),
    ]


def unknown_kind():
    """A relocation that asks for something else: the object is none."""
    fault = "BtfError(InvalidRelocationKind { kind: 12 })"
    return [row("a relocation of a kind past the last", one_of(S, 12, 2, "0"), S, fault)]


def cases():
    return unknown_kind() + in_order() + first_of_several() + of_one()

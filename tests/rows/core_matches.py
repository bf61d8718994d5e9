"""Types and variants of a kernel that match, and members that fit."""
from rows.btf import FWD, INT, UNION, VOLATILE, array, pointer, prototype, struct_of, ty, typedef
from rows.core_sides import (
    EXISTS,
    INT_4,
    MOVE,
    SIZE,
    TYPE_EXISTS,
    VARIANT_EXISTS,
    VARIANT_VALUE,
    beside,
    enum_of,
    learned,
    numbers,
    object_of,
    one_of,
    refused,
    row,
    too_deep,
    unknown,
    unreadable,
)


def whole_types():
    """A type matches one that it is compatible with."""
    typedefs = [INT_4, pointer(1), typedef("t", 1), typedef("p", 2), prototype(1, 1), typedef("f", 5)]
    others = [pointer(2), ty("", INT, 8, 64), typedef("t", 2), typedef("p", 2), prototype(2, 2, 2), typedef("f", 5)]
    shifted = [ty("", INT, 4, 0x10020), typedef("t", 1)]
    loop = [typedef("t", 1)]
    of_t = one_of(typedefs, TYPE_EXISTS, 3, "0")
    return [
        # Ints of any size are; a pointer and an int, and functions of one and of two parameters, are not.
        learned(
            "types that are compatible and others",
            [*typedefs, struct_of("s", 4)],
            [*others, struct_of("s", 8, ("a", 2, 0))],
            (TYPE_EXISTS, 3, "0", 1),
            (TYPE_EXISTS, 4, "0", 0),
            (TYPE_EXISTS, 6, "0", 0),
            (TYPE_EXISTS, 7, "0", 1),
        ),
        learned("an int behind some bits", typedefs, shifted, (TYPE_EXISTS, 3, "0", 0)),
        # A candidate that can't be compared refuses.
        row("a candidate that is a typedef of itself", of_t, loop, refused(too_deep(1))),
        row("a candidate of an unknown type", of_t, [typedef("t", 9)], refused(unknown(9))),
    ]


def variants():
    """An enumeration matches where it has a variant of the name, before three underscores on both sides."""
    local = [enum_of("e", ("A___x", 1)), typedef("t", 1)]
    asked = [(0, VARIANT_VALUE, 1, "0"), (8, VARIANT_EXISTS, 1, "0")]
    both = object_of(local, asked, 2 * [MOVE])
    return [
        beside(
            "variants by name",
            both,
            [
                ("first", [enum_of("e", ("B", 5), ("A___y", 6), ("A", 7))], numbers(6, 1)),
                ("other", [enum_of("e", ("A__x", 5), ("B", 6))], numbers(None, 0)),
                ("none", [enum_of("e")], numbers(None, 0)),
                # The second variant has no name that can be read; of the others the first is met before it.
                ("behind", [enum_of("e", ("A", 8), (1000, 9))], numbers(8, 1)),
                ("before", [enum_of("e", ("B", 8), (1000, 9), ("A", 7))], refused(unreadable(1000), MOVE, MOVE)),
            ],
        ),
        # The candidate is resolved: it may stand for an enumeration, or for what has no variants.
        beside(
            "variants of a typedef",
            one_of(local, VARIANT_VALUE, 2, "0"),
            [
                ("enumeration", [enum_of("e", ("A", 3)), ty("", VOLATILE, 1), typedef("t", 2)], numbers(3)),
                ("number", [INT_4, typedef("t", 1)], numbers(None)),
                ("loop", [typedef("t", 1)], refused(too_deep(1))),
            ],
        ),
    ]


def compared():
    """A member fits where `fields_are_compatible` with the local one: some pairs of kinds."""
    struct = lambda *types: struct_of("s", 32, *zip(["a", "p", "i", "r"], types, [0, 64, 128, 192]))
    local = [INT_4, pointer(1), struct_of("i", 4), array(1, 2), struct(1, 2, 3, 4)]
    asked = [(8 * at, EXISTS, 5, f"0:{at}") for at in range(4)]
    data = object_of(local, asked, 4 * [MOVE])
    large = [ty("", INT, 8, 64), pointer(0), ty("u", UNION, 1), array(1, 9)]
    named = [INT_4, typedef("t", 1), pointer(1), struct_of("x", 1), array(2, 1)]
    shifted = [ty("", INT, 4, 0x10020), INT_4, array(1, 2), ty("i", FWD, 0)]
    turned = [INT_4, pointer(1), struct_of("i", 4), array(2, 2)]
    return [
        beside(
            "members that fit and others",
            data,
            [
                # Any int, any pointer, a STRUCT or UNION, an ARRAY of any length.
                ("all", [*large, struct(1, 2, 3, 4)], numbers(1, 1, 1, 1)),
                ("resolved", [*named, struct(2, 3, 4, 5)], numbers(1, 1, 1, 1)),
                # An int behind a bit, an int for a pointer, a FWD for a STRUCT, and an array of the first.
                ("shifted", [*shifted, struct(1, 2, 4, 3)], numbers(0, 0, 0, 0)),
                ("turned", [*turned, struct(3, 4, 1, 4)], numbers(0, 0, 0, 0)),
            ],
        ),
        # A pointer's size needs no type behind it.
        learned(
            "a pointer to an unknown type",
            local,
            [pointer(9), struct_of("s", 8, ("p", 1, 0))],
            (SIZE, 5, "0:1", 8),
        ),
    ]


def cases():
    return whole_types() + variants() + compared()

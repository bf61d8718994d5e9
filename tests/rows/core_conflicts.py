"""Several types of a kernel that match: they have to agree with the first in the bit offset and in what is learned."""
from rows.btf import INT, struct_of, ty, typedef
from rows.core_sides import (
    EXISTS,
    INT_4,
    LEFT_SHIFT,
    LOAD,
    MOVE,
    OFFSET,
    POISON,
    S,
    SIZE,
    TARGET_ID,
    TYPE_EXISTS,
    TYPE_SIZE,
    UNSIGNED_4,
    VARIANT_EXISTS,
    VARIANT_VALUE,
    WIDE,
    types_relocated,
    beside,
    conflict,
    enum64_of,
    enum_of,
    learned,
    numbers,
    object_of,
    one_of,
    refused,
    row,
)
from rows.elf import slot

# `b` of the struct `s` of another name.
LOCAL = [INT_4, struct_of("s___local", 4, ("b", 1, 0))]


def with_b(name, bit, of=1):
    return struct_of(name, 8, ("b", of, bit))


def names():
    """A refusal has the local type's name, and the names of those that differ from the first, by id."""
    several = [INT_4, with_b("s", 64), with_b("s___one", 64), with_b("s___two", 32), struct_of("s", 8)]
    return [
        row(
            "types that differ from the first",
            one_of(LOCAL, OFFSET, 2, "0:0"),
            [*several, with_b("s___six", 0), with_b("s", 64), with_b("s", 32)],
            refused(conflict("s___local", "s___two", "s___six", "s")),
        ),
        # One that doesn't match counts for nothing.
        learned(
            "types that agree with the first",
            LOCAL,
            [INT_4, struct_of("s", 8), with_b("s", 64), struct_of("s___b", 8, ("c", 1, 0)), with_b("s___c", 64)],
            (OFFSET, 2, "0:0", 8),
            (EXISTS, 2, "0:0", 1),
            (SIZE, 2, "0:0", 4),
        ),
    ]


def fields():
    elsewhere = [INT_4, with_b("s", 32), with_b("s", 64)]
    larger = [UNSIGNED_4, ty("", INT, 8, 64), with_b("s", 32), with_b("s", 32, 2)]
    unsigned = [UNSIGNED_4, struct_of("s", 4, ("b", 1, 0))]
    both = object_of(unsigned, [(0, OFFSET, 2, "0:0"), (8, EXISTS, 2, "0:0")], [LOAD, MOVE])
    differ = refused(conflict("s___local", "s"))
    return [
        # The bit offset counts whatever is asked.
        row("fields at two places that exist", one_of(LOCAL, EXISTS, 2, "0:0"), elsewhere, differ),
        row("fields at two places of one size", one_of(LOCAL, SIZE, 2, "0:0"), elsewhere, differ),
        # At one place they may be of two sizes, where that isn't asked: the load goes by the first.
        row("fields of two sizes at one place", both, larger, types_relocated(slot(0x61, 0x12, 4), slot(0xB7, 1, imm=1))),
        row("two sizes of a field", one_of(unsigned, SIZE, 2, "0:0"), larger, refused(conflict("s", "s"))),
        # Bits that are not those of a whole byte count too.
        row(
            "fields at two bits of one byte",
            one_of(LOCAL, OFFSET, 2, "0:0"),
            [INT_4, with_b("s", 32), with_b("s", 33)],
            differ,
        ),
    ]


def absent():
    """A value that can't be had equals only another one that can't."""
    types = [INT_4, ty("", INT, 16, 128)]
    x, y = with_b("s", 32), with_b("s", 32, 2)
    conflicts = refused(conflict("s", "s"))
    nothing = one_of(S, TYPE_SIZE, 2, "0", *WIDE)
    return [
        beside(
            "shifts that can be had and that can't",
            one_of(S, LEFT_SHIFT, 2, "0:1"),
            [
                ("x_and_y", [*types, x, y], conflicts),
                ("y_and_x", [*types, y, x], conflicts),
                ("y_and_y", [*types, y, y], numbers(None)),
                ("x_and_x", [*types, x, x], numbers(32)),
                # They differ in their bits.
                ("y_and_y_elsewhere", [*types, y, with_b("s", 64, 2)], conflicts),
            ],
        ),
        learned("no type for its size and its id", S, [INT_4], (TYPE_SIZE, 2, "0", None), (TARGET_ID, 2, "0", None)),
        row("no type for a wide load", nothing, [INT_4], types_relocated(POISON, POISON)),
    ]


def types_and_variants():
    local = [struct_of("s", 8), enum_of("e", ("A", 0)), typedef("t", 2)]
    same = [struct_of("s", 8), struct_of("s", 8)]
    same += [enum_of("e", ("A", 7)), enum_of("e", ("B", 7)), enum_of("e", ("A", 7))]
    # -1 and 2^32 - 1.
    signs = [enum_of("e", ("A", 2**32 - 1), signed=1), enum_of("e", ("A", 2**32 - 1))]
    signs += [struct_of("s", 4), struct_of("s", 5)]
    wide = [enum64_of("e", ("A", 1)), typedef("t", 1), enum_of("e", ("A", 1)), typedef("t", 3)]
    differ = refused(conflict("s", "s"))
    return [
        learned(
            "types and variants that agree",
            local,
            same,
            (TYPE_EXISTS, 1, "0", 1),
            (TYPE_SIZE, 1, "0", 8),
            (VARIANT_VALUE, 2, "0", 7),
            (VARIANT_EXISTS, 2, "0", 1),
        ),
        row("ids of types that agree", one_of(local, TARGET_ID, 1, "0"), same, differ),
        row("two sizes of a type", one_of(local, TYPE_SIZE, 1, "0"), signs, differ),
        row("two values of a variant", one_of(local, VARIANT_VALUE, 2, "0"), signs, refused(conflict("e", "e"))),
        learned("existence in types that differ", local, signs, (TYPE_EXISTS, 1, "0", 1), (VARIANT_EXISTS, 2, "0", 1)),
        # One value in enumerations of both kinds.
        learned("a value of two kinds", local, wide, (VARIANT_VALUE, 3, "0", 1)),
    ]


def cases():
    return names() + fields() + absent() + types_and_variants()

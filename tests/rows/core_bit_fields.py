"""What is learned of bit fields: the container that is loaded for one, and by how much that is shifted.

A container has as many bytes as the field's type, twice as many, and so on while there were fewer than 8. It begins at
a multiple of its size, and the first one that holds the field is taken. What is loaded of it is shifted to the left by
64 less the bit behind the field, counted from the container's start, and to the right by 64 less the field's bits.
"""
from rows.btf import ENUM, FLOAT, INT, STRUCT, pointer, struct_of, ty, typedef
from rows.core_sides import (
    BAD_TYPE,
    EXISTS,
    INT_4,
    LEFT_SHIFT,
    MOVE,
    OFFSET,
    QUESTIONS,
    RIGHT_SHIFT,
    SIGNED,
    SIZE,
    UNSIGNED_4,
    bit_struct,
    conflict,
    learned,
    object_of,
    one_of,
    refused,
    row,
)

INT_1, INT_3, INT_8, INT_16 = (ty("", INT, size, 8 * size) for size in (1, 3, 8, 16))

# What is asked, in the order of the numbers in a row.
KINDS = [OFFSET, SIZE, LEFT_SHIFT, RIGHT_SHIFT]


def fields(name, of, *rows):
    """Fields of a type, each at a bit with a number of bits, and what is learned of them: None where it refuses."""
    members = [(f"m{place}", 1, at, bits) for place, (at, bits, *_) in enumerate(rows)]
    types = [of, bit_struct("s", 64, *members)]
    asked = [
        (kind, 2, f"0:{place}", number)
        for place, (_, _, *found) in enumerate(rows)
        for kind, number in zip(KINDS, found)
        if number is not None
    ]
    return learned(name, types, types, *asked)


def containers():
    return [
        # The first is in byte 4 to 7, the second needs all eight.
        fields("bit fields of four bytes", INT_4, (37, 5, 4, 4, 54, 59), (30, 4, 0, 8, 30, 60), (0, 32, 0, 4, 32, 32)),
        # Bits 6 to 9 need two bytes, 14 to 17 four, and 30 to 33 eight. Bit 71 ends byte 8.
        fields(
            "bit fields of one byte",
            INT_1,
            (6, 4, 0, 2, 54, 60),
            (14, 4, 0, 4, 46, 60),
            (30, 4, 0, 8, 30, 60),
            (71, 1, 8, 1, 56, 63),
        ),
        # Three bytes from byte 0 on end with bit 23, six with bit 47; there is a container of twelve, since six are
        # fewer than eight.
        fields(
            "bit fields of three bytes",
            INT_3,
            (20, 8, 0, 6, 36, 56),
            (24, 8, 3, 3, 56, 56),
            (44, 8, 0, 12, 12, 56),
        ),
        fields("bit fields of eight bytes", INT_8, (60, 4, 0, 8, 0, 60), (64, 64, 8, 8, 0, 0)),
        fields(
            "bit fields of 16 bytes",
            INT_16,
            (100, 8, 0, 16, None, 56),
            (40, 8, 0, 16, 16, 56),
            (0, 70, 0, 16, None, None),
        ),
        # What has no number of bits there is no bit field, and lies where it lies.
        fields("a member beside bit fields", INT_4, (40, 0, 5, 4, 32, 32), (3, 0, 0, 4, 29, 32)),
    ]


def of_other_types():
    float_field = [ty("", FLOAT, 4), bit_struct("s", 8, ("f", 1, 33, 3))]
    resolved = [ty("", ENUM, 4, flag=1), typedef("t", 1), bit_struct("s", 8, ("f", 2, 33, 3))]
    # Inside a member without a name at bit 32, which is in a struct without bit fields.
    inside = [UNSIGNED_4, bit_struct("", 4, ("f", 1, 5, 5)), struct_of("s", 8, ("a", 1, 0), ("", 2, 32))]
    return [
        learned(
            "a bit field of another type",
            float_field,
            float_field,
            (OFFSET, 2, "0:0", 4),
            (SIZE, 2, "0:0", 4),
            (SIGNED, 2, "0:0", 0),
        ),
        learned(
            "a bit field of a typedef",
            resolved,
            resolved,
            (OFFSET, 3, "0:0", 4),
            (SIZE, 3, "0:0", 4),
            (SIGNED, 3, "0:0", 1),
        ),
        learned(
            "a bit field inside a member without a name",
            inside,
            inside,
            (OFFSET, 3, "0:1:0", 4),
            (LEFT_SHIFT, 3, "0:1:0", 54),
            (RIGHT_SHIFT, 3, "0:1:0", 59),
            (SIGNED, 3, "0:1:0", 0),
        ),
    ]


def without_container():
    """Fields that no container holds, and of types without a size, for each question."""
    pair = lambda of, at, bits: [of, bit_struct("s", 64, ("f", 1, at, bits))]
    both = [(0, EXISTS, 2, "0:0"), (8, SIZE, 2, "0:0")]
    bad = [
        ("across the last container of one byte", pair(INT_1, 62, 4)),
        ("across eight bytes", pair(INT_8, 60, 8)),
        ("of a pointer", pair(pointer(0), 0, 8)),
        ("of a type of no byte", pair(ty("", STRUCT, 0), 0, 8)),
        ("with more bits than twelve bytes", pair(INT_3, 0, 97)),
    ]
    across = pair(INT_8, 60, 8)
    return [
        row(f"the {what} of a bit field across eight bytes", one_of(across, asked, 2, "0:0"), [], refused(BAD_TYPE))
        for what, asked in QUESTIONS
    ] + [
        row(f"a bit field {what}", object_of(types, both, 2 * [MOVE]), types, refused(BAD_TYPE, MOVE, MOVE))
        for what, types in bad
    ] + [
        row("a left shift past 64 bits", one_of(pair(INT_16, 100, 8), LEFT_SHIFT, 2, "0:0"), [], refused(BAD_TYPE)),
        row("a right shift past 64 bits", one_of(pair(INT_16, 0, 65), RIGHT_SHIFT, 2, "0:0"), [], refused(BAD_TYPE)),
        # That it is there needs none.
        learned("the existence of a bit field", across, across, (EXISTS, 2, "0:0", 1)),
        # In the kernel's type it means that there is no value.
        learned(
            "a bit field without a container in the kernel",
            pair(INT_8, 0, 8),
            across,
            (OFFSET, 2, "0:0", None),
            (SIZE, 2, "0:0", None),
            (SIGNED, 2, "0:0", None),
            (EXISTS, 2, "0:0", 1),
        ),
    ]


def on_one_side():
    plain = [INT_4, struct_of("s", 8, ("f", 1, 32))]
    field = [INT_4, bit_struct("s", 8, ("f", 1, 37, 5))]
    asked = lambda left: [(OFFSET, 2, "0:0", 4), (SIZE, 2, "0:0", 4), (LEFT_SHIFT, 2, "0:0", left)]
    return [
        learned("a bit field that was none", plain, field, *asked(54)),
        learned("a field that was a bit field", field, plain, *asked(32)),
        # The container is the same, but not the field's bits.
        row(
            "bit fields in one container",
            one_of(field, SIZE, 2, "0:0"),
            [*field, bit_struct("s", 8, ("f", 1, 38, 5))],
            refused(conflict("s", "s")),
        ),
        row(
            "bit fields of other sizes at one bit",
            object_of(field, [(0, OFFSET, 2, "0:0"), (8, LEFT_SHIFT, 2, "0:0")], 2 * [MOVE]),
            [*field, bit_struct("s", 8, ("f", 1, 37, 6))],
            refused(conflict("s", "s"), MOVE, MOVE),
        ),
        learned(
            "bit fields of one size in two types",
            field,
            [*field, bit_struct("s", 16, ("g", 1, 0, 5), ("f", 1, 37, 5))],
            (OFFSET, 2, "0:0", 4),
            (RIGHT_SHIFT, 2, "0:0", 59),
        ),
    ]


def cases():
    return containers() + of_other_types() + without_container() + on_one_side()

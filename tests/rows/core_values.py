"""What is learned of types, variants and fields that match, but for bit fields."""
from rows.btf import FLOAT, FWD, INT, array, pointer, struct_of, ty, typedef
from rows.core_sides import (
    BAD_TYPE,
    EXISTS,
    INT_4,
    LEFT_SHIFT,
    LOAD,
    LOCAL_ID,
    MOVE,
    OFFSET,
    QUESTIONS,
    RIGHT_SHIFT,
    S,
    SIGNED,
    SIZE,
    TARGET_ID,
    TYPE_EXISTS,
    TYPE_SIZE,
    UNSIGNED_4,
    VARIANT_EXISTS,
    VARIANT_VALUE,
    WIDE,
    types_relocated,
    bad_kind,
    beside,
    conflict,
    enum64_of,
    enum_of,
    learned,
    moved,
    numbers,
    object_of,
    one_of,
    refused,
    row,
    too_deep,
    unexpected,
    unknown,
)
from rows.elf import slot

INT_16 = ty("", INT, 16, 128)


def existence():
    """What is there is a 1, and without a match it is a 0."""
    local = [*S, enum_of("e", ("A", 0), ("B", 1))]
    asked = [(0, EXISTS, 2, "0:1"), (8, TYPE_EXISTS, 2, "0"), (16, VARIANT_EXISTS, 3, "1")]
    return [
        beside(
            "what is there and what is not",
            object_of(local, asked, 3 * [MOVE]),
            [
                ("all", local, numbers(1, 1, 1)),
                ("no_parts", [struct_of("s", 8), enum_of("e", ("A", 0))], numbers(0, 1, 0)),
                ("nothing", [INT_4], numbers(0, 0, 0)),
            ],
        )
    ]


def whole_types():
    """The local id; the id and the size of the match, which fail where there is none."""
    local = [struct_of("s", 8), ty("f", FWD, 0), typedef("t", 0), ty("r", FLOAT, 4)]
    kernel = [INT_4, struct_of("s", 24), ty("r", FLOAT, 8), ty("f", FWD, 0), typedef("t", 0)]
    asked = [(0, TARGET_ID, 1, "0"), (8, TYPE_SIZE, 1, "0")]
    return [
        learned(
            "what is learned of types",
            local,
            kernel,
            (LOCAL_ID, 1, "0", 1),
            (TARGET_ID, 1, "0", 2),
            (TYPE_SIZE, 1, "0", 24),
            (TYPE_SIZE, 4, "0", 8),
            (TARGET_ID, 2, "0", 4),
            (TYPE_EXISTS, 2, "0", 1),
            (TARGET_ID, 3, "0", 5),
        ),
        row("the id and the size of no type", object_of(local, asked, 2 * [MOVE]), [INT_4], numbers(None, None)),
        row("the size of a declared type", one_of(local, TYPE_SIZE, 2, "0"), kernel, refused(unexpected(4))),
        row("the size of nothing", one_of(local, TYPE_SIZE, 3, "0"), kernel, refused(unexpected(0))),
        # Each match has to have one.
        row(
            "the sizes of two declared types",
            one_of(local, TYPE_SIZE, 2, "0"),
            [ty("f", FWD, 0), ty("f", FWD, 0)],
            refused(unexpected(1)),
        ),
    ]


def variant_values():
    """Of 32 bits, widened as the kernel's ENUM says; of 64 bits both halves."""
    local = [enum_of("e", ("A", 5), signed=1), enum64_of("f", ("A", 5))]
    both = object_of(local, [(0, VARIANT_VALUE, 1, "0"), (16, VARIANT_VALUE, 1, "0")], [*WIDE, MOVE])
    wide = one_of(local, VARIANT_VALUE, 2, "0", *WIDE)
    halves = lambda low, high: [slot(0x18, 1, imm=low), slot(0, imm=high)]
    last = 2**31 - 1
    return [
        beside(
            "values of 32 bits",
            both,
            [
                ("signed", [enum_of("e", ("A", 2**32 - 1), signed=1)], types_relocated(*halves(-1, -1), moved(-1))),
                ("unsigned", [enum_of("e", ("A", 2**32 - 1))], types_relocated(*halves(-1, 0), moved(-1))),
                ("positive", [enum_of("e", ("A", last), signed=1)], types_relocated(*halves(last, 0), moved(last))),
                ("negative", [enum_of("e", ("A", last + 1), signed=1)], types_relocated(*halves(~last, -1), moved(~last))),
            ],
        ),
        beside(
            "values of 64 bits",
            wide,
            [
                ("large", [enum64_of("f", ("A", 0x900000002))], types_relocated(*halves(2, 9))),
                ("last", [enum64_of("f", ("A", 2**64 - 1))], types_relocated(*halves(-1, -1))),
                ("small", [enum64_of("f", ("A", 2**32 - 1), signed=1)], types_relocated(*halves(-1, 0))),
            ],
        ),
        learned("the low half of a value", local, [enum64_of("f", ("A", 0x900000002))], (VARIANT_VALUE, 2, "0", 2)),
    ]


def elements():
    """Of an element its first byte and its size, and that it is there."""
    local = [UNSIGNED_4, array(1, 3), struct_of("s", 12, ("a", 2, 0))]
    kernel = [ty("", INT, 8, 64), array(1, 3), struct_of("s", 32, ("x", 1, 0), ("a", 2, 64))]
    whole = lambda asked: object_of(local, [(0, EXISTS, 3, "0"), (8, asked, 3, "0")], 2 * [MOVE])
    return [
        learned(
            "what is learned of elements",
            local,
            kernel,
            (OFFSET, 3, "0:0:2", 24),
            (SIZE, 3, "0:0:2", 8),
            (EXISTS, 3, "0:0:2", 1),
            (OFFSET, 3, "2", 64),
            (SIZE, 3, "2", 32),
            (EXISTS, 3, "2", 1),
        ),
        # The load has the size and the type of an element.
        row("a load of an element", one_of(local, OFFSET, 3, "0:0:1", LOAD), kernel, types_relocated(slot(0x79, 0x12, 16))),
    ] + [
        row(f"the {what} of an element", one_of(local, asked, 3, "0:0:1"), kernel, refused(bad_kind()))
        for what, asked in QUESTIONS[2:]
    ] + [
        # It refuses also without a match.
        row(f"the {what} of a whole struct", whole(asked), [], refused(bad_kind(1), MOVE, MOVE))
        for what, asked in QUESTIONS[2:]
    ]


def members():
    """Of a member the first byte, the size of its type, whether that has a sign, and how far its bytes are shifted."""
    types = [
        INT_4,
        UNSIGNED_4,
        ty("", INT, 2, 0x1000010),
        pointer(1),
        enum_of("", signed=1),
        enum64_of(""),
        ty("", FLOAT, 8),
        struct_of("", 4),
        array(3, 3),
        typedef("t", 5),
    ]
    # Each at a bit that is its number times 64, but for the two bytes at bit 141 and the 8 at bit 455.
    at = [0, 64, 141, 192, 256, 320, 384 + 71, 512, 576, 640]
    held = [*types, struct_of("s", 96, *((f"m{place}", place + 1, bit) for place, bit in enumerate(at)))]
    # The offset, the size, the sign, and the shift to the right and to the left.
    rows = [
        (0, 4, 1, 32, 32),
        (8, 4, 0, 32, 32),
        (17, 2, 1, 48, 43),
        (24, 8, 0, 0, 0),
        (32, 4, 1, 32, 32),
        (40, 8, 0, 0, 0),
        (56, 8, 0, 0, None),
        (64, 4, 0, 32, 32),
        (72, 6, 0, 16, 16),
        (80, 4, 1, 32, 32),
    ]
    kinds = [OFFSET, SIZE, SIGNED, RIGHT_SHIFT, LEFT_SHIFT]
    asked = [
        (kind, 11, f"0:{place}", number)
        for place, found in enumerate(rows)
        for kind, number in zip(kinds, found)
        if number is not None
    ]
    # 71 bits of 64 would be shifted.
    past = one_of(held, LEFT_SHIFT, 11, "0:6")
    signs = [enum_of(""), enum64_of("", signed=1), struct_of("s", 16, ("a", 1, 0), ("b", 2, 64))]
    return [
        learned("what is learned of members", held, held, *asked),
        row("a shift past 64 bits", past, held, refused(BAD_TYPE)),
        learned("signs of enumerations", signs, signs, (SIGNED, 3, "0:0", 0), (SIGNED, 3, "0:1", 1)),
        # The numbers are those of the kernel's field.
        learned(
            "a member that moved and grew",
            S,
            [ty("", INT, 8, 64), struct_of("s", 16, ("b", 1, 64))],
            (OFFSET, 2, "0:1", 8),
            (SIZE, 2, "0:1", 8),
            (SIGNED, 2, "0:1", 0),
            (LEFT_SHIFT, 2, "0:1", 0),
            (RIGHT_SHIFT, 2, "0:1", 0),
            (EXISTS, 2, "0:1", 1),
        ),
    ]


def local_faults():
    """A fault of the local field refuses first, also without a match."""
    sizeless = [ty("f", FWD, 0), struct_of("s", 8, ("a", 1, 0), ("b", 9, 0), ("c", 3, 0)), typedef("t", 3)]
    large = [INT_16, struct_of("s", 16, ("a", 1, 0))]
    declared = [ty("f", FWD, 0), struct_of("s", 4, ("a", 1, 0))]
    return [
        row(f"the {what} of a member without a size", one_of(sizeless, asked, 2, "0:0"), [], refused(unexpected(1)))
        for what, asked in QUESTIONS
    ] + [
        row("the offset of a member of an unknown type", one_of(sizeless, OFFSET, 2, "0:1"), [], refused(unknown(9))),
        row("the sign of a typedef of itself", one_of(sizeless, SIGNED, 2, "0:2"), [], refused(too_deep(3))),
        row("the left shift of 16 bytes", one_of(large, LEFT_SHIFT, 2, "0:0"), [], refused(BAD_TYPE)),
        row("the right shift of 16 bytes", one_of(large, RIGHT_SHIFT, 2, "0:0"), S, refused(BAD_TYPE)),
        learned("a member of 16 bytes", large, large, (SIZE, 2, "0:0", 16), (OFFSET, 2, "0:0", 0)),
        # That it is there needs no size.
        learned("members without a size", sizeless, [], (EXISTS, 2, "0:0", 0), (EXISTS, 2, "0:1", 0)),
        learned("a member that is only declared", sizeless, declared, (EXISTS, 2, "0:0", 1)),
    ]


def kernel_faults():
    """A fault of the kernel's field means that there is no value, whatever the number would need."""
    local = [INT_4, array(1, 2), struct_of("s", 8, ("a", 2, 0), ("b", 1, 0))]
    # The array has 2^32 bytes.
    kernel = [INT_4, array(1, 2**30), struct_of("s", 8, ("a", 2, 32), ("b", 4, 64)), INT_16]
    return [
        learned(
            "a kernel's field without a size",
            local,
            kernel,
            (OFFSET, 3, "0:0", None),
            (SIZE, 3, "0:0", None),
            (SIGNED, 3, "0:0", None),
            (LEFT_SHIFT, 3, "0:0", None),
            (EXISTS, 3, "0:0", 1),
            (OFFSET, 3, "0:0:1", 8),
            (OFFSET, 3, "0:1", 8),
            (SIZE, 3, "0:1", 16),
            (LEFT_SHIFT, 3, "0:1", None),
            (RIGHT_SHIFT, 3, "0:1", None),
        ),
        row(
            "fields without a size in two types",
            one_of(local, SIZE, 3, "0:0"),
            [*kernel, struct_of("s", 8, ("a", 2, 0))],
            refused(conflict("s", "s")),
        ),
    ]


def cases():
    return existence() + whole_types() + variant_values() + elements() + members() + local_faults() + kernel_faults()

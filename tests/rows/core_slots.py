"""How slots of each class carry what was learned, or fail where they are reached."""
from rows.btf import INT, STRUCT, pointer, struct_of, ty, typedef
from rows.core_sides import (
    EXISTS,
    INT_4,
    MOVE,
    OFFSET,
    POISON,
    SIZE,
    TYPE_EXISTS,
    TYPE_SIZE,
    UNSIGNED_4,
    VARIANT_VALUE,
    WIDE,
    types_relocated,
    bad_slot,
    beside,
    bit_struct,
    enum64_of,
    no_slot,
    numbers,
    object_of,
    one_of,
    refused,
    row,
)
from rows.elf import CALL, CALL_CODE, EXIT, NOTHING, slot

STRUCT_S = [struct_of("s", 8)]


def size_in(slots, asked=TYPE_SIZE):
    """An object that asks for the size of the struct `s` in the first of these slots."""
    return object_of(STRUCT_S, [(0, asked, 1, "0")], slots)


def sizes_in(slots):
    """An object that asks for it in each of these slots."""
    return object_of(STRUCT_S, [(8 * at, TYPE_SIZE, 1, "0") for at in range(len(slots))], slots)


def sized(size):
    return [struct_of("s", size)]


def without_value():
    """A slot of any class becomes a call that fails; a load of 64 bits is two such calls."""
    full = lambda code: slot(code, 0x21, 5, 6)
    codes = [0x61, 0x62, 0x63, 0x04, 0x05, 0x06, 0xB7, CALL_CODE, 0x20]
    every = sizes_in([full(code) for code in codes])
    return [
        row("slots of each class without a value", every, [], types_relocated(*[POISON] * len(codes))),
        row("a wide load without a value", size_in([*WIDE, EXIT]), [], types_relocated(POISON, POISON, EXIT)),
        # The slot behind it is no second slot by its code, but by its place.
        row("a wide load without a value before a call", size_in([WIDE[0], CALL]), [], types_relocated(POISON, POISON)),
        row("a wide load without a value and a second slot", size_in([WIDE[0]]), [], refused(no_slot(1, 1), WIDE[0])),
        # Other slots of the same class are one slot.
        row("another load without a value", size_in([slot(0x20, 1), EXIT]), [], types_relocated(POISON, EXIT)),
    ]


def immediates():
    """Arithmetic of 32 and of 64 bits, without a source register: the low 32 bits."""
    kernel = sized(2**32 - 2)
    codes = [0x04, 0x07, 0xB4, 0xB7, 0xBF]
    every = sizes_in([slot(code, 3, 5, 6) for code in codes])
    move, add = slot(0xB7, 0x11), slot(0x0C, 0x10, imm=7)
    return [
        row("immediates of arithmetic", every, kernel, types_relocated(*(slot(code, 3, 5, -2) for code in codes))),
        row("a move from a register", size_in([move], OFFSET), kernel, refused(bad_slot(), move)),
        row("a sum with a register", size_in([add]), kernel, refused(bad_slot(), add)),
        # What fails may have one.
        row("a move from a register without a value", size_in([move]), [], types_relocated(POISON)),
    ]


def offsets():
    """Loads and stores: the offset, to 32,767."""
    codes = [0x61, 0x62, 0x63, 0x71, 0xC3]
    at = lambda offset: [slot(code, 0x12, offset, 6) for code in codes]
    past = [
        beside(
            f"offsets past the greatest in a slot of class {each[0] % 8}",
            size_in([each]),
            [(f"of_{size}", sized(size), refused(bad_slot(), each)) for size in (32768, 65536, 2**32 - 1)],
        )
        for each in at(5)[:3]
    ]
    return [row("offsets of loads and stores", sizes_in(at(5)), sized(32767), types_relocated(*at(32767))), *past]


def other_sizes():
    """A load or store of a field of another size, where both are pointers or ints without a sign."""
    unsigned = lambda size: ty("", INT, size, 8 * size)
    local = [UNSIGNED_4, struct_of("s", 8, ("a", 1, 32))]
    kernel = lambda of: [of, struct_of("s", 32, ("x", 1, 0), ("a", 1, 64))]
    codes = [0x61, 0x62, 0x63, 0x71, 0xC3]
    slots = [slot(code, 0x12, 0, 7) for code in codes]
    every = object_of(local, [(8 * at, OFFSET, 2, "0:0") for at in range(len(codes))], slots)
    # Each code with its two bits of the size set.
    coded = lambda *found: types_relocated(*(slot(code, 0x12, 8, 7) for code in found))
    signed_local = [INT_4, struct_of("s", 4, ("a", 1, 0))]
    struct_local = [struct_of("", 4), struct_of("s", 4, ("a", 1, 0))]
    of_typedef = [unsigned(8), typedef("u64", 1), struct_of("s", 16, ("a", 2, 64))]
    load = slot(0x61, 0x12)
    gone = refused(bad_slot(), load)
    return [
        beside(
            "loads and stores of other sizes",
            every,
            [
                ("one", kernel(unsigned(1)), coded(0x71, 0x72, 0x73, 0x71, 0xD3)),
                ("two", kernel(unsigned(2)), coded(0x69, 0x6A, 0x6B, 0x69, 0xCB)),
                # A field of the same size leaves the code as it is, also where it is of another one.
                ("four", kernel(unsigned(4)), coded(*codes)),
                ("eight", kernel(unsigned(8)), coded(0x79, 0x7A, 0x7B, 0x79, 0xDB)),
                ("three", kernel(unsigned(3)), refused(bad_slot(), *slots)),
                ("sixteen", kernel(unsigned(16)), refused(bad_slot(), *slots)),
                ("none", kernel(unsigned(0)), refused(bad_slot(), *slots)),
                ("signed", kernel(ty("", INT, 8, 0x01000040)), refused(bad_slot(), *slots)),
                ("signed_four", kernel(INT_4), coded(*codes)),
                # A character or a truth value has no sign.
                ("bool", kernel(ty("", INT, 1, 0x04000008)), coded(0x71, 0x72, 0x73, 0x71, 0xD3)),
            ],
        ),
        beside(
            "loads of fields with a sign",
            one_of(signed_local, OFFSET, 2, "0:0", load),
            [
                ("same", kernel(INT_4), types_relocated(slot(0x61, 0x12, 8))),
                ("larger", kernel(ty("", INT, 8, 0x01000040)), gone),
                ("unsigned", kernel(unsigned(8)), gone),
                ("unsigned_four", kernel(UNSIGNED_4), types_relocated(slot(0x61, 0x12, 8))),
            ],
        ),
        beside(
            "loads of structs",
            one_of(struct_local, OFFSET, 2, "0:0", load),
            [
                ("same", kernel(ty("", STRUCT, 4)), types_relocated(slot(0x61, 0x12, 8))),
                ("larger", kernel(ty("", STRUCT, 8)), gone),
            ],
        ),
        # The types are resolved.
        row(
            "a load of a typedef",
            one_of([UNSIGNED_4, typedef("u32", 1), struct_of("s", 4, ("a", 2, 0))], OFFSET, 3, "0:0", load),
            of_typedef,
            types_relocated(slot(0x79, 0x12, 8)),
        ),
        row(
            "a load of a pointer",
            one_of([pointer(0), struct_of("s", 8, ("a", 1, 0))], OFFSET, 2, "0:0", slot(0x79, 0x12)),
            kernel(pointer(1)),
            types_relocated(slot(0x79, 0x12, 8)),
        ),
        # Structs of 8 and of 8, and of 12 bytes.
        beside(
            "a load of a whole struct",
            one_of(STRUCT_S, OFFSET, 1, "2", load),
            [("same", sized(8), types_relocated(slot(0x61, 0x12, 16))), ("larger", sized(12), gone)],
        ),
        # Where the offset isn't asked, sizes don't matter.
        row(
            "what is no offset of a field in loads",
            object_of(local, [(0, SIZE, 2, "0:0"), (8, EXISTS, 2, "0:0")], [load, load]),
            kernel(unsigned(3)),
            types_relocated(slot(0x61, 0x12, 3), slot(0x61, 0x12, 1)),
        ),
    ]


def bit_fields():
    """A bit field has no size and no type here."""
    plain = [UNSIGNED_4, struct_of("s", 8, ("f", 1, 32))]
    field = [UNSIGNED_4, bit_struct("s", 8, ("f", 1, 37, 5))]
    wide = [UNSIGNED_4, bit_struct("s", 16, ("f", 1, 94, 4))]
    load = slot(0x61, 0x12)
    gone = refused(bad_slot(), load)
    return [
        row("a load of a bit field that was none", one_of(plain, OFFSET, 2, "0:0", load), field, gone),
        row("a load of a field that was a bit field", one_of(field, OFFSET, 2, "0:0", load), plain, gone),
        # The container has eight bytes there, and the code stays.
        row("a load of a bit field", one_of(field, OFFSET, 2, "0:0", load), wide, types_relocated(slot(0x61, 0x12, 8))),
        row("the offset of a bit field that was none", one_of(plain, OFFSET, 2, "0:0"), field, numbers(4)),
    ]


def wide_loads():
    """The low half and, in the slot behind, the high half."""
    local = [enum64_of("e", ("A", 0))]
    kernel = [enum64_of("e", ("A", 0x700000009))]
    value = lambda slots: object_of(local, [(0, VARIANT_VALUE, 1, "0")], slots)
    behind, high = slot(0xB7, 0x12, 3, 4), slot(0xB7, 0x12, 3, 7)
    return [
        # All else of both slots stays.
        row("a wide load", value([slot(0x18, 0x31, 1, 2), behind]), kernel, types_relocated(slot(0x18, 0x31, 1, 9), high)),
        row("another load", value([slot(0x20, 1), behind]), kernel, types_relocated(slot(0x20, 1, imm=9), high)),
        row("another load at the end", value([slot(0x20, 1)]), kernel, refused(no_slot(1, 1), slot(0x20, 1))),
        row("a slot of zeros", value([NOTHING, NOTHING]), kernel, types_relocated(slot(0, imm=9), slot(0, imm=7))),
        # The number is that of the slot that lacks, and of the relocation.
        row(
            "a wide load at the end",
            object_of(local, [(0, VARIANT_VALUE, 1, "0"), (16, VARIANT_VALUE, 1, "0")], [*WIDE, WIDE[0]]),
            kernel,
            refused(no_slot(3, 3, number=1), *WIDE, WIDE[0]),
        ),
    ]


def jumps():
    """Jumps of both classes carry nothing."""
    asked = [(8, TYPE_EXISTS, 1, "0"), (16, TYPE_SIZE, 1, "0")]
    slots = lambda code: [EXIT, MOVE, slot(code)]
    return [
        row(
            f"a jump of code {code}",
            object_of(STRUCT_S, asked, slots(code)),
            STRUCT_S,
            refused(bad_slot(2, 1), *slots(code)),
        )
        for code in (0x05, CALL_CODE, 0x06, 0x16)
    ]


def cases():
    return without_value() + immediates() + offsets() + other_sizes() + bit_fields() + wide_loads() + jumps()

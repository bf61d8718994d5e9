"""The two sides of relocations by types (CO-RE): an object whose instructions have some, and a kernel's types."""
from rows.btf import ENUM, ENUM64, INT, STRUCT, Strings, btf, ext, struct_of, ty, type_words, with_strings
from rows.case import Case
from rows.elf import CALL_CODE, FUNCTION, NOTHING, File, slot

# What a relocation asks of a field, of a type, of a variant.
OFFSET, SIZE, EXISTS, SIGNED, LEFT_SHIFT, RIGHT_SHIFT = range(6)
LOCAL_ID, TARGET_ID, TYPE_EXISTS, TYPE_SIZE, VARIANT_EXISTS, VARIANT_VALUE = range(6, 12)
TYPE_MATCHES = 12

# What is asked of a field that has to have a size.
QUESTIONS = [
    ("offset", OFFSET),
    ("size", SIZE),
    ("sign", SIGNED),
    ("left shift", LEFT_SHIFT),
    ("right shift", RIGHT_SHIFT),
]

# A load of four bytes by an offset, a move of an immediate, and a load of 64 bits with its second slot.
LOAD = slot(0x61, 0x12)
MOVE = slot(0xB7, 1)
WIDE = [slot(0x18, 1), NOTHING]

# A call of a function that no kernel has: it fails where it is reached.
POISON = slot(CALL_CODE, imm=195896080)

# An `int`, and an `unsigned int`, both without a name.
INT_4 = ty("", INT, 4, 0x01000020)
UNSIGNED_4 = ty("", INT, 4, 32)

# `struct s { int a; int b; }`, type 2, behind an int.
S = [INT_4, struct_of("s", 8, ("a", 1, 0), ("b", 1, 32))]


def bit_struct(name, size, *members):
    """A STRUCT of bit fields, whose members have a name, a type, a bit offset and a number of bits, where 0 is no bit
    field."""
    rest = [word for held, of, at, bits in members for word in (held, of, at | bits << 24)]
    return ty(name, STRUCT, size, *rest, entries=len(members), flag=1)


def enum_of(name, *variants, signed=0):
    """An ENUM, whose variants have a name and a value of 32 bits."""
    rest = [word for of in variants for word in of]
    return ty(name, ENUM, 4, *rest, entries=len(variants), flag=signed)


def enum64_of(name, *variants, signed=0):
    """An ENUM64, whose variants have a name and a value of 64 bits."""
    rest = [word for held, value in variants for word in (held, value % 2**32, value >> 32)]
    return ty(name, ENUM64, 8, *rest, entries=len(variants), flag=signed)


def type_parts(types, *sections):
    """`.BTF` with types, and `.BTF.ext` with relocations by these, section by section: the section's name, and for
    each relocation its place in bytes, what it asks, a type and an access string. A number in place of a text is its
    offset."""
    strings = Strings()
    numbers = type_words(types, strings)
    words = [16]
    for name, relocations in sections:
        words += [strings.offset(name), len(relocations)]
        for at, asked, held, access in relocations:
            words += [at, held, strings.offset(access), asked]
    return with_strings(numbers, strings.data), ext(relocations=words)


def object_of(types, relocations, slots):
    """The program `p` of these slots in the section `kprobe/p`, and relocations of it."""
    code = b"".join(slots)
    held, said = type_parts(types, ("kprobe/p", relocations))
    file = File().code("kprobe/p", code).data(".BTF", held).data(".BTF.ext", said)
    return file.symbol("p", FUNCTION, 3, 0, len(code)).bytes()


def one_of(types, asked, held, access, *slots):
    """An object with one relocation, of its first slot, which is a move where none is said."""
    return object_of(types, [(0, asked, held, access)], slots or [MOVE])


def moved(number):
    """The move of a number's 32 low bits; where there is none, the slot that fails."""
    if number is None:
        return POISON
    return slot(0xB7, 1, imm=(number + 2**31) % 2**32 - 2**31)


def shown(slots):
    return ", ".join(each.hex(" ") for each in slots)


def types_relocated(*slots):
    """What the slots are then."""
    return f"Ok {shown(slots)}"


def numbers(*found):
    """Moves of these numbers."""
    return types_relocated(*(moved(number) for number in found))


def refused(fault, *slots, section="kprobe/p"):
    """A refusal, after which the slots are as they were: a move, where none are said."""
    return f"{section}: {fault} {shown(slots or [MOVE])}"


def beside(name, data, kernels):
    """A case of an object beside kernels, of which each has a name, types, or the bytes of types, and what the object
    comes to."""
    files = {kernel: types if isinstance(types, bytes) else btf(*types) for kernel, types, _ in kernels}
    return Case(name, {"object": data} | files, {f"types_relocated {kernel}": gives for kernel, _, gives in kernels})


def row(name, data, types, gives):
    """A case of an object beside one kernel."""
    return beside(name, data, [("kernel", types, gives)])


def learned(name, types, kernel, *answers):
    """A case of moves that learn something of one kernel: for each what is asked, a type, an access string, and the
    number."""
    relocations = [(8 * at, *answer[:3]) for at, answer in enumerate(answers)]
    data = object_of(types, relocations, [MOVE] * len(answers))
    return row(name, data, kernel, numbers(*(answer[3] for answer in answers)))


# Faults, but for the texts that are for people to read.


def text(words):
    return f'"{words}"'


def bad_string(access):
    return f"InvalidAccessString {{ access_str: {text(access)} }}"


def bad_index(access, index, count):
    return f"InvalidAccessIndex {{ spec: {text(access)}, index: {index}, len: {count} }}"


def bad_kind(number=0):
    return f"InvalidRelocationKindForType {{ relocation_number: {number} }}"


def bad_slot(index=0, number=0):
    return f"InvalidInstruction {{ relocation_number: {number}, index: {index} }}"


def no_slot(index, count, number=0):
    return f"InvalidInstructionIndex {{ index: {index}, num_instructions: {count}, relocation_number: {number} }}"


def too_nested(name):
    return f"MaximumNestingLevelReached {{ type_name: {text(name)} }}"


def conflict(name, *others):
    held = ", ".join(text(other) for other in others)
    return f"ConflictingCandidates {{ type_name: {text(name)}, candidates: [{held}] }}"


def unreadable(offset):
    return f"BtfError(InvalidStringOffset {{ offset: {offset} }})"


def unknown(held):
    return f"BtfError(UnknownBtfType {{ type_id: {held} }})"


def unexpected(held):
    return f"BtfError(UnexpectedBtfType {{ type_id: {held} }})"


def too_deep(held):
    return f"BtfError(MaximumTypeDepth {{ type_id: {held} }})"


BAD_TYPE = "BtfError(InvalidTypeInfo)"

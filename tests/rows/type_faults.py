"""Faults of type information, and of what it says of instructions."""
from rows.btf import words
from rows.case import Case
from rows.elf import File

# Type information without types, with four zero bytes of strings.
TYPES = [0x1EB9F, 24, 0, 0, 0, 4, 0]


def of_words(types, said):
    """Sections `.BTF` and `.BTF.ext` of these words."""
    return File().data(".BTF", words(types)).data(".BTF.ext", words(said)).bytes()


TYPE_FAULTS = [
    ("another magic number", [0x1EB9E, 24, 0, 0, 0, 0], "BtfError(InvalidHeader)"),
    ("a short header", [0x1EB9F, 20, 0, 0, 0, 0], "BtfError(InvalidHeader)"),
    ("strings past the end", [0x1EB9F, 24, 0, 0, 0, 4], "BtfError(InvalidHeader)"),
    ("a type of no kind", [0x1EB9F, 24, 0, 12, 12, 4, 0, 0, 0, 0], "BtfError(InvalidTypeInfo)"),
    ("half of a number", [0x1EB9F, 24, 0, 12, 12, 4, 0, 0x1000000, 4, 0], "BtfError(InvalidTypeInfo)"),
]

SAID = [
    ("a cut header", [0x1EB9F, 24, 0, 0, 0], "BtfError(InvalidHeader)"),
    ("functions in three bytes", [0x1EB9F, 24, 0, 3, 0, 0, 0], "BtfError(InvalidInfo)"),
    ("functions past the end", [0x1EB9F, 24, 0, 4, 0, 0], "BtfError(InvalidInfo)"),
    ("records of four bytes", [0x1EB9F, 24, 0, 16, 0, 0, 4, 0, 1, 0], "BtfError(InvalidInfo)"),
    (
        "records of an unreadable section",
        [0x1EB9F, 24, 0, 12, 0, 0, 8, 9, 0],
        "BtfError(InvalidStringOffset { offset: 9 })",
    ),
    ("lines of twelve bytes", [0x1EB9F, 24, 0, 0, 0, 24, 12, 0, 1, 0, 0, 0], "BtfError(InvalidInfo)"),
    (
        "a relocation of no kind",
        [0x1EB9F, 32, 0, 0, 0, 0, 0, 28, 16, 9, 1, 0, 0, 0, 12],
        "BtfError(InvalidRelocationKind { kind: 12 })",
    ),
    ("a relocation of the last kind", [0x1EB9F, 32, 0, 0, 0, 0, 0, 28, 16, 9, 1, 0, 0, 0, 11], ""),
]


def cases():
    rows = [(name, of_words(types, []), expected) for name, types, expected in TYPE_FAULTS]
    rows += [(name, of_words(TYPES, said), expected) for name, said, expected in SAID]
    return [Case(name, data, {"parsed programs": expected}) for name, data, expected in rows]

"""`.BTF.ext` that can't be read."""
from rows.btf import ext, words
from rows.btf_ext import NAMES
from rows.case import Case

MOST = 2**32 - 1

STRING = "InvalidStringOffset { offset: 9 }"

# The words of parts on functions and lines and of one with relocations, and what is said of them.
PARTS = [
    ("no part", [], [], [], "read"),
    ("parts without sections", [8], [16], [16], "read"),
    # the head of a section cut
    ("a cut head of functions", [8, 1], [], [], "InvalidInfo"),
    ("a cut head of lines", [], [16, 1], [], "InvalidInfo"),
    ("a cut head of relocations", [], [], [16, 1], "InvalidInfo"),
    # a record cut
    ("a cut function", [8, 1, 1, 0], [], [], "InvalidInfo"),
    ("a cut line", [], [16, 1, 1, 0, 0, 0], [], "InvalidInfo"),
    ("a cut relocation", [], [], [16, 1, 1, 0, 0, 0], "InvalidInfo"),
    # many records
    ("many functions", [8, 1, MOST, 0, 0], [], [], "InvalidInfo"),
    ("many large lines", [], [MOST, 1, MOST, 0, 0], [], "InvalidInfo"),
    ("two relocations and one there", [], [], [16, 1, 2, 0, 0, 0, 0], "InvalidInfo"),
    # of no record
    ("short records, and none there", [4, 1, 0], [8, 1, 0], [8, 1, 0], "read"),
    ("records of no byte, and none there", [0, 1, 0], [0, 1, 0], [0, 1, 0], "read"),
    ("a function of seven bytes", [7, 1, 1, 0, 0], [], [], "InvalidInfo"),
    ("a function of no byte", [0, 1, 1, 0, 0], [], [], "InvalidInfo"),
    ("a line of fifteen bytes", [], [15, 1, 1, 0, 0, 0, 0], [], "InvalidInfo"),
    ("a relocation of fifteen bytes", [], [], [15, 1, 1, 0, 0, 0, 0], "InvalidInfo"),
    ("the shortest records", [8, 1, 1, 0, 0], [16, 1, 1, 0, 0, 0, 0], [16, 1, 1, 0, 0, 0, 0], "read"),
    # a size that is no number of words
    ("functions of nine bytes, and none there", [9, 1, 0], [], [], "read"),
    # a section's name before the next section, and after its own records
    ("an unreadable name of functions", [8, 9, 0, 1], [], [], STRING),
    ("an unreadable name and a cut function", [8, 9, 1, 0], [], [], "InvalidInfo"),
    ("an unreadable name of lines", [], [16, 9, 0, 1], [], STRING),
    ("an unreadable name and a cut line", [], [16, 9, 1, 0], [], "InvalidInfo"),
    # part by part
    ("functions before lines and relocations", [8, 9, 0], [16, 1], [16, 1], STRING),
    ("lines before relocations", [], [16, 9, 0], [16, 1, 1, 0, 0, 0, 12], STRING),
    # no names of relocations are read
    ("an unreadable name of relocations", [], [], [16, 9, 1, 0, 0, 0, 0], "read"),
    # the first kind that is none, and before the next section
    (
        "two relocations of no kind",
        [],
        [],
        [16, 1, 2, 0, 0, 0, 12, 0, 0, 0, 13],
        "InvalidRelocationKind { kind: 12 }",
    ),
    (
        "a relocation of no kind and a cut head",
        [],
        [],
        [16, 1, 1, 0, 0, 0, 14, 1],
        "InvalidRelocationKind { kind: 14 }",
    ),
]

# The words of a file.
HEADERS = [
    # a header of 24 bytes has no relocations, and one of 31 neither
    ("a header of 24 bytes", [0xEB9F, 24, 0, 0, 0, 0], "read"),
    ("a header of 31 bytes", [0xEB9F, 31, 0, 0, 0, 0, 0, 0xFF], "read"),
    ("a header of 32 bytes", [0xEB9F, 32, 0, 0, 0, 0, 0, 0xFF], "InvalidInfo"),
    ("a header of 23 bytes", [0xEB9F, 23, 0, 0, 0, 0], "InvalidHeader"),
    ("a header past the end", [0xEB9F, 25, 0, 0, 0, 0], "InvalidHeader"),
    ("the longest header", [0xEB9F, MOST, 0, 0, 0, 0], "InvalidHeader"),
    ("another magic number", [0xEB9E, 24, 0, 0, 0, 0], "InvalidHeader"),
    # a part of no bytes anywhere, of three bytes, and past the end
    ("empty parts anywhere", [0xEB9F, 24, MOST, 0, MOST, 0], "read"),
    ("functions in three bytes", [0xEB9F, 24, 0, 3, 0, 0, 0], "InvalidInfo"),
    ("functions past the end", [0xEB9F, 24, 1, 4, 0, 0, 0], "InvalidInfo"),
    ("lines past the end", [0xEB9F, 24, 0, 0, MOST, MOST, 0], "InvalidInfo"),
]


def cases():
    files = [
        (name, ext(funcs=funcs, lines=lines, relocations=relocations), expected)
        for name, funcs, lines, relocations, expected in PARTS
    ]
    files += [(name, words(header), expected) for name, header, expected in HEADERS]
    cut = {
        "ext_prefixes 0 32": "32: InvalidHeader",
        "ext_prefixes 32 44": "12: InvalidInfo",
        "ext_prefixes 44 45": "1: read",
    }
    return [Case(name, {"types": NAMES, "ext": data}, {"ext": expected}) for name, data, expected in files] + [
        Case("a part on functions, cut", {"types": NAMES, "ext": ext(funcs=[8, 1, 0])}, cut)
    ]

"""Which fields and which types fit: each two kinds, names, faults and their order, and the limits."""
from rows.btf import ARRAY, CONST, DATASEC, DECL_TAG, ENUM, ENUM64, FLOAT, FUNC, FUNC_PROTO, FWD, INT, PTR, RESTRICT
from rows.btf import STRUCT, TYPEDEF, TYPE_TAG, UNION, VAR, VOLATILE
from rows.btf import array, btf, integer, pointer, prototype, ty
from rows.case import Case

NUMBER = integer("", 4)

# A type of each kind, in order of their ids: numbers at bit 0 and at bit 3, and then as they are named. Names are at 1
# or none.
LOCAL = [
    ty(0, INT, 4, 0x01000020),
    ty(0, INT, 4, 0x00030010),
    ty(0, PTR, 1),
    ty(0, ARRAY, 0, 1, 1, 5),
    ty(1, STRUCT, 8),
    ty(1, UNION, 8),
    ty(1, ENUM, 4),
    ty(1, ENUM64, 8),
    ty(1, FWD, 0),
    ty(1, FLOAT, 8),
    ty(0, FUNC_PROTO, 1, 0, 3, entries=1),
    ty(1, FUNC, 11),
    ty(1, VAR, 1, 1),
    ty(1, DATASEC, 4),
    ty(1, DECL_TAG, 5, 0),
    ty(1, TYPEDEF, 1),
    ty(0, CONST, 1),
    ty(0, VOLATILE, 1),
    ty(0, RESTRICT, 3),
    ty(1, TYPE_TAG, 1),
]

# The same of other sizes, other names, flags and sides of an ARRAY.
TARGET = [
    ty(0, INT, 8, 0x00000040),
    ty(0, INT, 8, 0x00030010),
    ty(0, PTR, 1),
    ty(0, ARRAY, 0, 1, 2, 9),
    ty(0, STRUCT, 16, flag=1),
    ty(0, UNION, 16, flag=1),
    ty(1, ENUM, 8, flag=1),
    ty(1, ENUM64, 4, flag=1),
    ty(1, FWD, 0, flag=1),
    ty(0, FLOAT, 4),
    ty(0, FUNC_PROTO, 1, 1, 3, entries=1),
    ty(0, FUNC, 11),
    ty(0, VAR, 1, 0),
    ty(0, DATASEC, 8),
    ty(0, DECL_TAG, 5, 1),
    ty(0, TYPEDEF, 1),
    ty(0, CONST, 1),
    ty(0, VOLATILE, 1),
    ty(0, RESTRICT, 3),
    ty(0, TYPE_TAG, 1),
]

# Fields of the types of one number fit; types of number 0 fit nothing. Types by their ids, void first.
FIELDS = [0, 1, 0, 2, 3, 4, 4, 5, 6, 7, 8, 0, 0, 0, 0, 0, 1, 1, 1, 2, 1]

# The same of types, where a VOLATILE is no CONST.
TYPES = [1, 2, 0, 3, 4, 5, 6, 7, 8, 9, 10, 11, 0, 0, 0, 0, 12, 13, 14, 15, 16]


def by_number(question, numbers):
    """What is said of each two types that have these numbers."""
    gives = {}
    for one, number in enumerate(numbers):
        fits = " ".join("true" if number != 0 and number == other else "false" for other in numbers)
        gives[f"{question} {one}"] = f"with each: {fits}"
    return gives


def pairs(question, rows):
    return {f"{question} {one} {other}": expected for one, other, expected in rows}


def unknown(number):
    return f"UnknownBtfType {{ type_id: {number} }}"


def depth(number):
    return f"MaximumTypeDepth {{ type_id: {number} }}"


def kinds():
    names = b"\0a\0"
    files = {"types": btf(*LOCAL, strings=names), "target": btf(*TARGET, strings=names)}
    return [Case("each two kinds", files, by_number("all_fields", FIELDS) | by_number("all_types", TYPES))]


def forwards(*names):
    """A FWD of each name, from id 1 on."""
    return btf(*(ty(name, FWD, 0) for name in names))


# The names behind three underscores play no part.
NAMES = ["foo", "foo___v2", "foo__v2", "bar", "", "___v2", "foo____v2", "fo"]

FIT_FOO = ["true", "true", "false", "false", "true", "true", "true", "false"]


def names():
    some, foo = forwards(*NAMES), forwards("foo", "foo___old___er")
    fits = [(number, 1, expected) for number, expected in enumerate(FIT_FOO, 1)]
    turned = [(2, number, expected) for number, expected in enumerate(FIT_FOO, 1)]
    # of types no name counts
    types = [(3, 1, "true"), (4, 1, "true"), (8, 2, "true")]
    # U+FFFD stands for either byte
    no_utf8 = btf(ty(1, FWD, 0), ty(4, FWD, 0), strings=b"\0b\xff\0b\xfe\0")
    return [
        Case("names and foo", {"types": some, "target": foo}, pairs("fields", fits) | pairs("types", types)),
        Case("foo and names", {"types": foo, "target": some}, pairs("fields", turned)),
        Case("names that are no UTF-8", {"types": no_utf8}, pairs("fields", [(1, 2, "true")])),
    ]


def faults():
    """Those of the local side come first."""
    local = btf(ty(70, FWD, 0), pointer(40), strings=b"\0")
    target = btf(ty(80, FWD, 0), pointer(50), strings=b"\0")
    # no PTR is followed
    fields = [
        (1, 1, "InvalidStringOffset { offset: 70 }"),
        (8, 9, unknown(8)),
        (1, 9, unknown(9)),
        (2, 2, "true"),
    ]
    # no name is read
    types = [(8, 9, unknown(8)), (2, 9, unknown(9)), (2, 2, unknown(40)), (1, 1, "true")]
    gives = pairs("fields", fields) | pairs("types", types)
    return [Case("faults of both sides", {"types": local, "target": target}, gives)]


# A chain against itself: 32 steps and 33, also where another ends before.
LEVELS = [(33, 33, "true"), (34, 34, depth(34)), (40, 34, depth(40)), (33, 34, "false"), (34, 33, "false")]


def levels():
    """A number, and ARRAYs or PTRs 40 deep, each of the one before."""
    arrays = btf(NUMBER, *(array(below, 3, 1) for below in range(1, 41)))
    pointers = btf(NUMBER, *(pointer(below) for below in range(1, 41)))
    both = {"types": arrays, "target": pointers}
    return [
        Case("arrays of arrays", {"types": arrays}, pairs("fields", LEVELS) | pairs("types", LEVELS)),
        Case("pointers to pointers", {"types": pointers}, pairs("types", LEVELS)),
        Case("arrays and pointers", both, pairs("types", [(33, 33, "false")])),
    ]


def parameters():
    """FUNC_PROTOs from id 3 on: of INT and PTR, PTR and INT, and INT alone to INT; of INT and PTR to PTR; of INT and an
    unknown type, and of INT twice, to an unknown type. Those from 3 to 6 fit themselves alone; the second parameter is
    met before the result; the first difference ends it, so that what is unknown behind it is not met."""
    made = btf(
        NUMBER,
        pointer(1),
        prototype(1, 1, 2),
        prototype(1, 2, 1),
        prototype(1, 1),
        prototype(2, 1, 2),
        prototype(70, 1, 60),
        prototype(70, 1, 1),
    )
    same = [(number, number, "true") for number in range(3, 7)]
    other = [(3, 4, "false"), (4, 3, "false"), (3, 5, "false"), (5, 3, "false")]
    unknowns = [(7, 7, unknown(60)), (8, 8, unknown(70)), (4, 7, "false"), (3, 8, "false")]
    return [Case("parameters and results", {"types": made}, pairs("types", same + other + unknowns))]


def many_pairs(numbers):
    """FUNC_PROTOs of 1,024 pairs each, and one with 1,023 of them and so many numbers as parameters: of 1,047,554 pairs
    and one for each number."""
    return btf(NUMBER, prototype(0, *[1] * 1022), prototype(0, *[2] * 1023, *[1] * numbers))


def most_pairs():
    """The most pairs that one comparison takes. It lasts minutes in a run with checks."""
    return [Case("1,048,576 pairs", {"types": many_pairs(1022)}, pairs("types", [(3, 3, "true")]))]


def too_many_pairs():
    """One pair more. It lasts as long."""
    return [Case("1,048,577 pairs", {"types": many_pairs(1023)}, pairs("types", [(3, 3, depth(3))]))]


def cases():
    return kinds() + names() + faults() + levels() + parameters()

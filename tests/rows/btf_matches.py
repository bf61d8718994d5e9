"""Which types match: kinds, sizes and signs, names, parts, forward declarations, faults, and the limits.

What is expected is what libbpf's `__bpf_core_types_match` (src/relo_core.c) answers."""
from rows.btf import CONST, ENUM, ENUM64, FLOAT, FWD, INT, TYPEDEF, UNION, VOLATILE
from rows.btf import array, btf, pointer, prototype, struct_of, ty, typedef
from rows.btf_fits import NUMBER, depth, pairs, unknown
from rows.case import Case
from rows.core_sides import enum64_of, enum_of


def union_of(name, size, *members):
    """A UNION, whose members have a name, a type and a bit offset."""
    return ty(name, UNION, size, *(word for member in members for word in member), entries=len(members))


def answers(*rows):
    return pairs("match", rows)


def numbers():
    """INTs by size and sign, whatever else they say; a FLOAT matches nothing; void matches void."""
    made = btf(
        ty("", INT, 4, 0x01000020),
        ty("", INT, 4, 0x00000020),
        ty("", INT, 8, 0x01000040),
        ty("", INT, 4, 0x03000010),
        ty("", INT, 4, 0x01010020),
        ty("", FLOAT, 4),
        ty("", CONST, 1),
        ty("i", INT, 4, 0x01000020),
    )
    rows = [(1, 1, "true"), (1, 2, "false"), (2, 1, "false"), (1, 3, "false"), (1, 4, "true"), (1, 5, "true")]
    rows += [(6, 6, "false"), (7, 1, "true"), (1, 7, "true"), (0, 0, "true"), (0, 1, "false"), (1, 8, "false"), (8, 8, "true")]
    return [Case("numbers that match", {"types": made}, answers(*rows))]


def enumerations():
    """Each variant's name is among those of the other, flavors aside, whatever the values; sizes are the same."""
    local = btf(enum_of("e", ("A", 1), ("B", 2)), enum_of("e"), enum64_of("e", ("A", 1)))
    target = btf(
        enum_of("e", ("B", 7), ("C", 8), ("A___x", 9)),
        enum_of("e", ("A", 1)),
        enum_of("e", ("A", 1), ("C", 2)),
        enum64_of("e", ("B", 1), ("A", 2)),
        ty("e", ENUM, 8, "A", 1, "B", 2, entries=2),
        enum_of("f", ("A", 1), ("B", 2)),
        ty("e", ENUM64, 4, "A", 1, 0, "B", 2, 0, entries=2),
    )
    rows = [(1, 1, "true"), (1, 2, "false"), (1, 3, "false"), (1, 4, "false"), (1, 5, "false"), (1, 6, "false"), (1, 7, "true")]
    rows += [(2, 1, "true"), (2, 2, "true"), (3, 4, "true"), (3, 5, "true"), (3, 1, "false")]
    return [Case("enumerations that match", {"types": local, "target": target}, answers(*rows))]


INT_32 = ty("", INT, 4, 0x01000020)
UNSIGNED_32 = ty("", INT, 4, 0x00000020)


def members():
    """Each member has one of its name, anywhere, whose type matches; of several of a name one is enough."""
    local = btf(INT_32, struct_of("s", 8, ("a", 1, 0), ("b", 1, 32)), struct_of("s", 0), union_of("s", 4, ("a", 1, 0)))
    target = btf(
        INT_32,
        UNSIGNED_32,
        struct_of("s", 16, ("b", 1, 0), ("c", 1, 32), ("a___x", 1, 64)),
        struct_of("s", 8, ("a", 1, 0), ("b", 2, 32)),
        struct_of("s", 4, ("a", 1, 0)),
        struct_of("s", 8, ("a", 1, 0), ("c", 1, 32)),
        struct_of("s", 12, ("a", 2, 0), ("a", 1, 32), ("b", 1, 64)),
        union_of("s", 4, ("a", 1, 0), ("b", 1, 0)),
        struct_of("t", 8, ("a", 1, 0), ("b", 1, 32)),
        struct_of("s___flavor", 8, ("a", 1, 0), ("b", 1, 32)),
        ty("s", FWD, 0),
        typedef("s", 3),
    )
    rows = [(2, 3, "true"), (2, 4, "false"), (2, 5, "false"), (2, 6, "false"), (2, 7, "true"), (2, 8, "false"), (2, 9, "false")]
    rows += [(2, 10, "true"), (2, 11, "false"), (2, 12, "true"), (3, 5, "true"), (3, 8, "false"), (4, 8, "true"), (4, 5, "false")]
    return [Case("members that match", {"types": local, "target": target}, answers(*rows))]


def anonymous():
    """Members without a name are tried with each other one, and looked into; a named one is not looked for inside."""
    local = btf(
        INT_32,
        union_of("", 4, ("a", 1, 0)),
        struct_of("s", 4, ("", 2, 0)),
        struct_of("s", 4, ("a", 1, 0)),
    )
    target = btf(
        INT_32,
        union_of("", 4, ("b", 1, 0)),
        union_of("", 4, ("a", 1, 0)),
        struct_of("s", 8, ("", 2, 0), ("", 3, 32)),
        struct_of("s", 8, ("", 2, 0), ("b", 3, 32)),
    )
    rows = [(3, 4, "true"), (3, 5, "false"), (4, 4, "false")]
    return [Case("members without a name that match", {"types": local, "target": target}, answers(*rows))]


def behind_pointers():
    """Behind a pointer the members of a STRUCT play no part, and a forward declaration of its kind matches it."""
    local = btf(
        struct_of("s", 4, ("a", 0, 0)),
        ty("s", FWD, 0),
        ty("s", FWD, 0, flag=1),
        pointer(1),
        pointer(2),
        pointer(3),
        enum_of("e", ("A", 1)),
        pointer(7),
        array(1, 2),
        pointer(9),
    )
    target = btf(
        struct_of("s", 8),
        union_of("s", 8),
        ty("s", FWD, 0),
        ty("s", FWD, 0, flag=1),
        pointer(1),
        pointer(2),
        pointer(3),
        pointer(4),
        struct_of("t", 8),
        pointer(9),
        enum_of("e", ("B", 1)),
        pointer(11),
        array(1, 2),
        pointer(13),
    )
    rows = [(1, 1, "false"), (1, 3, "false"), (2, 1, "false"), (2, 3, "true"), (2, 4, "false"), (3, 4, "true"), (3, 2, "false")]
    rows += [(4, 5, "true"), (4, 6, "false"), (4, 7, "true"), (4, 8, "false"), (4, 10, "false")]
    rows += [(5, 5, "true"), (5, 6, "false"), (5, 7, "true"), (5, 8, "false")]
    rows += [(6, 5, "false"), (6, 6, "true"), (6, 7, "false"), (6, 8, "true")]
    # an enumeration is compared there too, and what lies behind stays behind
    rows += [(8, 12, "false"), (9, 13, "false"), (10, 14, "true")]
    return [Case("types behind pointers that match", {"types": local, "target": target}, answers(*rows))]


def arrays_and_prototypes():
    """ARRAYs of as many elements; FUNC_PROTOs of as many parameters, each and the result by its own."""
    made = btf(
        INT_32,
        UNSIGNED_32,
        array(1, 3),
        array(1, 0),
        array(2, 3),
        prototype(1, 1, 2),
        prototype(1, 1, 1),
        prototype(2, 1, 2),
        prototype(1, 1),
        pointer(6),
        pointer(8),
    )
    rows = [(3, 3, "true"), (3, 4, "false"), (4, 3, "false"), (3, 5, "false"), (4, 4, "true")]
    rows += [(6, 6, "true"), (6, 7, "false"), (6, 8, "false"), (6, 9, "false"), (9, 6, "false"), (10, 10, "true"), (10, 11, "false")]
    return [Case("arrays and prototypes that match", {"types": made}, answers(*rows))]


def faults():
    """At each pair types are read before names, and the local side first; what differs before ends the search."""
    local = btf(
        ty(70, FWD, 0),
        struct_of("s", 4, (60, 0, 0)),
        struct_of("s", 8, ("a", 40, 0), ("b", 41, 32)),
        struct_of("s", 4, ("c", 0, 0)),
    )
    target = btf(
        ty(80, FWD, 0),
        struct_of("s", 4, ("a", 50, 0)),
        struct_of("s", 8, ("a", 0, 0), ("b", 51, 32)),
        struct_of("s", 8, ("b", 50, 0), (90, 0, 0)),
    )
    rows = [(1, 1, "InvalidStringOffset { offset: 70 }"), (0, 1, "InvalidStringOffset { offset: 80 }"), (9, 9, unknown(9))]
    rows += [(2, 9, unknown(9)), (2, 2, "InvalidStringOffset { offset: 60 }"), (3, 2, "false"), (3, 3, unknown(40))]
    rows += [(4, 4, "InvalidStringOffset { offset: 90 }"), (4, 2, "false")]
    return [Case("faults of matches", {"types": local, "target": target}, answers(*rows))]


def nested(count, wrap):
    """A number, and so many types around it, each of the one before."""
    return btf(NUMBER, *(wrap(below) for below in range(1, count + 1)))


def levels():
    """32 levels of members; on a level 32 types by pointers or elements."""
    structs = nested(40, lambda below: struct_of("", 4, ("a", below, 0)))
    arrays = nested(40, lambda below: array(below, 1))
    pointers = nested(40, pointer)
    rows = [(32, 32, "true"), (33, 33, depth(33)), (40, 40, depth(40))]
    return [
        Case("structs in structs that match", {"types": structs}, answers(*rows)),
        Case("arrays of arrays that match", {"types": arrays}, answers(*rows)),
        Case("pointers to pointers that match", {"types": pointers}, answers(*rows)),
    ]


def itself():
    """A STRUCT that has itself as a member has too many levels; behind a pointer it has none."""
    made = btf(struct_of("s", 4, ("a", 1, 0)), struct_of("s", 8, ("a", 3, 0)), pointer(2))
    return [Case("a struct in itself", {"types": made}, answers((1, 1, depth(1)), (2, 2, "true")))]


def modifiers():
    """Modifiers are followed before names are compared, typedefs too."""
    made = btf(INT_32, ty("", CONST, 1), ty("", VOLATILE, 2), ty("t", TYPEDEF, 3), ty("u", TYPEDEF, 1), ty("t", TYPEDEF, 7), UNSIGNED_32)
    return [Case("modifiers of types that match", {"types": made}, answers((4, 1, "true"), (1, 4, "true"), (4, 5, "true"), (4, 6, "false")))]


def cases():
    return (
        numbers()
        + enumerations()
        + members()
        + anonymous()
        + behind_pointers()
        + arrays_and_prototypes()
        + faults()
        + levels()
        + itself()
        + modifiers()
    )

"""A type of each kind, read in either byte order, and what each accessor gives of it."""
import struct

from rows.btf import BIG, LITTLE, Strings, ty, type_words, with_strings, words
from rows.btf import ARRAY, CONST, DATASEC, DECL_TAG, ENUM, ENUM64, FLOAT, FUNC, FUNC_PROTO, FWD, INT, PTR, RESTRICT
from rows.btf import STRUCT, TYPEDEF, TYPE_TAG, UNION, VAR, VOLATILE
from rows.case import Case

# Names stand at 1 (`int`) and 5 (`n`).
STRINGS = b"\0int\0n\0"

# A type of each kind, in order of their numbers. The second members of the rows are the type as it is read, what its
# accessors give, the id that it stands for, and its size.
KINDS = [
    (
        ty(1, INT, 4, 0x01000020),
        "Int { name_offset: 1, size: 4, int_data: 16777248 }",
        "Int named at 1, size Some(4), of None",
        "1",
        "4",
    ),
    (ty(0, PTR, 1), "Ptr { name_offset: 0, btf_type: 1 }", "Ptr named at 0, size None, of Some(1)", "2", "8"),
    (
        ty(0, ARRAY, 0, 1, 2, 5),
        "Array { name_offset: 0, element_type: 1, index_type: 2, len: 5 }",
        "Array named at 0, size None, of None",
        "3",
        "20",
    ),
    (
        ty(5, STRUCT, 8, 1, 1, 0x03000005, 0, 6, 32, entries=2, flag=1),
        "Struct { name_offset: 5, size: 8, kind_flag: true, members: [BtfMember { name_offset: 1,"
        " btf_type: 1, offset: 50331653 }, BtfMember { name_offset: 0, btf_type: 6, offset: 32 }] }",
        "Struct named at 5, size Some(8), of None, members 2, one at 5 of 3",
        "4",
        "8",
    ),
    (
        ty(5, UNION, 4, 5, 1, 0x03000005, entries=1),
        "Union { name_offset: 5, size: 4, kind_flag: false, members: [BtfMember { name_offset: 5,"
        " btf_type: 1, offset: 50331653 }], enum64_fallback: None }",
        "Union named at 5, size Some(4), of None, members 1, one at 50331653 of 0",
        "5",
        "4",
    ),
    (
        ty(5, ENUM, 4, 1, 0xFFFFFFFF, entries=1, flag=1),
        "Enum { name_offset: 5, size: 4, kind_flag: true, variants: [BtfEnum { name_offset: 1, value:"
        " 4294967295 }] }",
        "Enum named at 5, size Some(4), of None",
        "6",
        "4",
    ),
    (
        ty(5, FWD, 0, flag=1),
        "Fwd { name_offset: 5, kind_flag: true }",
        "Fwd named at 5, size None, of None",
        "7",
        "UnexpectedBtfType { type_id: 7 }",
    ),
    (
        ty(5, TYPEDEF, 1),
        "Typedef { name_offset: 5, btf_type: 1 }",
        "Typedef named at 5, size None, of Some(1)",
        "1",
        "4",
    ),
    (
        ty(0, VOLATILE, 8),
        "Volatile { name_offset: 0, btf_type: 8 }",
        "Volatile named at 0, size None, of Some(8)",
        "1",
        "4",
    ),
    (ty(0, CONST, 9), "Const { name_offset: 0, btf_type: 9 }", "Const named at 0, size None, of Some(9)", "1", "4"),
    (
        ty(0, RESTRICT, 2),
        "Restrict { name_offset: 0, btf_type: 2 }",
        "Restrict named at 0, size None, of Some(2)",
        "2",
        "8",
    ),
    (
        ty(5, FUNC, 13, entries=1),
        "Func { name_offset: 5, btf_type: 13 }",
        "Func named at 5, size None, of Some(13)",
        "12",
        "UnexpectedBtfType { type_id: 13 }",
    ),
    (
        ty(0, FUNC_PROTO, 1, 5, 2, entries=1),
        "FuncProto { name_offset: 0, btf_type: 1, params: [BtfParam { name_offset: 5, btf_type: 2 }] }",
        "FuncProto named at 0, size None, of Some(1)",
        "13",
        "UnexpectedBtfType { type_id: 13 }",
    ),
    (
        ty(5, VAR, 3, 1),
        "Var { name_offset: 5, btf_type: 3, linkage: 1 }",
        "Var named at 5, size None, of Some(3)",
        "14",
        "20",
    ),
    (
        ty(5, DATASEC, 4, 14, 2, 3, entries=1),
        "DataSec { name_offset: 5, size: 4, entries: [DataSecEntry { btf_type: 14, offset: 2, size: 3 }]"
        " }",
        "DataSec named at 5, size Some(4), of None",
        "15",
        "4",
    ),
    (ty(1, FLOAT, 16), "Float { name_offset: 1, size: 16 }", "Float named at 1, size Some(16), of None", "16", "16"),
    (
        ty(5, DECL_TAG, 8, 7),
        "DeclTag { name_offset: 5, btf_type: 8, component_index: 7 }",
        "DeclTag named at 5, size None, of Some(8)",
        "17",
        "UnexpectedBtfType { type_id: 17 }",
    ),
    (
        ty(5, TYPE_TAG, 7),
        "TypeTag { name_offset: 5, btf_type: 7 }",
        "TypeTag named at 5, size None, of Some(7)",
        "7",
        "UnexpectedBtfType { type_id: 7 }",
    ),
    (
        ty(5, ENUM64, 8, 1, 2, 3, entries=1),
        "Enum64 { name_offset: 5, size: 8, kind_flag: false, variants: [BtfEnum64 { name_offset: 1,"
        " value_low: 2, value_high: 3 }] }",
        "Enum64 named at 5, size Some(8), of None",
        "19",
        "8",
    ),
    # The number of entries of a PTR says nothing.
    (
        ty(0, PTR, 0, entries=3),
        "Ptr { name_offset: 0, btf_type: 0 }",
        "Ptr named at 0, size None, of Some(0)",
        "20",
        "8",
    ),
]

VOID = (None, "Unknown", "Unknown named at 0, size None, of None", "0", "UnexpectedBtfType { type_id: 0 }")

NO_MEMBERS = ", no members, one at 50331653 of 0"

TYPES = [row[0] for row in KINDS]


def with_gap(order):
    """The types, with a header of 32 bytes and four bytes between the parts; version and flags are 9."""
    start = struct.pack(f"{order}HBB", 0xEB9F, 9, 9) + words([32, 0, 340, 344, 7, 0, 0], order)
    return start + words(type_words(TYPES, Strings()), order) + b"gap!" + STRINGS


def answers():
    gives = {"count": "21"}
    for number, (_, whole, accessors, resolved, size) in enumerate([VOID] + KINDS):
        gives[f"type {number}"] = whole
        gives[f"accessors {number}"] = accessors if "members" in accessors else accessors + NO_MEMBERS
        gives[f"resolved {number}"] = resolved
        gives[f"size {number}"] = size
    return gives


NAMES = {
    "id Struct n": "4",
    "id Enum64 n": "19",
    "id Float int": "16",
    "id Ptr": "2",
    "name 15": "n",
    "error_name 16": "int",
    "id Int n": 'UnknownBtfTypeName { type_name: "n" }',
}


def cut(count):
    """So many words of the types."""
    return with_strings(type_words(TYPES, Strings())[:count], STRINGS)


def cases():
    # Where a type ends, and how many there are then, void too.
    ends, total = {0: "1"}, 0
    for number, of in enumerate(TYPES):
        total += len(of(Strings()))
        ends[total] = str(number + 2)
    cuts = [
        Case(f"{count} words of types", {"types": cut(count)}, {"count": ends.get(count, "InvalidTypeInfo")})
        for count in range(total + 1)
    ]
    return [
        Case("each kind", {"types": with_gap(LITTLE)}, answers() | NAMES),
        Case("each kind, big endian", {"big types": with_gap(BIG)}, answers() | NAMES),
    ] + cuts

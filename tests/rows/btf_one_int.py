"""The smallest type information with a type, whole, cut, and with one change."""
import struct
from collections import Counter

from rows.btf import ARRAY, DATASEC, DECL_TAG, ENUM, ENUM64, FUNC_PROTO, INT, STRUCT, UNION, VAR, btf, ty
from rows.case import Case
from rows.elf import changed

# An INT `int` of 4 bytes.
ONE_INT = btf(ty("int", INT, 4, 0x01000020))

# How many words a kind has behind the first three, and how many each of its entries has.
WORDS = {INT: 1, ARRAY: 3, VAR: 1, DECL_TAG: 1}
ENTRY_WORDS = {STRUCT: 3, UNION: 3, ENUM: 2, FUNC_PROTO: 2, DATASEC: 3, ENUM64: 3}


def count_types(data):
    """How many types little endian bytes have, void too, or why they can't be read: a reader of the format's
    description, for comparison."""
    if len(data) < 24 or data[:2] != b"\x9f\xeb":
        return "InvalidHeader"
    length, types_at, types, strings_at, strings = struct.unpack_from("<5I", data, 4)
    if length < 24 or length + max(types_at + types, strings_at + strings) > len(data):
        return "InvalidHeader"
    at, end, count = length + types_at, length + types_at + types, 1
    while at < end:
        if end - at < 12:
            return "InvalidTypeInfo"
        (info,) = struct.unpack_from("<I", data, at + 4)
        kind, entries = info >> 24 & 31, info & 0xFFFF
        if not 1 <= kind <= 19:
            return "InvalidTypeInfo"
        at += 4 * (3 + WORDS.get(kind, 0) + entries * ENTRY_WORDS.get(kind, 0))
        if at > end:
            return "InvalidTypeInfo"
        count += 1
    return str(count)


def each_value(data):
    """How many of the bytes with another one, at any place, give what, as the program counts them."""
    counts = Counter(
        count_types(changed(data, place, bytes([value]))) for place in range(len(data)) for value in range(256)
    )
    return "\n".join(f"{count}: {given}" for given, count in counts.items())


CHANGES = [
    # the magic; the version and the flags, which are not looked at
    (0, 0x9E, "InvalidHeader"),
    (1, 0xEA, "InvalidHeader"),
    (2, 9, "2"),
    (3, 9, "2"),
    # the header's length: of 23 bytes, and of so many that the strings go past the end
    (4, 0x17, "InvalidHeader"),
    (4, 0x19, "InvalidHeader"),
    # the types: from another place, without the last word, one byte more, none
    (8, 0x1E, "InvalidHeader"),
    (12, 0x0C, "InvalidTypeInfo"),
    (12, 0x11, "InvalidTypeInfo"),
    (12, 0, "1"),
    (12, 0x16, "InvalidHeader"),
    # the strings: one byte past the end, one byte less
    (16, 0x11, "InvalidHeader"),
    (20, 6, "InvalidHeader"),
    (20, 4, "2"),
    # the kinds 0 and 20
    (31, 0, "InvalidTypeInfo"),
    (31, 20, "InvalidTypeInfo"),
    # a PTR, and then 4 bytes of the next type
    (31, 2, "InvalidTypeInfo"),
]


def cases():
    whole = {
        "count": "2",
        "text 0": "",
        "text 1": "int",
        "text 3": "t",
        "text 4": "",
        "text 5": "InvalidStringOffset { offset: 5 }",
        "text 6": "InvalidStringOffset { offset: 6 }",
        "size 1": "4",
        "size 0": "UnexpectedBtfType { type_id: 0 }",
        "size 2": "UnknownBtfType { type_id: 2 }",
        "type 1": "Int { name_offset: 1, size: 4, int_data: 16777248 }",
        "type 2": "UnknownBtfType { type_id: 2 }",
        "resolved 1": "1",
        "resolved 2": "UnknownBtfType { type_id: 2 }",
        "name 0": "",
        "name 1": "int",
        "error_name 1": "int",
        "id Int int": "1",
        "id Unknown": "0",
        "id Int in": 'UnknownBtfTypeName { type_name: "in" }',
        "id Float int": 'UnknownBtfTypeName { type_name: "int" }',
        "prefixes 0 45": "45: InvalidHeader",
        "all_bytes 0 45": each_value(ONE_INT),
    }
    changes = [
        Case(f"a number, byte {at} is {new}", {"types": changed(ONE_INT, at, bytes([new]))}, {"count": expected})
        for at, new, expected in CHANGES
    ]
    turned = Case("a number in the other order", {"big types": ONE_INT}, {"count": "InvalidHeader"})
    return [Case("a number", {"types": ONE_INT}, whole), turned] + changes

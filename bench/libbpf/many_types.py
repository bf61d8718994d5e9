"""Type information of a kernel several times over, each time with ids of its own."""
import struct
import sys
from array import array

from libbpf.kernel_types import BEHIND

# Where a kind refers to types: whether in its third word, at which words behind the first three, and at which word of
# each of its entries.
THIRD = {2, 8, 9, 10, 11, 12, 13, 14, 17, 18}
AFTER = {3: (0, 1)}
EACH = {4: 1, 5: 1, 13: 1, 15: 0}


def references(words):
    """The numbers of the words that are ids of types, and how many types there are."""
    places, count, at = [], 0, 0
    while at < len(words):
        info = words[at + 1]
        kind, entries = info >> 24 & 31, info & 0xFFFF
        whole, each = (size // 4 for size in BEHIND.get(kind, (0, 0)))
        if kind in THIRD:
            places.append(at + 2)
        places += [at + 3 + word for word in AFTER.get(kind, ())]
        if kind in EACH:
            places += [at + 3 + EACH[kind] + each * entry for entry in range(entries)]
        at += 3 + whole + each * entries
        count += 1
    return places, count


def repeated(raw, times):
    """The types of `.BTF` so many times, and its strings once."""
    header, types_at, types_size, strings_at, strings_size = struct.unpack_from("<5I", raw, 4)
    words = array("I", raw[header + types_at : header + types_at + types_size])
    strings = raw[header + strings_at : header + strings_at + strings_size]
    if sys.byteorder == "big":
        words.byteswap()
    places, count = references(words)
    parts = []
    for number in range(times):
        more = array("I", words)
        for place in places:
            if more[place]:
                more[place] += number * count
        parts.append(more.tobytes())
    types = b"".join(parts)
    front = struct.pack("<HBB5I", 0xEB9F, 1, 0, 24, 0, len(types), len(types), len(strings))
    return front + types + strings

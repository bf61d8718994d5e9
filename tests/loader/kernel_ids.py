"""The ids of the running kernel's types, read here and not by the library."""
import struct
from pathlib import Path

VMLINUX = Path("/sys/kernel/btf/vmlinux")

TYPEDEF, FUNC = 8, 12

# How many words follow the first three: of the kind alone, or for each member, parameter or entry.
FURTHER = {1: 1, 2: 0, 3: 3, 7: 0, 8: 0, 9: 0, 10: 0, 11: 0, 12: 0, 14: 1, 16: 0, 17: 1, 18: 0}
FOR_EACH = {4: 3, 5: 3, 6: 2, 13: 2, 15: 3, 19: 3}


def first_ids(path=VMLINUX):
    """The first id of each name of a TYPEDEF or FUNC, by (kind, name)."""
    data, found = path.read_bytes(), {}
    header, types, length, strings = struct.unpack_from("<4I", data, 4)
    offset, end, strings = header + types, header + types + length, header + strings
    number = 0
    while offset < end:
        number += 1
        name, info = struct.unpack_from("<2I", data, offset)
        kind, count = info >> 24 & 31, info & 0xFFFF
        if kind in (TYPEDEF, FUNC):
            start = strings + name
            found.setdefault((kind, data[start:data.index(b"\0", start)].decode()), number)
        offset += 12 + 4 * (FURTHER[kind] if kind in FURTHER else FOR_EACH[kind] * count)
    return found

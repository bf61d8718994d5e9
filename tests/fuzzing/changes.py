"""Changes of files at random."""
import re
import struct

from fuzzing.chances import EDGES

# Names that mean something.
NAMES = [b".maps", b".maps.x", b"maps", b".ksyms", b".text", b".text.x", b"license", b"version", b".BTF", b".BTF.ext"]
NAMES += [b".bss", b".data", b".rodata", b".data.x", b"kprobe/x", b"xdp", b"sk_skb/stream_parser", b"uprobe.multi.s/x"]
NAMES += [b"values", b"max_entries", b"key", b"value", b"type", b"pinning", b"s", b"s___a", b"int", b"0:1", b"0:1:2"]
NAMES += [b"0", b"x", b"", b"\xff\xfe", b"___", b"ksym_func_placeholder", b"tc", b"?kprobe/f", b"struct_ops/x", b"s___x"]
NAMES += [b".kconfig", b"0:0:0:0", b"0:", b"1:18446744073709551616"]

# Slots: calls, wide loads, an end, moves and jumps.
SLOTS = ["85100000ffffffff", "8510000000000000", "8510000001000000", "1801000000000000", "9500000000000000"]
SLOTS += ["1841000000000000", "0000000000000000", "b701000000000000", "6112040000000000", "8500000070000000"]
SLOTS += ["5500010000000000", "0500fffe00000000", "8520000001000000", "1811000000000000"]


def number_of(chance, size, length):
    """A number of a field of so many bytes, in a file of a length."""
    kind = chance.randrange(4)
    if kind == 0:
        found = chance.choice(EDGES)
    elif kind == 1:
        found = chance.randrange(32)
    elif kind == 2:
        found = length + chance.randrange(-16, 17)
    else:
        found = chance.getrandbits(8 * size)
    return found % 2 ** (8 * size)


def put(data, at, new):
    """The bytes with others from a place on, as far as they go."""
    data[at : at + len(new)] = new[: max(0, len(data) - at)]


def bytes_changed(chance, data, _other):
    for _ in range(chance.choice([1, 1, 2, 8])):
        data[chance.randrange(len(data))] = chance.choice([0, 1, 0xFF, 0x80, chance.randrange(256)])


def number_changed(chance, data, _other):
    size = chance.choice([2, 4, 4, 8])
    at = chance.randrange(len(data)) // size * size
    put(data, at, number_of(chance, size, len(data)).to_bytes(size, "little"))


def near_changed(chance, data, _other):
    """Adds a little to a number."""
    size = chance.choice([1, 2, 4, 8])
    at = chance.randrange(len(data)) // size * size
    held = int.from_bytes(data[at : at + size], "little") + chance.choice([-8, -2, -1, 1, 2, 8, 16])
    put(data, at, (held % 2 ** (8 * size)).to_bytes(size, "little"))


def cut(chance, data, _other):
    del data[chance.randrange(len(data)) :]


def part_removed(chance, data, _other):
    at = chance.randrange(len(data))
    del data[at : at + chance.choice([1, 4, 8, 12, 16, 64])]


def part_again(chance, data, _other):
    """Writes a part of the file over another."""
    size = chance.choice([4, 8, 12, 16, 24, 64])
    place = chance.randrange(len(data))
    put(data, chance.randrange(len(data)), bytes(data[place : place + size]))


def part_of_other(chance, data, other):
    """Writes a part of another file over one."""
    size = chance.choice([8, 16, 64, 256])
    place = chance.randrange(len(other))
    put(data, chance.randrange(len(data)) // 8 * 8, other[place : place + size])


def name_changed(chance, data, _other):
    """Writes a name over a text of the file."""
    for _ in range(20):
        at = data.find(b"\0", chance.randrange(len(data))) + 1
        if 0 < at < len(data) and 32 < data[at] < 127:
            put(data, at, chance.choice(NAMES) + (b"\0" if chance.random() < 0.8 else b""))
            return


def table_of(data):
    """Where the section headers begin, and how many there may be; none where there is no table."""
    if len(data) < 64:
        return 0, 0
    at, count = struct.unpack_from("<Q", data, 40)[0], struct.unpack_from("<H", data, 60)[0]
    return (at, count) if 0 < at <= len(data) - 64 and 0 < count else (0, 0)


def header_of(chance, data):
    """The place of a section's header, or None."""
    at, count = table_of(data)
    if not count:
        return None
    place = at + 64 * chance.randrange(count)
    return place if place + 64 <= len(data) else None


# A section header's fields: places and sizes.
FIELDS = [(0, 4), (4, 4), (8, 8), (16, 8), (24, 8), (32, 8), (40, 4), (44, 4), (56, 8)]


def header_changed(chance, data, _other):
    place = header_of(chance, data)
    if place is None:
        return
    at, size = chance.choice(FIELDS)
    number = chance.choice([1, 2, 3, 4, 8, 9]) if at == 4 else number_of(chance, size, len(data))
    put(data, place + at, number.to_bytes(size, "little"))


def header_again(chance, data, _other):
    """A section gets a field, or all, of another section."""
    place, source = header_of(chance, data), header_of(chance, data)
    if place is None or source is None:
        return
    at, size = chance.choice([*FIELDS, (0, 64)])
    put(data, place + at, bytes(data[source + at : source + at + size]))


def range_of(chance, data):
    """Where a section's bytes lie, and how many there are; None where they don't lie in the file."""
    place = header_of(chance, data)
    if place is None:
        return None
    at, size = struct.unpack_from("<QQ", data, place + 24)
    return (at, size) if 0 < size and at + size <= len(data) else None


def section_changed(chance, data, _other):
    """A word of a section, which may be an id, an offset or a count."""
    found = range_of(chance, data)
    if found is None:
        return
    at = found[0] + chance.randrange(found[1]) // 4 * 4
    put(data, at, number_of(chance, 4, found[1]).to_bytes(4, "little"))


def slot_changed(chance, data, _other):
    found = range_of(chance, data)
    if found is not None:
        put(data, found[0] + chance.randrange(found[1]) // 8 * 8, bytes.fromhex(chance.choice(SLOTS)))


def section_cut(chance, data, _other):
    """A section that says another size than it has."""
    place = header_of(chance, data)
    if place is not None:
        size = struct.unpack_from("<Q", data, place + 32)[0]
        put(data, place + 32, struct.pack("<Q", chance.randrange(size + 1) if size < 2**32 else size))


def order_changed(_chance, data, _other):
    """The byte order that the file states."""
    put(data, 5, bytes([3 - data[5]] if len(data) > 5 and data[5] < 3 else [1]))


def types_at(chance, data):
    """Where `.BTF` or `.BTF.ext` begin, and the lengths that their headers state; None where there are none."""
    places = [found.start() for found in re.finditer(b"\x9f\xeb\x01\x00", data)]
    if not places:
        return None
    at = chance.choice(places)
    return (at, struct.unpack_from("<7I", data, at + 4)) if at + 32 <= len(data) else None


def word_near(chance, data, start, size, limits):
    """A word of a range comes near what it was, or near a limit."""
    at = start + chance.randrange(max(size // 4, 1)) * 4
    held = int.from_bytes(data[at : at + 4], "little")
    put(data, at, chance.near(held, limits, 4).to_bytes(4, "little"))


def types_changed(chance, data, _other):
    """A word of a type, or of a record on code: mostly of those by types, which are the last."""
    found = types_at(chance, data)
    if found is None:
        return
    at, (head, *numbers) = found
    if head == 24:
        word_near(chance, data, at + 24, numbers[1], [numbers[1] // 16, numbers[3]])
    else:
        part = chance.choice([0, 2, 4, 4, 4, 4])
        word_near(chance, data, at + head + numbers[part], numbers[part + 1], [numbers[part + 1], 8, 13])


def access_changed(chance, data, _other):
    """A letter of an access string."""
    places = [found.start() for found in re.finditer(rb"\0\d+(?::\d+)*(?=\0)", data)]
    if places:
        at = chance.choice(places) + 1
        put(data, at + chance.choice([0, 0, 1, 2]), chance.choice([b"0", b"1", b"2", b"9", b":", b"-", b"\0", b"\xff"]))


COMMON = [bytes_changed, number_changed, near_changed, part_again, name_changed, part_of_other]
RARE = [cut, part_removed]
OF_ELF = [header_changed, header_again, section_changed, section_changed, slot_changed, section_cut, name_changed]
OF_ELF += [types_changed, types_changed, access_changed]


def with_changes(chance, data, other, changes):
    data = bytearray(data)
    for _ in range(chance.choice([0, 1, 1, 1, 2, 2, 3, 5, 12])):
        if len(data) > 1:
            chance.choice(changes)(chance, data, other)
    return bytes(data)


def with_front(chance, before, after, length):
    """Mostly with the header of the file before, without which nothing else is read."""
    return before[:length] + after[length:] if chance.random() < 0.85 else after


def changed(chance, data, other):
    """An object with changes; some come from another one."""
    if chance.random() < 0.02:
        return with_changes(chance, data, other, [order_changed, *OF_ELF])
    if chance.random() < 0.1:
        return with_changes(chance, data, other, COMMON + RARE)
    return with_front(chance, data, with_changes(chance, data, other, COMMON + OF_ELF + OF_ELF), 64)


def changed_types(chance, data):
    return with_front(chance, data, with_changes(chance, data, data, COMMON + RARE[chance.randrange(2) :]), 24)


def changed_lines(chance, data):
    """Symbols, each line changed at random."""
    made = bytearray()
    for line in data.splitlines(keepends=True) * chance.choice([1, 1, 2]):
        kind = chance.randrange(8)
        if kind == 0:
            line = line[: chance.randrange(len(line))]
        elif kind == 1:
            line = bytes([chance.randrange(256)]) + line
        elif kind == 2:
            line = line.replace(b" ", chance.choice([b"  ", b"\t", b"\xc2\xa0", b""]))
        elif kind == 3:
            line = b"f" * chance.choice([15, 16, 17, 300]) + line
        made += line
    return bytes(made)

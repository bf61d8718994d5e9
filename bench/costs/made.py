"""Large files, little endian, that are made quickly."""
import struct

PROGBITS, SYMTAB, STRTAB, NOBITS, REL = 1, 2, 3, 8, 9

# Types and bindings of symbols.
FUNCTION, OBJECT, GLOBAL, WEAK = 0x12, 0x11, 0x10, 0x20

INT, PTR, ARRAY, STRUCT, FWD, VAR, DATASEC = 1, 2, 3, 4, 7, 14, 15

EXIT = bytes.fromhex("9500000000000000")
MOVE = bytes.fromhex("b700000000000000")
CALL = bytes.fromhex("85100000ffffffff")

# About what a file with one program takes.
ROOM = 900


class Strings:
    def __init__(self):
        self.data, self.known = bytearray(1), {}

    def add(self, text):
        """The offset of a text, which stands once; an offset stands for itself."""
        if isinstance(text, int):
            return text
        if text not in self.known:
            self.known[text] = len(self.data)
            self.data += text.encode("latin-1") + b"\0"
        return self.known[text]

    def long(self, length, letter="a"):
        """The offset of a text of one letter, which stands behind all others."""
        at = len(self.data)
        self.data += letter.encode() * length + b"\0"
        return at


class File:
    """A file in the making; sections have the numbers from 1 on, symbols too."""

    def __init__(self):
        self.names, self.texts = Strings(), Strings()
        self.rows, self.bodies, self.symbols = [], [], bytearray(24)

    def section(self, name, data=b"", kind=PROGBITS, flags=3, size=None, same_as=None, info=0, address=0):
        """Adds a section; `same_as` is the number of one whose bytes of the file it has too."""
        size = len(data) if size is None else size
        self.rows.append([self.names.add(name), kind, flags, same_as, size, info, address])
        self.bodies.append(data)
        return len(self.rows)

    def code(self, name, data=b"", **other):
        return self.section(name, data, flags=6, **other)

    def symbol(self, name, kind, section, value=0, size=0):
        self.symbols += struct.pack("<IBBHQQ", self.texts.add(name), kind, 0, section, value, size)
        return len(self.symbols) // 24 - 1

    def relocations(self, target, data, **other):
        return self.section(".rel", data, kind=REL, flags=0, info=target, **other)

    def program(self, data=EXIT, name="p"):
        """A section with one program; its number."""
        number = self.code("kprobe/x", data)
        self.symbol(name, FUNCTION, number, 0, len(data))
        return number

    def types(self, types, said=None):
        self.section(".BTF", types.bytes(), flags=0)
        if said is not None:
            self.section(".BTF.ext", said, flags=0)
        return self

    def bytes(self):
        table = self.section(".symtab", bytes(self.symbols), kind=SYMTAB, flags=0, info=1)
        texts = self.section(".strtab", bytes(self.texts.data), kind=STRTAB, flags=0)
        self.names.add(".shstrtab")
        names = self.section(".shstrtab", bytes(self.names.data), kind=STRTAB, flags=0)
        out, places = bytearray(64), [0]
        for row, body in zip(self.rows, self.bodies):
            places.append(len(out) if row[3] is None else places[row[3]])
            out += b"" if row[1] == NOBITS else body + bytes(-len(body) % 8)
        start = len(out)
        out += bytes(64)
        for (name, kind, flags, _, size, info, address), place in zip(self.rows, places[1:]):
            link = texts if kind == SYMTAB else table if kind == REL else 0
            out += struct.pack("<IIQQQQIIQQ", name, kind, flags, address, place, size, link, info, 1, 0)
        out[:16] = b"\x7fELF\x02\x01\x01".ljust(16, b"\0")
        struct.pack_into("<HHIQQQIHHHHHH", out, 16, 1, 247, 1, 0, 0, start, 0, 64, 0, 0, 64, len(places), names)
        return bytes(out)


class Types:
    def __init__(self):
        self.strings, self.data, self.count = Strings(), bytearray(), 0

    def add(self, kind, name, *rest, entries=0):
        info = kind << 24 | entries
        self.data += struct.pack(f"<{2 + len(rest)}I", self.strings.add(name), info, *rest)
        self.count += 1
        return self.count

    def struct_of(self, name, members):
        """A STRUCT; the members have a name and a type."""
        words = [word for member, held in members for word in (self.strings.add(member), held, 0)]
        return self.add(STRUCT, name, 0, *words, entries=len(members))

    def datasec(self, name, held):
        return self.add(DATASEC, name, 0, *(word for one in held for word in (one, 0, 0)), entries=len(held))

    def bytes(self):
        head = struct.pack("<HBBIIIII", 0xEB9F, 1, 0, 24, 0, len(self.data), len(self.data), len(self.strings.data))
        return bytes(head + self.data + self.strings.data)


def on_functions(sections):
    """`.BTF.ext` with sections on functions, each the offset of a name and rows of 8 bytes."""
    part = bytearray(struct.pack("<I", 8))
    for name, rows in sections:
        part += struct.pack("<II", name, len(rows) // 8) + rows
    return struct.pack("<HBBIIIIIII", 0xEB9F, 1, 0, 32, 0, len(part), len(part), 0, len(part), 0) + bytes(part)


def core_records(section, rows):
    """`.BTF.ext` with CO-RE records of one section: the offset of its name, and of each record the place of its
    instruction, its type, the offset of its access string and its kind."""
    part = struct.pack("<III", 16, section, len(rows)) + b"".join(struct.pack("<IIII", *row) for row in rows)
    return struct.pack("<HBBIIIIIII", 0xEB9F, 1, 0, 32, 0, 0, 0, 0, 0, len(part)) + part


def entry(offset, symbol):
    return struct.pack("<QQ", offset, symbol << 32 | 10)

"""What is made of a file, counted apart from the library: by the file's bytes, as the docstring of
`parse_within` and docs/BEHAVIOUR.md ('Limits') state it.

usage: counted.py FILE..     for each file its size, what `parse_within` counts, and what an object of it owns
"""
import bisect
import struct
import sys
from pathlib import Path

# The sizes of docs/BEHAVIOUR.md, 'Limits'.
OBJECT = 10992
EXTERN, MAP, PROGRAM, FUNCTION, SYMBOL, SECTION = 160, 400, 192, 400, 208, 88
RELOCATIONS, RELOCATION = 704, 88
SLOT = 16
TYPE_BYTE, STRING_BYTE, EXT_BYTE, EXTERN_TYPES = 3, 6, 10, 256
# What the object has of `.BTF.ext`: a section of entries or of relocations, a relocation.
INFO_SECTION, CORE_SECTION, CORE_RELO = 80, 64, 24

NOBITS, PROGBITS, SYMTAB = 8, 1, 2


def text(table, at):
    """A name of a string table; nothing where it can't be read."""
    if at == 0:
        return b""
    end = table.find(b"\0", at)
    try:
        table[at:end].decode()
    except UnicodeDecodeError:
        return None
    return table[at:end] if end >= 0 else None


class Elf:
    """The sections and symbols of a little-endian ELF64 file."""

    def __init__(self, data):
        self.data = data
        start, count, names = struct.unpack_from("<Q", data, 40)[0], *struct.unpack_from("<HH", data, 60)
        rows = [struct.unpack_from("<IIQQQQIIQQ", data, start + 64 * i) for i in range(count)]
        self.rows = rows
        self.names = [text(self.bytes_of(rows[names]), row[0]) for row in rows]
        self.symbols, self.texts = [], b""
        for i, row in enumerate(rows):
            if row[1] == SYMTAB:
                self.table, self.texts = i, self.bytes_of(rows[row[6]])
                entries = struct.iter_unpack("<IBBHQQ", self.bytes_of(row))
                self.symbols = list(entries)[1:]
                break

    def bytes_of(self, row):
        return b"" if row[1] == NOBITS else self.data[row[4] : row[4] + row[5]]

    def first(self, name):
        for row, other in list(zip(self.rows, self.names))[1:]:
            if other == name:
                return self.bytes_of(row)
        return None

    def kind(self, i):
        name, row = self.names[i] or b"", self.rows[i]
        for prefix in (b"license", b"version", b"maps", b".maps", b".text", b".bss", b".data", b".rodata"):
            if name.startswith(prefix):
                return prefix.decode()
        if name in (b".BTF", b".BTF.ext"):
            return name.decode()
        return "program" if row[1] == PROGBITS and row[2] & 2 and row[2] & 4 and row[5] else ""


def parts(ext):
    """Where the parts of `.BTF.ext` stand: func info, line info, CO-RE records."""
    if ext is None or len(ext) < 24:
        return [(0, 0)] * 3
    head = struct.unpack_from("<I", ext, 4)[0]
    return [(head + at, length) if head >= place + 8 else (0, 0)
            for place in (8, 16, 24) for at, length in [struct.unpack_from("<II", ext, place)]]


def slots_by_name(ext, part, strings):
    """The slots that the records of a part name, by the names of sections; the later of a name stands."""
    at, length = part
    found = {}
    if not length:
        return found
    size, end, at = struct.unpack_from("<I", ext, at)[0], at + length, at + 4
    while at < end:
        name, count = struct.unpack_from("<II", ext, at)
        found[text(strings, name) or b""] = [struct.unpack_from("<I", ext, at + 8 + size * i)[0] // 8 for i in range(count)]
        at += 8 + size * count
    return found


def core_counts(ext, part):
    """The number of relocations of each section of CO-RE relocations."""
    at, length = part
    if not length:
        return
    size, end, at = struct.unpack_from("<I", ext, at)[0], at + length, at + 4
    while at < end:
        count = struct.unpack_from("<I", ext, at + 4)[0]
        yield count
        at += 8 + size * count


class Counted:
    def __init__(self, data):
        self.elf = elf = Elf(data)
        self.types, self.ext = elf.first(b".BTF"), elf.first(b".BTF.ext")
        strings = b""
        self.type_bytes = 0
        if self.types:
            head, _, types, at, length = struct.unpack_from("<IIIII", self.types, 4)
            strings = self.types[head + at : head + at + length]
            self.type_bytes = TYPE_BYTE * types + STRING_BYTE * length
        self.parts = parts(self.ext if self.types else None)
        self.funcs = slots_by_name(self.ext, self.parts[0], strings)
        self.lines = slots_by_name(self.ext, self.parts[1], strings)
        license = elf.first(b"license")
        self.license = 3 if license is None else len(license)

    def name(self, name):
        return len(self.elf.data) if name is None else len(name)

    def records(self, i, first, count):
        """The bytes of the records at so many slots of a section."""
        name = self.elf.names[i] or b""
        funcs, lines = self.funcs.get(name, []), self.lines.get(name, [])
        some = len(funcs) if funcs != sorted(funcs) else funcs.count(first)
        if lines == sorted(lines):
            return 8 * some + 16 * (bisect.bisect_left(lines, first + count) - bisect.bisect_left(lines, first))
        return 8 * some + 16 * len(lines)

    def section(self, i):
        name, kind, size = self.elf.names[i], self.elf.kind(i), self.elf.rows[i][5]
        if kind in (".data", ".rodata", ".bss"):
            return MAP + self.name(name) + size
        if kind in (".text", "program"):
            return 8 * len(self.funcs.get(name, [])) + 16 * len(self.lines.get(name, []))
        return 0

    def first_slot(self, section, value):
        """The slot of its section that a symbol stands at."""
        start = self.elf.rows[section][3]
        return (value - start) % 2**64 // 8 if self.elf.kind(section) == ".text" else max(value - start, 0) // 8

    def symbol(self, row):
        name = self.name(text(self.elf.texts, row[0]))
        own = SYMBOL + EXTERN + 2 * name
        _, info, _, section, value, size = row
        if not 0 < section < min(len(self.elf.rows), 0xFF00):
            return own
        kind, is_text = self.elf.kind(section), info % 16 in (2, 10)
        if kind in ("maps", ".maps"):
            return own + MAP + name
        if kind not in (".text", "program") or not is_text:
            return own
        header = self.elf.rows[section]
        first = self.first_slot(section, value)
        function = FUNCTION + name + SLOT // 8 * min(size, header[5]) + self.records(section, first, size // 8)
        return own + function + (PROGRAM + name + self.license if kind == "program" else 0)

    def relocations(self, row):
        if row[1] not in (4, 9) or row[6] != self.elf.table or not row[7]:
            return 0
        if self.elf.kind(row[7]) not in (".text", "program"):
            return 0
        return RELOCATIONS + RELOCATION * (row[5] // (16 if row[1] == 9 else 24))

    def made(self):
        sections = range(1, len(self.elf.rows))
        return (
            OBJECT
            + self.license
            + sum(SECTION + self.name(name) for name in self.elf.names[1:])
            + EXTERN_TYPES + self.type_bytes + EXT_BYTE * sum(length for _, length in self.parts)
            + sum(self.section(i) for i in sections)
            + sum(self.symbol(row) for row in self.elf.symbols)
            + sum(self.relocations(row) for row in self.elf.rows[1:])
        )

    def functions(self):
        """The functions by section and address, each with its bytes; the names of programs."""
        found, programs = {}, set()
        for row in self.elf.symbols:
            _, info, _, section, value, size = row
            if not 0 < section < min(len(self.elf.rows), 0xFF00) or info % 16 not in (2, 10):
                continue
            kind = self.elf.kind(section)
            if kind not in (".text", "program"):
                continue
            name = text(self.elf.texts, row[0])
            first = self.first_slot(section, value)
            code = SLOT // 8 * size
            found[section, value] = FUNCTION + self.name(name) + code + self.records(section, first, size // 8)
            programs |= {name} if kind == "program" else set()
        return found, programs

    def named(self, wanted):
        """The names of the symbols that a test takes."""
        return {text(self.elf.texts, row[0]) for row in self.elf.symbols if wanted(row)}

    def owned(self):
        """What an object of the file owns; a section as .maps has a map for each symbol, and a symbol that isn't defined
        names an extern."""
        elf = self.elf
        functions, programs = self.functions()
        data = [i for i in range(1, len(elf.rows)) if elf.kind(i) in (".data", ".rodata", ".bss")]
        sections = {i for i in range(1, len(elf.rows)) if elf.kind(i) in ("maps", ".maps")}
        maps = self.named(lambda row: row[3] in sections and row[1] % 16 != 3)
        externs = self.named(lambda row: row[3] == 0 and row[1] in (0x10, 0x20))
        license = self.license - (0 if elf.first(b"license") is None else 1)
        last = {elf.names[i]: elf.rows[i][5] for i in data}
        return (
            OBJECT
            + license * (1 + len(programs))
            + sum(functions.values())
            + sum(PROGRAM + self.name(name) for name in programs)
            + sum(MAP + self.name(name) for name in maps)
            + sum(MAP + self.name(name) + size for name, size in last.items())
            + sum(EXTERN + self.name(name) for name in externs)
            + sum(SECTION + self.name(name) for name in set(elf.names[1:]))
            + sum(SYMBOL + self.name(text(elf.texts, row[0])) for row in elf.symbols)
            + sum(self.relocations(row) for row in elf.rows[1:])
            + self.type_bytes
            + sum(INFO_SECTION + 8 * len(slots) for slots in self.funcs.values())
            + sum(INFO_SECTION + 16 * len(slots) for slots in self.lines.values())
            + sum(CORE_SECTION + CORE_RELO * count for count in core_counts(self.ext, self.parts[2]))
        )


if __name__ == "__main__":
    for path in sys.argv[1:]:
        data = Path(path).read_bytes()
        counted = Counted(data)
        print(path, len(data), counted.made(), counted.owned())

"""Small ELF64 files, in either byte order."""
import struct

PROGBITS, NOBITS, REL = 1, 8, 9

LITTLE, BIG = "<", ">"

# The types and bindings of symbols: the low four bits are the type, the high four the binding.
OBJECT, FUNCTION, SECTION = 0x11, 0x12, 3

# Types of relocations.
LOAD64, CALL32 = 1, 10


def header(start, count, names, order=LITTLE):
    """The header of a file whose table of `count` section headers begins at `start`."""
    ident = b"\x7fELF\x02" + bytes([1 if order == LITTLE else 2]) + b"\x01".ljust(10, b"\0")
    return ident + struct.pack(f"{order}HHIQQQIHHHHHH", 1, 247, 1, 0, 0, start, 0, 64, 0, 0, 64, count, names)


def section_row(name, kind, flags, address, offset, size, link, info, alignment=0, each=0, order=LITTLE):
    return struct.pack(f"{order}IIQQQQIIQQ", name, kind, flags, address, offset, size, link, info, alignment, each)


class File:
    """A file in the making. Section 1 is its symbol table and section 2 its string table; the sections that are added
    have the numbers from 3 on, and the symbols those from 1 on. What is added can be chained."""

    def __init__(self, order=LITTLE):
        self.order = order
        self.names = b"\0"
        self.symbols = bytes(24)
        self.rows = []
        self.body = b""

    def add_name(self, text):
        at = len(self.names)
        self.names += text.encode() + b"\0"
        return at

    def section(self, name, kind, flags, data, address=0, size=None, link=0, info=0, name_at=None):
        """Adds a section. Its size and the number of its name may be said to be other ones than they are."""
        at = self.add_name(name)
        at = at if name_at is None else name_at
        size = len(data) if size is None else size
        self.rows.append(section_row(at, kind, flags, address, 64 + len(self.body), size, link, info, order=self.order))
        self.body += data
        return self

    def code(self, name, data, **other):
        """Adds a section of instructions."""
        return self.section(name, PROGBITS, 6, data, **other)

    def data(self, name, data, **other):
        """Adds a section that is no code and has no flags."""
        return self.section(name, PROGBITS, 0, data, **other)

    def symbol(self, name, info, section, value, size):
        """Adds a symbol. A number in place of the name says where the name is in the string table."""
        at = name if isinstance(name, int) else self.add_name(name)
        self.symbols += struct.pack(f"{self.order}IBBHQQ", at, info, 0, section, value, size)
        return self

    def relocations(self, target, entries):
        """Adds relocations of the section `target`, each an offset, a symbol and a type."""
        rows = [(offset, symbol << 32 | kind) for offset, symbol, kind in entries]
        data = b"".join(struct.pack(f"{self.order}QQ", *row) for row in rows)
        return self.section(".rel", REL, 0, data, link=1, info=target)

    def bytes(self):
        symbols_at = 64 + len(self.body)
        names_at = symbols_at + len(self.symbols)
        symtab, strtab = self.add_name(".symtab"), self.add_name(".strtab")
        tables = section_row(symtab, 2, 0, 0, symbols_at, len(self.symbols), 2, 1, order=self.order)
        tables += section_row(strtab, 3, 0, 0, names_at, len(self.names), 0, 0, order=self.order)
        start = header(names_at + len(self.names), len(self.rows) + 3, 2, self.order)
        return start + self.body + self.symbols + self.names + bytes(64) + tables + b"".join(self.rows)


def changed(data, at, new):
    """The bytes with others from a place on."""
    return data[:at] + new + data[at + len(new) :]


def slot(code, registers=0, offset=0, imm=0):
    return struct.pack("<BBhi", code, registers, offset, imm)


# The code of a call.
CALL_CODE = 0x85

# A call relative to its place, by -1; the end of a function; a slot of zeros.
CALL = slot(CALL_CODE, 0x10, imm=-1)
EXIT = slot(0x95)
NOTHING = bytes(8)


def call_by(slots):
    """A call by so many slots behind its place."""
    return slot(CALL_CODE, 0x10, imm=slots)

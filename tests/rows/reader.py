"""A reader of files without types, for comparison: whether a little endian file is an object, or the error. It goes by
the order of faults that the documents of the crates state, and only as far as the small object needs."""
import struct
from collections import Counter

from rows.elf import changed

PROGBITS, SYMTAB, STRTAB, RELA, NOBITS, REL = 1, 2, 3, 4, 8, 9


class Fault(Exception):
    """Why a file is no object."""


def refuse_if(wrong, error):
    if wrong:
        raise Fault(error)


class Section:
    def __init__(self, file, index):
        at = file.table + 64 * index
        self.number, self.kind, self.flags, self.address = struct.unpack_from("<IIQQ", file.data, at)
        self.offset, self.size, self.link, self.info = struct.unpack_from("<QQII", file.data, at + 24)
        self.inside = self.size == 0 or self.offset + self.size <= len(file.data)
        self.bytes = file.data[self.offset : self.offset + self.size] if self.inside else b""


def name(table, number):
    """The text at a place of a string table; `None` where there is none."""
    if number == 0:
        return ""
    end = table.find(b"\0", number)
    if number >= len(table) or end < 0:
        return None
    try:
        return table[number:end].decode()
    except UnicodeDecodeError:
        return None


class File:
    """The sections, the symbols from 1 on, and the relocations by their section."""

    def __init__(self, data):
        refuse_if(len(data) < 64, "ElfError(TooShort)")
        refuse_if(data[:4] != b"\x7fELF", "ElfError(BadMagic)")
        refuse_if(data[4] != 2, "ElfError(NotElf64)")
        refuse_if(data[5] not in (1, 2), "ElfError(BadByteOrder)")
        self.data, self.sections, self.symbols, self.relocations = data, [], [], {}
        (self.table,) = struct.unpack_from("<Q", data, 40)
        if self.table == 0:
            return
        size, count, names = struct.unpack_from("<HHH", data, 58)
        refuse_if(count == 0 or names == 0xFFFF, "ElfError(ExtendedNumbering)")
        refuse_if(size != 64 or self.table + 64 * count > len(data), "ElfError(BadSectionTable)")
        self.sections = [Section(self, index) for index in range(count)]
        self.names = self.strings(names) if names else b""
        self.read_symbols()

    def strings(self, index):
        refuse_if(index >= len(self.sections), "ElfError(BadStringTable)")
        section = self.sections[index]
        refuse_if(section.kind != STRTAB or not section.inside, "ElfError(BadStringTable)")
        return section.bytes

    def read_symbols(self):
        tables = [index for index, section in enumerate(self.sections) if index and section.kind == SYMTAB]
        if not tables:
            return
        table = self.sections[tables[0]]
        refuse_if(table.size % 24 or not table.inside, "ElfError(BadSymbolTable)")
        self.symbol_names = self.strings(table.link)
        self.symbols = list(struct.iter_unpack("<IBBHQQ", table.bytes))[1:]
        refuse_if(any(symbol[3] == 0xFFFF for symbol in self.symbols), "ElfError(ExtendedNumbering)")
        for section in self.sections[1:]:
            if section.kind in (REL, RELA) and section.info and section.link == tables[0]:
                self.read_relocations(section)

    def read_relocations(self, section):
        size = 16 if section.kind == REL else 24
        wrong = section.info >= len(self.sections) or section.size % size or not section.inside
        refuse_if(wrong, "ElfError(BadRelocationTable)")
        rows = [section.bytes[at : at + size] for at in range(0, section.size, size)]
        self.relocations.setdefault(section.info, []).extend(struct.unpack_from("<II", row, 8)[1] for row in rows)


def shown(text):
    """The text as the program shows it."""
    return '"' + "".join(char if char.isprintable() else f"\\u{{{ord(char):x}}}" for char in text) + '"'


def refuse_symbol(wrong, index, text):
    refuse_if(wrong, f'InvalidSymbol {{ index: {index}, name: Some({shown(text)}) }}')


def read_text(index, section, symbols):
    """The functions of a text have to tile it."""
    starts = {}
    for number, text, _, value, size in symbols:
        twice = f"SymbolTableConflict {{ section_index: {index}, address: {value} }}"
        refuse_if(value in starts, twice)
        starts[value] = (number, text, size)
    at = 0
    while at < section.size:
        address = (section.address + at) % 2**64
        refuse_if(address not in starts, f"UnknownSymbol {{ section_index: {index}, address: {address} }}")
        number, text, size = starts[address]
        refuse_symbol(size == 0 or at + size > section.size, number, text)
        refuse_if(size % 8, "InvalidProgramCode")
        at += size


def read_program(section, text, symbols, any_symbol):
    """The programs of a section."""
    known = text.split("/")[0] == "kprobe"
    refuse_if(not known, f'InvalidProgramSection {{ section: {shown(text)} }}')
    refuse_if(not any_symbol, f'NoSymbolsForSection {{ section_name: {shown(text)} }}')
    for number, symbol, _, value, size in symbols:
        if symbol:
            wrong = value < section.address or value - section.address + size > section.size
            refuse_symbol(wrong, number, symbol)
            refuse_if(size % 8, "InvalidProgramCode")


def read_section(file, index, symbols):
    section = file.sections[index]
    text = name(file.names, section.number)
    refuse_if(text is None, f"SectionError {{ index: {index}, error: BadStringTable }}")
    wrong = section.kind != NOBITS and not section.inside
    refuse_if(wrong, f"SectionError {{ index: {index}, error: BadSectionRange }}")
    refuse_if(0 in file.relocations.get(index, []), "UnsupportedRelocationTarget")
    own = [symbol for symbol in symbols if symbol[2][1] == index]
    code = [symbol for symbol in own if symbol[2][0] & 15 in (2, 10)]
    if text.startswith(".text"):
        read_text(index, section, code)
    elif section.kind == PROGBITS and section.flags & 6 == 6 and section.size:
        read_program(section, text, code, own)


def outcome(data):
    """`parsed`, or the error."""
    try:
        file = File(data)
        symbols = []
        for number, (at, info, _, section, value, size) in enumerate(file.symbols, 1):
            text = name(file.symbol_names, at)
            refuse_if(text is None, "BtfError(InvalidSymbolName)")
            symbols.append((number, text, (info, section if section < 0xFF00 else 0), value, size))
        for index in range(1, len(file.sections)):
            read_section(file, index, symbols)
    except Fault as fault:
        return str(fault)
    return "parsed"


def each_byte(data, value):
    """How many of the files with this byte at any one place give what, as the program counts them."""
    counts = Counter(outcome(changed(data, place, bytes([value]))) for place in range(len(data)))
    return "\n".join(f"{count}: {given}" for given, count in counts.items())

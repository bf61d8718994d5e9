"""A reader of files without types, for comparison: whether the programs of a little endian file can be linked with the
functions that they reach, or the error. It goes by the order of faults that the documents of the crates state, and only
as far as the small object needs."""
import struct
from collections import Counter

from rows.elf import changed
from rows.reader import PROGBITS, Fault, File, name, outcome

# Types of symbols: functions are of the first two.
TEXT, SECTION = (2, 10), 3

SIZES = {1: 64, 10: 32}


class Symbol:
    def __init__(self, row, names):
        at, info, _, section, self.address, self.size = row
        self.name, self.kind = name(names, at), info & 15
        self.section = section if 0 < section < 0xFF00 else None
        defined = section != 0 and (self.kind in (1, 2) or self.kind == 0 and self.size != 0)
        unknown = self.kind == 0 or self.kind > 6 and self.kind != 10
        self.is_extern = self.section is None and not defined and unknown

    def is_text_of(self, section):
        return self.kind in TEXT and self.section == section


class Function:
    def __init__(self, text, section, offset, data):
        self.name, self.section, self.offset = text, section, offset
        self.slots = list(struct.iter_unpack("<BBhi", data))


class Object:
    """What linking reads of a file that is an object."""

    def __init__(self, data):
        file = File(data)
        rows = [Symbol(row, file.symbol_names) for row in file.symbols]
        self.symbols = dict(enumerate(rows, 1))
        self.functions, self.programs, self.relocations = {}, {}, {}
        for index, section in enumerate(file.sections[1:], 1):
            if name(file.names, section.number).startswith(".text"):
                self.read_text(index, section)
            elif section.kind == PROGBITS and section.flags & 6 == 6 and section.size:
                self.read_program(index, section)
        self.read_relocations(file)
        self.text_sections = {section for section, _ in self.functions}

    def read_text(self, index, section):
        starts = {symbol.address: symbol for symbol in self.symbols.values() if symbol.is_text_of(index)}
        at = 0
        while at < section.size:
            symbol = starts[(section.address + at) % 2**64]
            held = section.bytes[at : at + symbol.size]
            self.functions[index, symbol.address] = Function(symbol.name, index, at, held)
            at += symbol.size

    def read_program(self, index, section):
        for symbol in self.symbols.values():
            if symbol.is_text_of(index) and symbol.name:
                held = section.bytes[symbol.address : symbol.address + symbol.size]
                self.functions[index, symbol.address] = Function(symbol.name, index, symbol.address, held)
                self.programs[symbol.name] = index, symbol.address

    def read_relocations(self, file):
        for section in file.sections[1:]:
            if section.kind == 9 and section.info in {key[0] for key in self.functions}:
                for offset, kind, symbol in struct.iter_unpack("<QII", section.bytes):
                    self.relocations[section.info, offset] = SIZES.get(kind, 0), self.symbols.get(symbol), symbol

    def target(self, function, place, imm):
        """The key of the function that a slot refers to by its relocation, `None` where it has none that counts."""
        size, symbol, number = self.relocations.get((function.section, function.offset + 8 * place), (0, None, 0))
        if symbol is None or symbol.is_extern:
            return None
        if symbol.kind not in TEXT and symbol.section not in self.text_sections:
            return None
        if symbol.section is None or symbol.kind not in (*TEXT, SECTION) or symbol.kind == SECTION and size == 0:
            raise Fault(f"UnsupportedTextSymbol {{ index: {number} }}")
        if symbol.kind in TEXT:
            return symbol.section, symbol.address
        return symbol.section, (symbol.address + (imm if size == 64 else (imm + 1) * 8)) % 2**64

    def references(self, function):
        """The keys of the functions that the slots refer to."""
        for place, (code, registers, offset, imm) in enumerate(function.slots):
            is_call = code & 7 == 5 and code & 0xF8 == 0x80 and registers == 0x10 and offset == 0
            key = self.target(function, place, imm)
            if key is None and is_call:
                key = function.section, (function.offset + 8 * place + (imm + 1) * 8) % 2**64
            if key is not None:
                yield key

    def link(self, function, copied):
        """Goes along what a function reaches, each once."""
        for key in self.references(function):
            if key not in self.functions:
                text = f'caller_name: "{function.name}"'
                raise Fault(f"UnknownFunction {{ address: {key[1]}, {text} }}")
            if key not in copied:
                copied.add(key)
                self.link(self.functions[key], copied)


def linked(data):
    """`prepared`, or the error."""
    fault = outcome(data)
    if fault != "parsed":
        return f"Parse({fault})"
    file = Object(data)
    for program in sorted(file.programs, key=str.encode):
        try:
            file.link(file.functions[file.programs[program]], set())
        except Fault as of_program:
            text = f'function: "{program}"'
            return f"Calls(EbpfRelocationError {{ {text}, error: {of_program} }})"
    return "prepared"


def each_byte(data, value):
    """How many of the files with this byte at any one place give what, as the program counts them."""
    counts = Counter(linked(changed(data, place, bytes([value]))) for place in range(len(data)))
    return "\n".join(f"{count}: {given}" for given, count in counts.items())

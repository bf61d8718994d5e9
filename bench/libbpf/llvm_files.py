"""ELF files as LLVM lays them out, in time that grows as their size does."""
import struct
from dataclasses import dataclass

from rows.elf import PROGBITS, REL, header, section_row

SYMTAB, STRTAB = 2, 3

# The kinds of sections in the order of their bytes.
ORDER = PROGBITS, SYMTAB, REL, STRTAB

# The flags of sections: what is written to, what is code, and whose `info` is a section.
WRITTEN, CODE, OF_SECTION = 3, 6, 0x40


@dataclass
class Section:
    name: str
    kind: int
    data: bytes
    flags: int = 0
    link: int = 0
    info: int = 0
    alignment: int = 8
    each: int = 0


def string_table(names):
    """The bytes of the names, and where each is. They are sorted by their ends, and one that ends another is in it."""
    places, parts, size, before = {"": 0}, [""], 1, ""
    for name in sorted(names, key=lambda name: name[::-1], reverse=True):
        if before.endswith(name):
            places[name] = size - len(name) - 1
            continue
        places[name] = size
        parts.append(name)
        size += len(name) + 1
        before = name
    return "".join(f"{part}\0" for part in parts).encode(), places


def symbol_table(symbols, places):
    """The bytes of symbols, each a name and what follows it: the type and binding, the section, the value, the size."""
    rows = [struct.pack("<IBBHQQ", places[name], info, 0, *rest) for name, info, *rest in symbols]
    return bytes(24) + b"".join(rows)


def relocations(entries):
    """The bytes of relocations, each an offset, a symbol and a type."""
    return b"".join(struct.pack("<QII", offset, kind, symbol) for offset, symbol, kind in entries)


def file(sections, places):
    """A file of sections, by their numbers from 1 on, where section 1 is the string table with the names' places."""
    body, offsets, size = [], {}, 64
    for section in sorted(sections, key=lambda section: ORDER.index(section.kind)):
        gap = -size % section.alignment
        offsets[section.name] = size + gap
        body += [bytes(gap), section.data]
        size += gap + len(section.data)
    gap = -size % 8
    rows = [bytes(64)]
    for of in sections:
        held = offsets[of.name], len(of.data)
        rows.append(section_row(places[of.name], of.kind, of.flags, 0, *held, of.link, of.info, of.alignment, of.each))
    return b"".join([header(size + gap, len(rows), 1), *body, bytes(gap), *rows])

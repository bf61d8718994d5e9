"""`.BTF.ext` in the making: func info, line info, and CO-RE relocations."""
import struct

from rows.btf import magic


class Said:
    """Records by sections of code; a section is its name."""

    def __init__(self):
        self.funcs, self.lines, self.core = {}, {}, {}

    def function(self, section, at, held):
        self.funcs.setdefault(section, []).append((at, held))

    def line(self, section, at, *words):
        self.lines.setdefault(section, []).append((at, *words))

    def record(self, section, at, held, access, asked):
        self.core.setdefault(section, []).append((at, held, access, asked))

    def is_empty(self):
        return not (self.funcs or self.lines or self.core)

    def bytes(self, chance, strings, order):
        """The section's bytes; names and texts are added to the strings."""
        parts = [part_of(chance, self.funcs, 8, strings), part_of(chance, self.lines, 16, strings)]
        parts.append(part_of(chance, self.core, 16, strings))
        packed = [struct.pack(f"{order}{len(words)}I", *words) for words in parts]
        with_core = bool(parts[2]) or chance.one_in(3)
        places, at = [], 0
        for data in packed[: 3 if with_core else 2]:
            places += [at, len(data)]
            at += len(data)
        header = struct.pack(f"{order}{len(places) + 1}I", 8 + 4 * len(places), *places)
        return magic(order) + header + b"".join(packed[: len(places) // 2])


def part_of(chance, sections, width, strings):
    """The words of a part: the size of a record, and for each section its name, a count, and records."""
    if not sections and not chance.one_in(8):
        return []
    wider = chance.choice([4, 8, 12]) if chance.one_in(20) else 0
    words = [width + wider]
    for name, rows in sections.items():
        words += [strings.offset(name), len(rows)]
        for row in rows:
            words += [word if isinstance(word, int) else strings.offset(word) for word in row]
            words += [0] * (wider // 4)
    return words

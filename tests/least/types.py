"""Raw BTF that is read, made smaller by one type, member or enumerator, and written."""
import struct
from dataclasses import dataclass, replace

from rows.btf import ARRAY, DATASEC, DECL_TAG, ENUM, ENUM64, FUNC, FUNC_PROTO, INT, PTR, STRUCT, UNION, VAR, magic
from fuzzing.type_table import MODIFIERS

# The words behind the first three of a type: so many, and so many for each entry.
WORDS = {INT: (1, 0), ARRAY: (3, 0), VAR: (1, 0), DECL_TAG: (1, 0)}
ENTRIES = {STRUCT: 3, UNION: 3, ENUM: 2, ENUM64: 3, FUNC_PROTO: 2, DATASEC: 3}

# Kinds whose third word is a type, and the word of an entry that is one.
OF_TYPE = {PTR, FUNC, FUNC_PROTO, VAR, DECL_TAG, *MODIFIERS}
TYPE_WORD = {STRUCT: 1, UNION: 1, FUNC_PROTO: 1, DATASEC: 0}

# Kinds of which an entry can be left out.
NAMED = (STRUCT, UNION, ENUM, ENUM64)


@dataclass(frozen=True)
class Type:
    """A type: the offset of its name, its kind, its flag, its third word, and the words of each entry. The further words
    of a kind without entries are one entry."""

    name: int
    kind: int
    flag: int
    word: int
    entries: tuple

    def references(self):
        """Yields the ids of the types that it names."""
        if self.kind in OF_TYPE:
            yield self.word
        if self.kind == ARRAY:
            yield from self.entries[0][:2]
        if self.kind in TYPE_WORD:
            for entry in self.entries:
                yield entry[TYPE_WORD[self.kind]]

    def renumbered(self, number):
        """Returns the type with other ids, by a function from the old to the new ones."""
        word = number(self.word) if self.kind in OF_TYPE else self.word
        entries = self.entries
        if self.kind == ARRAY:
            element, index, length = entries[0]
            entries = ((number(element), number(index), length),)
        if self.kind in TYPE_WORD:
            at = TYPE_WORD[self.kind]
            entries = tuple((*entry[:at], number(entry[at]), *entry[at + 1 :]) for entry in entries)
        return replace(self, word=word, entries=entries)

    def words(self):
        count = len(self.entries) if self.kind in ENTRIES else 0
        yield from (self.name, self.flag << 31 | self.kind << 24 | count, self.word)
        for entry in self.entries:
            yield from entry


class Types:
    """Types, of which the first has the id 1, and their strings."""

    def __init__(self, types, strings):
        self.types, self.strings = types, strings

    @classmethod
    def read(cls, data):
        length, start, size, strings, string_size = struct.unpack_from("<5I", data, 4)
        at, end, types = length + start, length + start + size, []
        while at < end:
            name, info, word = struct.unpack_from("<3I", data, at)
            kind, count = info >> 24 & 31, info & 0xFFFF
            plain, each = WORDS.get(kind, (0, 0))[0], ENTRIES.get(kind, 0)
            rest = struct.unpack_from(f"<{plain + each * count}I", data, at + 12)
            size = each or plain
            entries = tuple(rest[first : first + size] for first in range(0, len(rest), size)) if size else ()
            types.append(Type(name, kind, info >> 31, word, entries))
            at += 12 + 4 * len(rest)
        first = length + strings
        return cls(types, data[first : first + string_size])

    def bytes(self):
        words = [word for each in self.types for word in each.words()]
        body = struct.pack(f"<{len(words)}I", *words)
        return magic("<") + struct.pack("<5I", 24, 0, len(body), len(body), len(self.strings)) + body + self.strings

    def text(self, offset):
        return self.strings[offset:].split(b"\0", 1)[0].decode("utf-8", "replace")

    def name(self, number):
        """Returns a type with its kind, for people to read."""
        held = self.types[number - 1]
        return f"type {number} (kind {held.kind} {self.text(held.name)!r})"

    def without(self, number):
        """Returns the types without one that no type names."""
        moved = lambda other: other - (other > number)
        kept = [each.renumbered(moved) for at, each in enumerate(self.types, 1) if at != number]
        return Types(kept, self.strings)

    def without_entry(self, number, at):
        """Returns the types without a member or an enumerator of one."""
        held = self.types[number - 1]
        entries = held.entries[:at] + held.entries[at + 1 :]
        types = list(self.types)
        types[number - 1] = replace(held, entries=entries)
        return Types(types, self.strings)

    def smaller(self):
        """Yields all types that lack one type which no other names, or one member or enumerator, each with what is left
        out."""
        named = {other for at, each in enumerate(self.types, 1) for other in each.references() if other != at}
        for number, held in enumerate(self.types, 1):
            if number not in named:
                yield self.name(number), self.without(number)
            if held.kind not in NAMED:
                continue
            for at, entry in enumerate(held.entries):
                yield f"{self.name(number)} entry {at} {self.text(entry[0])!r}", self.without_entry(number, at)

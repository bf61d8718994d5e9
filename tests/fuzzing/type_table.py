"""Types in the making: what `.BTF` says of them, and what is known of them while records on them are made."""
import struct

from rows.btf import ARRAY, CONST, DATASEC, DECL_TAG, ENUM, ENUM64, FUNC, FUNC_PROTO, INT, LITTLE, PTR, RESTRICT
from rows.btf import STRUCT, TYPEDEF, TYPE_TAG, UNION, VAR, VOLATILE, magic

MODIFIERS = [TYPEDEF, VOLATILE, CONST, RESTRICT, TYPE_TAG]

# Kinds whose third word is a type, and how many words an entry of the others has and which of them is a type.
OF_TYPE = {PTR, FUNC, FUNC_PROTO, VAR, DECL_TAG, *MODIFIERS}
ENTRIES = {STRUCT: (3, 1), UNION: (3, 1), FUNC_PROTO: (2, 1), DATASEC: (3, 0), ENUM: (2, None), ENUM64: (3, None)}


class Strings:
    """The strings of types in the making, each once."""

    def __init__(self):
        self.data = bytearray(b"\0")
        self.known = {"": 0, b"": 0}

    def offset(self, name):
        at = self.known.get(name)
        if at is None:
            at = self.known[name] = len(self.data)
            self.data += (name.encode() if isinstance(name, str) else name) + b"\0"
        return at


class Type:
    """A kind, a name, the size or the type behind these, the words of the entries (names are texts), a count, a flag."""

    __slots__ = ("kind", "name", "held", "rest", "entries", "flag")

    def __init__(self, kind, name, held, rest, entries, flag):
        self.kind, self.name, self.held, self.rest, self.entries, self.flag = kind, name, held, rest, entries, flag

    def copy(self):
        return Type(self.kind, self.name, self.held, list(self.rest), self.entries, self.flag)

    def places(self):
        """The places of types among the words of the entries."""
        if self.kind == ARRAY:
            return range(2)
        width, at = ENTRIES.get(self.kind, (1, None))
        return range(at, len(self.rest), width) if at is not None else ()

    def moved(self, by):
        """The type behind so many others."""
        made = self.copy()
        if self.kind in OF_TYPE and self.held:
            made.held += by
        for at in self.places():
            if made.rest[at]:
                made.rest[at] += by
        return made


class Table:
    """Types by their ids, from 1 on, with a size for each; 0 where none is known."""

    def __init__(self):
        self.types, self.sizes = [], [0]
        self.found = {}

    def __len__(self):
        return len(self.types)

    def append(self, made, size=0):
        self.types.append(made)
        self.sizes.append(size)
        return len(self.types)

    def add(self, kind, name="", held=0, rest=(), entries=0, flag=0, size=0):
        return self.append(Type(kind, name, held, list(rest), entries, flag), size)

    def kind(self, number):
        return self.types[number - 1].kind if 0 < number <= len(self.types) else 0

    def integer(self, name, size, encoding=0):
        return self.add(INT, name, size, [encoding << 24 | 8 * size], size=size)

    def pointer(self, held):
        return self.add(PTR, "", held, size=8)

    def array(self, held, length):
        return self.add(ARRAY, "", 0, [held, held, length], size=self.sizes[held] * length)

    def modified(self, kind, name, held):
        return self.add(kind, name, held, size=self.sizes[held] if held < len(self.sizes) else 0)

    def function(self, name, prototype, linkage=1):
        return self.add(FUNC, name, prototype, entries=linkage)

    def variable(self, name, held, linkage=1):
        return self.add(VAR, name, held, [linkage])

    def datasec(self, name, rows):
        return self.add(DATASEC, name, 0, [word for row in rows for word in row], entries=len(rows))

    def words(self, strings):
        found = []
        for of in self.types:
            found += [strings.offset(of.name), of.flag << 31 | of.kind << 24 | of.entries]
            found.append(of.held)
            found += [word if type(word) is int else strings.offset(word) for word in of.rest]
        return found

    def bytes(self, strings, order=LITTLE):
        """Type information: its header, the types and the strings, to which the names are added."""
        numbers = self.words(strings)
        types = struct.pack(f"{order}{len(numbers)}I", *numbers)
        sizes = struct.pack(f"{order}5I", 24, 0, len(types), len(types), len(strings.data))
        return magic(order) + sizes + types + strings.data

    def of_kinds(self, kinds):
        """The types of these kinds, and those that stand for one."""
        count, found = self.found.get(kinds, (0, None))
        if count != len(self.types):
            found = [number for number in range(1, len(self) + 1) if self.kind(self.resolved(number)) in kinds]
            self.found[kinds] = len(self.types), found
        return found

    def resolved(self, number):
        """The type that typedefs and their like stand for."""
        for _ in range(40):
            if self.kind(number) not in MODIFIERS:
                break
            number = self.types[number - 1].held
        return number


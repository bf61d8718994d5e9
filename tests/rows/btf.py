"""Small type information: bytes of `.BTF` and `.BTF.ext`, in either byte order."""
import struct

INT, PTR, ARRAY, STRUCT, UNION, ENUM, FWD, TYPEDEF, VOLATILE, CONST = range(1, 11)
RESTRICT, FUNC, FUNC_PROTO, VAR, DATASEC, FLOAT, DECL_TAG, TYPE_TAG, ENUM64 = range(11, 20)

LITTLE, BIG = "<", ">"


def words(numbers, order=LITTLE):
    """The bytes of numbers of four bytes."""
    return struct.pack(f"{order}{len(numbers)}I", *numbers)


class Strings:
    """The strings of type information in the making."""

    def __init__(self):
        self.data = b"\0"

    def offset(self, name):
        """The offset of a name, which is added; no name has offset 0, and a number is the offset itself."""
        if isinstance(name, int):
            return name
        if not name:
            return 0
        at = len(self.data)
        self.data += name.encode() + b"\0"
        return at


def ty(name, kind, *rest, entries=0, flag=0):
    """A type: a name or its offset, a kind, and the words behind these. Its number of entries and its flag are said.
    Names among the words behind are texts too."""
    info = flag << 31 | kind << 24 | entries
    return lambda strings: [strings.offset(name), info] + [strings.offset(word) for word in rest]


def integer(name, size):
    return ty(name, INT, size, 8 * size)


def pointer(target):
    return ty("", PTR, target)


def array(element, length, index=None):
    return ty("", ARRAY, 0, element, element if index is None else index, length)


def struct_of(name, size, *members):
    """A STRUCT, whose members have a name, a type and a bit offset."""
    return ty(name, STRUCT, size, *(word for member in members for word in member), entries=len(members))


def typedef(name, target):
    return ty(name, TYPEDEF, target)


def function(name, prototype):
    return ty(name, FUNC, prototype)


def prototype(result, *parameters):
    """A FUNC_PROTO, whose parameters have types and no names."""
    return ty("", FUNC_PROTO, result, *(word for held in parameters for word in (0, held)), entries=len(parameters))


def variable(name, held):
    return ty(name, VAR, held, 1)


def datasec(name, *entries):
    """A DATASEC with types."""
    return ty(name, DATASEC, 0, *(word for held in entries for word in (held, 0, 0)), entries=len(entries))


def type_words(types, strings):
    return [word for of in types for word in of(strings)]


def magic(order):
    return struct.pack(f"{order}HBB", 0xEB9F, 1, 0)


def with_strings(numbers, strings, order=LITTLE):
    """Types by their words and then strings, after a header of 24 bytes."""
    types = words(numbers, order)
    start = magic(order) + words([24, 0, len(types), len(types), len(strings)], order)
    return start + types + strings


def btf(*types, strings=None, order=LITTLE):
    """Type information. The strings are those of the types, or the ones that are given."""
    made = Strings()
    numbers = type_words(types, made)
    return with_strings(numbers, made.data if strings is None else strings, order)


def ext(funcs=(), lines=(), relocations=(), records=(), order=LITTLE):
    """`.BTF.ext` of the words of its parts, after a header of 32 bytes. The words of `records` follow those of
    relocations, and are little endian in each file."""
    parts = [words(funcs, order), words(lines, order), words(relocations, order) + words(records)]
    lengths = [len(part) for part in parts]
    places = [0, lengths[0], lengths[0], lengths[1], lengths[0] + lengths[1], lengths[2]]
    return magic(order) + words([32] + places, order) + b"".join(parts)

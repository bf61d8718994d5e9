"""Sizes of integers, enumerations and pointers that a kernel has otherwise: where a record asks for one, and where a load
or store moves another number of bytes than in the object."""
from checked.objects import Asks, found, object_of, one_kernel, program, wide
from checked.telling import changed_value
from rows.btf import ENUM, INT, array, btf, integer, pointer, struct_of, ty, typedef
from rows.core_sides import INT_4, LOAD, MOVE, OFFSET, SIZE, TYPE_SIZE
from rows.elf import EXIT, slot

# A store of a register's four bytes, and one of an immediate's.
STORE, STORE_NUMBER = slot(0x63, 0x21), slot(0x62, 1)


def unsigned(size):
    return ty("", INT, size, 8 * size)


def enum_of_size(size):
    return ty("e", ENUM, size, "A", 1, entries=1)


def fields(*types):
    """Types, and `struct s { T a, b; T v[2]; }` of the last of them, with members at multiples of 8 bytes."""
    last = len(types)
    return [*types, array(last, 2), struct_of("s", 64, ("a", last, 0), ("b", last, 64), ("v", last + 1, 128))]


def asking(types, *asked):
    """A program that asks of the last of these types."""
    return object_of([program(*(Asks(slots, kind, len(types), access) for slots, kind, access in asked), EXIT)], types)


A_4_8 = changed_value("struct s.a  <byte_sz>", 4, "8 on kernel")


def moved_sizes(rows):
    """A load or store whose field has another size: the slot is written so, where that is possible."""
    small, large = fields(unsigned(4)), fields(unsigned(8))
    for name, slots in [("a load", LOAD), ("a store", STORE), ("a store of a number", STORE_NUMBER)]:
        one_kernel(rows, name, asking(small, (slots, OFFSET, "0:0")), btf(*large), more=A_4_8)
        one_kernel(rows, f"{name} of the same size", asking(small, (slots, OFFSET, "0:0")), btf(*small))
    less = changed_value("struct s.a  <byte_sz>", 8, "4 on kernel")
    one_kernel(rows, "a load of less", asking(large, (LOAD, OFFSET, "0:0")), btf(*small), more=less)
    for name, slots in [("a place in a number", MOVE), ("a place in a wide load", wide(1, 0))]:
        one_kernel(rows, name, asking(small, (slots, OFFSET, "0:0")), btf(*large), words=["--all"])
    of = lambda size: fields(unsigned(size), typedef("t", 1))
    one_kernel(rows, "a load of a named type", asking(of(4), (LOAD, OFFSET, "0:0")), btf(*of(8)), more=A_4_8)
    element = changed_value("struct s.v[1]  <byte_sz>", 4, "8 on kernel")
    one_kernel(rows, "a load of an element", asking(small, (LOAD, OFFSET, "0:2:1")), btf(*large), more=element)
    both = asking(small, (LOAD, OFFSET, "0:0"), (MOVE, SIZE, "0:0"), (STORE, OFFSET, "0:0"))
    one_kernel(rows, "a load, a size and a store", both, btf(*large), more=A_4_8)
    away = btf(unsigned(8), struct_of("s", 16, ("a", 1, 64)))
    told = changed_value("struct s.a  <byte_off>", 0, "8 on kernel") + A_4_8.split("\n", 1)[1]
    one_kernel(rows, "a load, and all is told", asking(small, (LOAD, OFFSET, "0:0")), away, more=told, words=["--all"])


def refused_sizes(rows):
    """A load that can't be written is refused, and nothing else is told of it."""
    reason = "refused: CO-RE relocation 0 is at instruction 0, and code 0x61 can't carry 0"
    breaks = [found(f"struct s.a  <byte_off>  {reason}", "p slot 0")]
    pairs = [
        ("a number with a sign", [INT_4], [ty("", INT, 8, 0x01000040)]),
        ("an enumeration", [enum_of_size(4)], [enum_of_size(8)]),
    ]
    for name, own, other in pairs:
        one_kernel(rows, name, asking(fields(*own), (LOAD, OFFSET, "0:0")), btf(*fields(*other)), breaks)
    same = fields(unsigned(4), pointer(1))
    one_kernel(rows, "a pointer", asking(same, (LOAD, OFFSET, "0:0")), btf(*fields(unsigned(8), pointer(1))))


def type_sizes(rows):
    """Sizes of types as a whole."""
    pairs = [
        ("int n", [integer("n", 4)], [integer("n", 8)]),
        ("enum e", [enum_of_size(4)], [enum_of_size(8)]),
        ("typedef t", [integer("n", 4), typedef("t", 1)], [integer("n", 8), typedef("t", 1)]),
    ]
    for name, own, other in pairs:
        told = changed_value(f"{name}  <type_size>", 4, "8 on kernel")
        one_kernel(rows, f"the size of {name}", asking(own, (MOVE, TYPE_SIZE, "0")), btf(*other), more=told)
        one_kernel(rows, f"the same size of {name}", asking(own, (MOVE, TYPE_SIZE, "0")), btf(*own))
    of = lambda size: [unsigned(4), struct_of("s", size, ("a", 1, 0)), typedef("t", 2)]
    one_kernel(rows, "the size of a struct's name", asking(of(4), (MOVE, TYPE_SIZE, "0")), btf(*of(8)))


ROWS = [moved_sizes, refused_sizes, type_sizes]

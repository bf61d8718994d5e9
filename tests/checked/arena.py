"""An object with an arena and a variable outside it."""
from rows.btf import array, btf, datasec, integer, pointer, struct_of, variable
from rows.elf import EXIT, FUNCTION, NOBITS, OBJECT, PROGBITS, File

# `arena`, of type 33 and one page.
TYPES = [
    integer("int", 4),
    array(1, 33),
    pointer(2),
    array(1, 1),
    pointer(4),
    struct_of("", 16, ("type", 3, 0), ("max_entries", 5, 64)),
    variable("arena", 6),
    datasec(".maps", 7),
]


def object_of_arena():
    """The object: `first` and `second` are in the arena, `other` is in `.bss`."""
    file = File().code("xdp", EXIT).section(".maps", PROGBITS, 3, bytes(16)).section(".addr_space.1", PROGBITS, 3, bytes(12))
    file.section(".bss", NOBITS, 3, b"", size=8).data(".BTF", btf(*TYPES))
    file.symbol("p", FUNCTION, 3, 0, 8).symbol("arena", OBJECT, 4, 0, 16)
    file.symbol("second", OBJECT, 5, 4, 8).symbol("first", OBJECT, 5, 0, 4).symbol("other", OBJECT, 6, 0, 8)
    return file.bytes()

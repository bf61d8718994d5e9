"""Objects with maps of struct_ops."""
from rows.btf import btf, datasec, integer, pointer, prototype, struct_of, variable
from rows.elf import EXIT, FUNCTION, OBJECT, PROGBITS, File

# The type of a relocation of an address of 64 bits.
ABS64 = 2
# The ids of `int` and of a pointer to a function.
INT, POINTER = 1, 3


def programs_of(sections):
    """The names of the programs, each once."""
    found = [program for maps in sections.values() for _, _, members in maps for program in members.values()]
    return [name for name in dict.fromkeys(found) if name]


def types_of(sections):
    """The types of the maps: a struct and a variable of each, and a DATASEC of each section."""
    types = [integer("int", 4), prototype(INT), pointer(2)]
    for section, maps in sections.items():
        held = []
        for name, struct, members in maps:
            places = enumerate(members.items())
            types.append(struct_of(struct, 8 * len(members), *((it, POINTER if put else INT, 64 * at) for at, (it, put) in places)))
            types.append(variable(name, len(types)))
            held.append(len(types))
        types.append(datasec(section, *held))
    return types


def object_of_ops(sections, extra=None, has_types=True):
    """An object of maps by their sections. A map is its name, the name of its struct, and the programs by members, `None` for
    a member that is a number; each member has 8 bytes. `extra` is a relocation of the first section: an offset and a program."""
    file, symbols, put = File(), {}, []
    for name in programs_of(sections):
        file.code(f"struct_ops/p{len(symbols)}", EXIT)
        symbols[name] = len(symbols) + 1
        file.symbol(name, FUNCTION, 2 + symbols[name], 0, 8)
    number = 3 + len(symbols)
    if has_types:
        file.data(".BTF", btf(*types_of(sections)))
        number += 1
    for section, maps in sections.items():
        start, found = 0, []
        for name, _, members in maps:
            file.symbol(name, OBJECT, number, start, 8 * len(members))
            found += [(start + 8 * at, symbols[it], ABS64) for at, it in enumerate(members.values()) if it]
            start += 8 * len(members)
        file.section(section, PROGBITS, 3, bytes(start))
        put.append((number, found))
        number += 1
    if extra:
        put[0][1].append((extra[0], symbols[extra[1]], ABS64))
    for section, found in put:
        file.relocations(section, found)
    return file.bytes()


# Two maps that are made, and one that is made if asked for.
OPS = object_of_ops({
    ".struct_ops": [("plain", "small_ops", {"init": "begin", "flags": None, "stop": "end"}), ("empty", "no_ops", {"flags": None})],
    "?.struct_ops.link": [("asked", "small_ops___newer", {"stop": "end"})],
})

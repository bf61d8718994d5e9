"""BTF-defined maps, variables of data sections, and extern declarations of the kernel and of its configuration."""
from fuzzing import names, some_types
from rows.btf import ARRAY, CONST, ENUM, ENUM64, FUNC_PROTO, STRUCT, TYPEDEF

EXTERN = 2

NUMBERS = ["type", "max_entries", "key_size", "value_size", "map_flags", "numa_node", "map_extra", "other", "pinning"]


class Extern:
    """A name, its type, whether it is a function, and the section of the types that has it."""

    def __init__(self, name, held, is_function, section):
        self.name, self.held, self.is_function, self.section = name, held, is_function, section


def number(chance, table, wanted=None):
    """A number as the length of an array that a pointer points to."""
    length = chance.choice([0, 1, 2, 4, 8, 12, 13, 64, 2**32 - 1]) if wanted is None else wanted
    return table.pointer(table.add(ARRAY, "", 0, [1, 1, length], size=4 * length % 2**32))


def large(chance, table):
    """A number as the only value of an enumeration."""
    if chance.one_in(2):
        return table.add(ENUM, "", 4, ["V", chance.getrandbits(32)], 1, chance.randrange(2), size=4)
    return table.add(ENUM64, "", 8, ["V", chance.getrandbits(32), chance.getrandbits(32)], 1, chance.randrange(2), size=8)


def member_of_map(chance, table, depth):
    """A member's name and type. Large numbers and functions in the place of maps are for lenient parsing."""
    kind = chance.randrange(8)
    if kind < 4:
        name = chance.choice(NUMBERS if depth == 0 or chance.bad(2) else NUMBERS[:-1])
        if name == "pinning":
            return name, number(chance, table, 2 if chance.bad(3) else chance.randrange(2))
        return name, large(chance, table) if name == "map_extra" and chance.bad(1) else number(chance, table)
    if kind < 7 or depth and not chance.bad(2):
        return chance.choice(["key", "value"]), table.pointer(some_types.sized(chance, table))
    if not chance.bad(1):
        held = shape(chance, table, depth + 1)
    else:
        held = table.add(FUNC_PROTO, "", 1, ["", 1], 1)
    return "values", table.add(ARRAY, "", 0, [table.pointer(held), 1, chance.choice([1, 4]) if chance.bad(3) else 0], size=8)


def shape(chance, table, depth=0):
    """The STRUCT that declares a map."""
    rest = []
    for _ in range(chance.randrange(7)):
        name, held = member_of_map(chance, table, depth)
        rest += [name, held, 64 * (len(rest) // 3) + 64]
    first = ["type", number(chance, table, chance.choice([1, 2, 12, 13, 3, 27, 33, 35 if chance.bad(3) else 1])), 0]
    return table.add(STRUCT, "", 8 * len(rest) // 3 + 8, [*first, *rest], len(rest) // 3 + 1, size=8 * len(rest) // 3 + 8)


def map_rows(chance, table, wanted):
    """The DATASEC entries of maps of these names."""
    rows = []
    for at, name in enumerate(wanted):
        held = some_types.any_of(chance, table) if chance.bad(10) else shape(chance, table)
        if chance.one_in(6):
            held = table.modified(TYPEDEF, "map", held)
        rows.append((table.variable(name, held), 32 * at, 32))
    return rows


def variable_rows(chance, table, wanted):
    """The DATASEC entries of variables of data, each at a place and of a size."""
    return [(table.variable(name, some_types.sized(chance, table), chance.randrange(3)), at, size) for name, at, size in wanted]


def ksym(chance, table):
    """A function or a variable of the kernel, typed or of void."""
    name = chance.choice(names.EXTERNS)
    kind = chance.randrange(5)
    if kind < 2:
        held = some_types.prototype(chance, table)
        return Extern(name, table.function(name, held, EXTERN), True, ".ksyms"), held
    if kind == 2:
        held = some_types.any_of(chance, table)
    else:
        held = 0 if chance.one_in(2) else table.modified(CONST, "", 0 if kind == 3 else some_types.any_of(chance, table))
    return Extern(name, table.variable(name, held, EXTERN), False, ".ksyms"), held


def setting(chance, table):
    """A setting of the kernel's configuration: a number, a text, an answer."""
    name = chance.choice(names.SETTINGS)
    held = chance.choice([1, table.integer("_Bool", 1, 4), table.integer("unsigned long", 8)])
    if chance.one_in(3):
        held = table.array(table.integer("char", 1, 1), chance.choice([0, 1, 16]))
    elif chance.one_in(3):
        rest = ["TRI_NO", 0, "TRI_YES", 1, "TRI_MODULE", 2]
        held = table.add(ENUM, "libbpf_tristate", 4, rest, 3, size=4)
    return Extern(name, table.variable(name, held, EXTERN), False, ".kconfig"), held


def externs(chance, table):
    """Externs and the types that a kernel has them of. Their sections are added to the types."""
    made = [ksym(chance, table) for _ in range(chance.choice([0, 1, 2, 3, 5]))]
    made += [setting(chance, table) for _ in range(chance.choice([0, 0, 0, 1, 2]))]
    for section in (".ksyms", ".kconfig"):
        rows = [(of.held, 0, table.sizes[held] if held < len(table.sizes) else 0) for of, held in made if of.section == section]
        if chance.bad(10):
            rows.append((some_types.any_of(chance, table), 0, 4))
        if rows:
            table.datasec(section, [tuple(word % 2**32 for word in row) for row in rows])
    return made


__all__ = ["PTR", "externs", "map_rows", "variable_rows"]

"""Types at random, of each kind, with the shapes that have limits."""
from fuzzing import names
from fuzzing.type_table import MODIFIERS
from rows.btf import DECL_TAG, ENUM, ENUM64, FLOAT, FUNC_PROTO, FWD, STRUCT, TYPEDEF, TYPE_TAG, UNION

# 32 steps of types, and 64 members without a name, are the most.
STEPS, LEVELS = range(30, 36), range(62, 67)

LENGTHS = [0, 1, 2, 3, 4, 16, 2**16, 2**29, 2**32 - 1]


def any_of(chance, table):
    """One of the types, or nothing; now and then one that comes later or never."""
    if chance.one_in(30):
        return 0
    if chance.bad(20):
        return len(table) + chance.randrange(1, 4)
    return chance.randrange(1, len(table) + 1)


def known(chance, table):
    """One of the types that are there."""
    return chance.randrange(1, len(table) + 1)


def sized(chance, table):
    """One of the types that have a size; the first one where a few tries find none."""
    for _ in range(4):
        number = known(chance, table)
        if 0 < table.sizes[number] < 2**31:
            return number
    return known(chance, table) if chance.bad(3) else 1


def integer(chance, table):
    size = chance.choice([1, 2, 4, 4, 8, 8, 16])
    return table.integer(chance.choice(["int", "long", "char", "", "u32", "_Bool"]), size, chance.choice([0, 1, 1, 2, 4]))


def pointer(chance, table):
    return table.pointer(any_of(chance, table))


def array(chance, table):
    length = chance.choice(LENGTHS) if chance.one_in(12) else chance.randrange(1, 9)
    return table.array(sized(chance, table), length)


def placed(chance, table, count, is_union):
    """The words of so many members, one behind the other, and the size that they take."""
    rest, at, size = [], 0, 0
    for _ in range(count):
        held = sized(chance, table)
        name = chance.choice(names.MEMBERS)
        if table.kind(table.resolved(held)) in (STRUCT, UNION) and chance.one_in(2) or chance.bad(10):
            name = ""
        rest += [name, held, 0 if is_union else min(8 * at, 2**32 - 8)]
        at += table.sizes[held]
        size = max(size, table.sizes[held])
    return rest, min(size if is_union else at, 2**32 - 1)


def aggregate(chance, table):
    count = 40 if chance.one_in(60) else max(chance.some(8), 0 if chance.bad(2) else 1)
    kind = UNION if chance.one_in(4) else STRUCT
    rest, size = placed(chance, table, count, kind == UNION)
    return table.add(kind, names.of_type(chance), size, rest, count, size=size)


def bit_fields(chance, table):
    """A STRUCT with bit fields of a number of bits each."""
    rest, at = [], 0
    for _ in range(chance.randrange(1, 6)):
        bits = chance.choice([33, 64, 255] if chance.bad(4) else [0, 1, 3, 8, 17, 31, 32])
        rest += [chance.choice(names.MEMBERS), sized(chance, table), at | bits << 24]
        at += bits or 32
    return table.add(STRUCT, names.of_type(chance), (at + 31) // 32 * 4, rest, len(rest) // 3, 1, size=(at + 31) // 32 * 4)


def enumeration(chance, table):
    count = max(chance.some(6), 0 if chance.bad(2) else 1)
    wide = chance.one_in(3)
    rest = []
    for _ in range(count):
        rest += [chance.choice(names.VARIANTS), chance.choice([0, 1, 7, 2**31, 2**32 - 1])]
        rest += [chance.choice([0, 1, 2**31, 2**32 - 1])] if wide else []
    size = chance.choice([1, 2, 4, 8, 16, 0]) if chance.bad(6) else 8 if wide else 4
    return table.add(ENUM64 if wide else ENUM, names.of_type(chance), size, rest, count, chance.randrange(2), size=size)


def modifier(chance, table):
    kind = chance.choice(MODIFIERS)
    name = names.of_type(chance) if kind in (TYPEDEF, TYPE_TAG) else ""
    return table.modified(kind, name, any_of(chance, table))


def prototype(chance, table):
    count = chance.some(5)
    rest = [word for _ in range(count) for word in (chance.choice(["", "a", "context"]), any_of(chance, table))]
    if chance.one_in(10):
        rest, count = [*rest, "", 0], count + 1
    return table.add(FUNC_PROTO, "", any_of(chance, table), rest, count)


def declared(chance, table):
    return table.add(FWD, names.of_type(chance), flag=chance.randrange(2))


def real(chance, table):
    return table.add(FLOAT, "double", chance.choice([2, 4, 8, 12, 16]), size=8)


def tag(chance, table):
    return table.add(DECL_TAG, "a tag", known(chance, table), [chance.choice([0, 1, 2**32 - 1])])


def list_of_itself(chance, table):
    """A STRUCT that a pointer in it points to."""
    number = len(table) + 2
    table.pointer(number)
    return table.add(STRUCT, "list", 16, ["next", number - 1, 0, "prev", number - 1, 64], 2, size=16)


MAKERS = [integer, pointer, pointer, array, array, aggregate, aggregate, aggregate, aggregate, bit_fields, enumeration]
MAKERS += [enumeration, modifier, modifier, prototype, declared, real, tag, list_of_itself]


def steps(chance, table):
    """A chain of types that stand for each other."""
    held = known(chance, table)
    for _ in range(chance.choice(STEPS)):
        held = table.modified(TYPEDEF, "t", held)
    return held


def levels(chance, table):
    """Members without a name inside others."""
    held, size = known(chance, table), 8
    for _ in range(chance.choice(LEVELS)):
        held = table.add(STRUCT, "", size, ["", held, chance.choice([0, 8])], 1, size=size)
    return table.add(STRUCT, "s", size, ["", held, 0, "b", 1, 32], 2, size=size)


def wide(chance, table):
    """A STRUCT with many members."""
    rest = [word for at in range(chance.choice([255, 256, 1000])) for word in (f"m{at}", 1, 32 * at)]
    return table.add(STRUCT, "s", len(rest) // 3 * 4, rest, len(rest) // 3, size=len(rest) // 3 * 4)


def crowd(chance, table):
    """Many STRUCTs of one name, which is long now and then; some with a flavor."""
    is_long = chance.one_in(3)
    name = names.LONG if is_long else "s"
    for _ in range(chance.randrange(2, 6) if is_long else chance.choice([20, 100, 300])):
        flavor = chance.choice(names.FLAVORS) if chance.one_in(4) else ""
        rest, size = placed(chance, table, chance.randrange(1, 4), False)
        table.add(STRUCT, name + flavor, size, rest, len(rest) // 3, size=size)


def fill(chance, table):
    """Adds types."""
    table.integer("int", 4, 1)
    aggregate(chance, table)
    enumeration(chance, table)
    for _ in range(chance.choice([2, 4, 6, 10, 16, 30])):
        chance.choice(MAKERS)(chance, table)
    if chance.one_in(20):
        chance.choice([steps, levels, levels, wide, crowd, crowd])(chance, table)

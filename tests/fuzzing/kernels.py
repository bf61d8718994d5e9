"""A kernel made to match: types that are an object's own, changed in places, and lines of symbols."""
from fuzzing import names, some_types
from fuzzing.chances import EDGES
from fuzzing.type_table import Strings, Table
from rows.btf import ARRAY, ENUM, ENUM64, FUNC, INT, STRUCT, UNION, VAR


def members_moved(chance, of, _table):
    """Each member lies a word further."""
    for at in range(2, len(of.rest), 3):
        of.rest[at] = (of.rest[at] + 64) % 2**32


def member_lost(chance, of, _table):
    at = 3 * chance.randrange(len(of.rest) // 3)
    del of.rest[at : at + 3]
    of.entries -= 1


def member_turned(chance, of, _table):
    """The first member is the last."""
    of.rest = of.rest[3:] + of.rest[:3]


def member_of_other_type(chance, of, table):
    of.rest[3 * chance.randrange(len(of.rest) // 3) + 1] = some_types.any_of(chance, table)


def member_inside(chance, of, table):
    """A member lies in one without a name."""
    at = 3 * chance.randrange(len(of.rest) // 3)
    inner = table.add(STRUCT, "", of.held, [of.rest[at], of.rest[at + 1], 0], 1, size=of.held % 2**16)
    of.rest[at : at + 3] = ["", inner, of.rest[at + 2]]


def member_before(chance, of, _table):
    of.rest = ["new", 1, 0, *of.rest]
    of.entries += 1


def bits_stated(chance, of, _table):
    of.flag = 1
    at = 3 * chance.randrange(len(of.rest) // 3) + 2
    of.rest[at] = of.rest[at] % 2**24 | chance.choice([1, 4, 31, 32, 64]) << 24


MEMBERS = [members_moved, member_lost, member_turned, member_of_other_type, member_inside, member_before, bits_stated]


def values_changed(chance, of, _table):
    width = 2 if of.kind == ENUM else 3
    if of.rest:
        of.rest[width * chance.randrange(len(of.rest) // width) + 1] = chance.choice([0, 5, 2**31, 2**32 - 1])


def variant_lost(chance, of, _table):
    width = 2 if of.kind == ENUM else 3
    if of.rest:
        at = width * chance.randrange(len(of.rest) // width)
        del of.rest[at : at + width]
        of.entries -= 1


def variants_wide(chance, of, _table):
    """An enumeration of 64 bits in the place of one of 32."""
    if of.kind == ENUM:
        of.kind, of.held = ENUM64, 8
        of.rest = [word for at in range(0, len(of.rest), 2) for word in (of.rest[at], of.rest[at + 1], 0)]


def size_changed(chance, of, _table):
    of.held = chance.choice([0, 1, 2, 4, 8, 16, 2**29, 2**32 - 1])


def length_changed(chance, of, _table):
    of.rest[2] = chance.choice(some_types.LENGTHS)


def changed(chance, of, table):
    """Changes a type as one of its kind."""
    if of.kind in (STRUCT, UNION) and of.rest:
        chance.choice(MEMBERS)(chance, of, table)
    elif of.kind in (ENUM, ENUM64):
        chance.choice([values_changed, variant_lost, variants_wide])(chance, of, table)
    elif of.kind in (STRUCT, UNION, INT):
        size_changed(chance, of, table)
    elif of.kind == ARRAY:
        length_changed(chance, of, table)


def copied(chance, local, table, each):
    """The object's types behind those that are there, without flavors; one in `each` is changed."""
    by = len(table)
    copies = [of.moved(by) for of in local.types]
    for of, size in zip(copies, local.sizes[1:]):
        of.name = names.without_flavor(of.name) if isinstance(of.name, str) else of.name
        table.append(of, size)
    for of in copies:
        if each and chance.one_in(each):
            changed(chance, of, table)


def extern_of(chance, table, name, held, is_function):
    """What a kernel has of an extern: mostly the same, else another type or kind, or nothing."""
    kind = chance.randrange(10)
    if kind == 0:
        return
    held = some_types.any_of(chance, table) if kind < 3 else held
    if is_function != (kind == 3):
        table.add(FUNC, name, held, entries=1)
    else:
        table.add(VAR, name, held, [1])


def types_of(chance, local, externs):
    """The bytes of a kernel's types: for an object's types and its externs, each a name, a type and whether it is a
    function."""
    table = Table()
    table.integer("long", 8, 1)
    for _ in range(chance.choice([0, 0, 1, 5])):
        chance.choice(some_types.MAKERS)(chance, table)
    by = len(table)
    copied(chance, local, table, chance.choice([0, 0, 20, 5, 2]))
    if chance.one_in(6):
        copied(chance, local, table, chance.choice([0, 3]))
    for name, held, is_function in externs:
        extern_of(chance, table, name, held + by if held else 0, is_function)
    return table.bytes(Strings())


def line(chance, name):
    address = chance.choice([0x1000, 0xFFFFFFFF81000000, 1, chance.getrandbits(64), chance.choice(EDGES)])
    module = chance.choice(["", "", "", " [m]", "\t[m]", "\r"])
    return f"{address:016x} {chance.choice('DdTtBbRAVW')} ".encode() + name + f"{module}\n".encode()


def lines_of(chance, externs):
    """Symbols: lines of the externs among others, some twice, some damaged."""
    found = [line(chance, b"other")] * chance.choice([0, 1, 3, 100])
    for name, _, _ in externs:
        written = name if isinstance(name, bytes) else name.encode()
        found += [line(chance, written)] * chance.choice([0, 1, 1, 1, 2])
        if chance.one_in(15):
            found.append(line(chance, written))
    if chance.one_in(10):
        found.append(chance.choice([b"\xff\n", b"\n", b"x\n", b"1000\n", b"1000 D\n", b"1" * 17 + b" D a\n", b"a" * 9000]))
    chance.shuffle(found)
    return b"".join(found)

"""Access strings: where a path leads in a type, right ones and damaged ones."""
from rows.btf import ARRAY, ENUM, ENUM64, STRUCT, UNION

# 64 parts are the most.
LONG = [62, 63, 64, 65, 66, 1000, 8000]

PARTS = ["", "x", "-1", "+1", "01", " 1", "1 ", "4294967295", "4294967296", "18446744073709551616", "0x1", "\u0661", "9" * 400]

WHOLE = ["", ":", "0:", ":0", "0::0", "0:0:", b"\xff", b"0:\xc3", "0" * 3000, "0:" * 3000]


def step(chance, table, at):
    """A step into a type: its number and where it leads; None where there is none."""
    kind = table.kind(at)
    rest = table.types[at - 1].rest if kind else []
    if kind in (STRUCT, UNION) and rest:
        number = chance.randrange(len(rest) // 3)
        return number, table.resolved(rest[3 * number + 1])
    if kind == ARRAY:
        return chance.randrange(min(max(rest[2], 1), 2**32)), table.resolved(rest[0])
    return None


def of_field(chance, table, number):
    """The parts of a path into a type, as far as it goes."""
    parts = [chance.choice([1, 7, 2**31]) if chance.one_in(20) else 0]
    at = table.resolved(number)
    for _ in range(chance.choice([0, 1, 1, 1, 2, 2, 3, 5, 12, 70])):
        found = step(chance, table, at)
        if found is None:
            break
        parts.append(found[0])
        at = found[1]
    return parts


def of_variant(chance, table, number):
    at = table.resolved(number)
    width = {ENUM: 2, ENUM64: 3}.get(table.kind(at))
    count = len(table.types[at - 1].rest) // width if width else 0
    return [chance.randrange(count) if count else 0]


def damaged(chance, parts):
    """Another string in the place of these parts."""
    kind = chance.randrange(6)
    if kind == 0:
        return chance.choice(WHOLE)
    if kind == 1:
        return ":".join(["0"] * chance.choice(LONG))
    parts = [str(part) for part in parts]
    at = chance.randrange(len(parts))
    if kind == 2:
        parts[at] = chance.choice(PARTS)
    elif kind == 3:
        parts[at] = str(int(parts[at]) + chance.choice([1, 2, 64]))
    elif kind == 4:
        parts.append(str(chance.randrange(4)))
    else:
        del parts[at]
    return ":".join(parts)


def access(chance, table, number, asked):
    """The string of a record that asks something of a type: of a field, of the type, of a variant."""
    if asked < 6:
        parts = of_field(chance, table, number)
    elif asked in (10, 11):
        parts = of_variant(chance, table, number)
    else:
        parts = [0]
    return damaged(chance, parts) if chance.bad(3) else ":".join(map(str, parts))

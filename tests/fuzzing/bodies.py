"""Functions in the making: their slots, what these refer to, and the records by types that are on them."""
from fuzzing import paths
from fuzzing.some_types import any_of
from rows.btf import ENUM, ENUM64, STRUCT, UNION
from rows.elf import CALL32, CALL_CODE, EXIT, LOAD64, NOTHING, slot

PLAIN = [slot(0xB7, 1, imm=7), slot(0xBF, 0x21), slot(0x07, 1, imm=-8), slot(0x7B, 0x1A, -8), slot(0x55, 1, 1), slot(0x05)]
PLAIN += [slot(CALL_CODE, imm=1), slot(CALL_CODE, imm=112), slot(CALL_CODE, imm=115), slot(0xDB, 0x12), slot(0x18, 1) + NOTHING, EXIT]

# Slots that a record by types may be on: loads, stores, operations with a number, a wide load; and others.
CORE = [slot(code, 0x12, 4) for code in (0x61, 0x69, 0x71, 0x79, 0x81, 0x89, 0x91, 0x62, 0x6A, 0x72, 0x7A, 0x63, 0x73, 0x7B)]
CORE += [slot(0xB7, 1, imm=4), slot(0x07, 1, imm=4), slot(0x67, 1, imm=4), slot(0x77, 1, imm=4), slot(0xB4, 1, imm=4)]
CORE += [slot(0xB7, 1, imm=4)] * 8 + [slot(0x18, 1, imm=4) + NOTHING] * 4
NO_CORE = [slot(0xBF, 0x21), slot(CALL_CODE, imm=1), slot(0x18, 1), EXIT, slot(0x61, 0x12, 0x7FFF)]

# What a record asks; what newer compilers make, and what is no kind.
ASKED = range(12)
NEWER = [12, 12, 13, 2**32 - 1]

# The number in a reference's slot: what a call of a symbol has, and what is added to one of a section.
ADDED = [-1, -1, -1, 0, 1, 8, 7, 2**31 - 1, -(2**31)]


class Body:
    """A function: slots, references (a place, a target, a type of relocation), records by types."""

    def __init__(self, name, binding):
        self.name, self.binding = name, binding
        self.slots = bytearray()
        self.references, self.records = [], []

    def refer(self, target, kind):
        self.references.append((len(self.slots), target, kind))


def of_kinds(chance, table, kinds):
    """A type of one of these kinds, or one that stands for one; now and then any."""
    found = table.of_kinds(kinds)
    return any_of(chance, table) if not found or chance.bad(6) else chance.choice(found)


def record(chance, body, table):
    """A slot with a record that asks something of a type."""
    asked = chance.choice(NEWER if chance.bad(10) else ASKED)
    if asked < 6:
        held = of_kinds(chance, table, (STRUCT, UNION))
    elif asked in (10, 11):
        held = of_kinds(chance, table, (ENUM, ENUM64))
    else:
        held = any_of(chance, table)
    at = len(body.slots)
    for _ in range(2 if chance.one_in(25) else 1):
        body.records.append((at, held, paths.access(chance, table, held, asked), asked))
    body.slots += chance.choice(NO_CORE if chance.bad(6) else CORE)


def call(chance, body, targets):
    target = chance.choice(targets)
    body.refer(target, LOAD64 if chance.bad(8) else CALL32)
    body.slots += slot(CALL_CODE, 0x10, imm=-1 if target[0] != "section" or not chance.bad(2) else chance.choice(ADDED))


def load(chance, body, targets):
    target = chance.choice(targets)
    body.refer(target, chance.choice([0, 2, 3, 4, 10]) if chance.bad(8) else LOAD64)
    added = chance.choice(ADDED) if chance.bad(3) else 0
    body.slots += slot(0x18, 1 | (chance.choice([16, 64]) if chance.bad(5) else 0), imm=added) + NOTHING


def by_place(chance, body, _targets):
    """A call of a function by its place, without a relocation."""
    body.slots += slot(CALL_CODE, 0x10, imm=chance.choice([1, -2, 2, 5, 2**31 - 1]) if chance.bad(2) else -1 - len(body.slots) // 8)


def fill(chance, body, table, called, loaded):
    """Adds slots. Called are functions, loaded are data, maps and what is extern, each as a target."""
    if len(table) and chance.one_in(150):
        for _ in range(chance.choice([50, 200])):
            record(chance, body, table)
    for _ in range(chance.choice([0, 1, 2, 3, 4, 6, 10])):
        kind = chance.random()
        if kind < 0.25 and len(table):
            record(chance, body, table)
        elif kind < 0.4 and called:
            call(chance, body, called)
        elif kind < 0.6 and loaded:
            load(chance, body, loaded)
        elif kind < 0.62:
            by_place(chance, body, called)
        else:
            body.slots += chance.choice(PLAIN)
    body.slots += EXIT

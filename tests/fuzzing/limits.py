"""Fields of a whole object set to their limits, or near them, where each field is known."""

# The fields of a section's header, of a symbol and of a relocation: places and sizes.
HEADER = [(0, 4), (4, 4), (8, 8), (16, 8), (24, 8), (32, 8), (40, 4), (44, 4), (56, 8)]
SYMBOL = [(0, 4), (4, 1), (6, 2), (8, 8), (8, 8), (16, 8), (16, 8)]
RELOCATION = [(0, 8), (0, 8), (8, 4), (12, 4)]


class Layout:
    """Where the tables of an object of fuzzing.objects lie, and what their fields are limited by."""

    def __init__(self, file, table, order):
        self.order = "little" if order == "<" else "big"
        self.symbols_at = 64 + len(file.body)
        self.symbols = len(file.symbols) // 24
        self.headers_at = self.symbols_at + len(file.symbols) + len(file.names)
        self.headers = len(file.rows) + 3
        self.kept = file.kept
        self.types = len(table)


def set_near(chance, data, at, size, limits, order):
    held = int.from_bytes(data[at : at + size], order)
    data[at : at + size] = chance.near(held, limits, size).to_bytes(size, order)


def header(chance, data, layout):
    at, size = chance.choice(HEADER)
    place = layout.headers_at + 64 * chance.randrange(layout.headers) + at
    set_near(chance, data, place, size, [len(data), layout.headers, layout.symbols, layout.headers_at], layout.order)


def symbol(chance, data, layout):
    """A symbol; its address and its size are near the size of its section too."""
    place = layout.symbols_at + 24 * chance.randrange(layout.symbols)
    section = int.from_bytes(data[place + 6 : place + 8], layout.order)
    size_at = layout.headers_at + 64 * section + 32
    at, size = chance.choice(SYMBOL)
    limits = [int.from_bytes(data[size_at : size_at + 8], layout.order)] if size == 8 else [layout.headers]
    set_near(chance, data, place + at, size, limits, layout.order)


def relocation(chance, data, start, length, layout):
    at, size = chance.choice(RELOCATION)
    place = start + 16 * chance.randrange(length // 16) + at
    set_near(chance, data, place, size, [layout.symbols] if at == 12 else [], layout.order)


def words(chance, data, start, length, layout):
    """A word of types or of what is said of code: of the front, where the lengths are, more often."""
    place = start + 4 * chance.randrange(min(length, chance.choice([24, length])) // 4)
    strings = int.from_bytes(data[start + 20 : start + 24], layout.order)
    set_near(chance, data, place, 4, [layout.types, layout.types + 1, strings, length, length - 24], layout.order)


def one(chance, data, layout):
    """Sets one field of any table."""
    tables = [header, symbol, symbol]
    kept = [row for row in layout.kept if row[2] >= 24 or row[0] == "relocations" and row[2]]
    at = chance.randrange(len(tables) + 2 * len(kept))
    if at < len(tables):
        tables[at](chance, data, layout)
        return
    what, start, length = kept[(at - len(tables)) // 2]
    (relocation if what == "relocations" else words)(chance, data, start, length, layout)


def some(chance, made, layout):
    """The object with a few fields set; as it is, mostly."""
    count = chance.choice([0, 0, 0, 0, 0, 0, 1, 1, 2, 4])
    if not count:
        return made
    data = bytearray(made)
    for _ in range(count):
        one(chance, data, layout)
    return bytes(data)


def of_types(chance, made):
    """A kernel's types with a few words set."""
    count = chance.choice([0, 0, 0, 0, 0, 0, 0, 0, 0, 0, 1, 2])
    if not count:
        return made
    data = bytearray(made)
    for _ in range(count):
        place = 4 * chance.randrange(min(len(data), chance.choice([24, len(data)])) // 4)
        set_near(chance, data, place, 4, [len(data), len(data) - 24, len(data) // 16], "little")
    return bytes(data)

"""Whole objects made from parts, and a kernel to match."""
from fuzzing import bodies, declared, kernels, names, some_types
from fuzzing.bodies import Body
from fuzzing.said import Said
from fuzzing.type_table import Strings, Table
from rows.btf import FUNC_PROTO, words
from rows.elf import BIG, LITTLE, NOBITS, OBJECT, PROGBITS, SECTION, File

# The bindings of symbols, and the type of those of functions.
LOCAL, GLOBAL, WEAK = 0, 0x10, 0x20
IS_FUNCTION = 2

DATA = [".data", ".bss", ".rodata", ".rodata.str1.1", ".data.x", ".rodata.cst16"]

LICENSES = [b"GPL\0", b"GPL\0", b"Dual BSD/GPL\0"]
STRANGE_LICENSES = [b"GPL\0\0\0\0", b"A\0B\0", b"\0", b"", b"GPL", b"\xff\0"]


class Sections(File):
    """A file whose names may be bytes, each kept once. What is known of its parts is kept for those who change them."""

    def __init__(self, order):
        super().__init__(order)
        self.known = {}
        self.kept = []

    def add_name(self, text):
        at = self.known.get(text)
        if at is None:
            at = self.known[text] = len(self.names)
            self.names += (text if isinstance(text, bytes) else text.encode()) + b"\0"
        return at

    @property
    def last(self):
        """The number of the section that was added last."""
        return len(self.rows) + 2

    @property
    def last_symbol(self):
        return len(self.symbols) // 24 - 1

    def keep(self, what, length):
        """Says what the last bytes of the body are."""
        self.kept.append((what, 64 + len(self.body) - length, length))


class Maker:
    """An object in the making: types, sections, symbols by their targets, and references that wait for these."""

    def __init__(self, chance):
        self.chance = chance
        self.order = BIG if chance.one_in(60) else LITTLE
        self.broad, self.recorded = chance.one_in(4), chance.one_in(2)
        self.file, self.table, self.said = Sections(self.order), Table(), Said()
        self.symbols, self.waiting = {}, []
        self.maps, self.variables, self.externs = [], [], []

    def plan(self):
        """The types and the names of all that is referred to."""
        chance = self.chance
        some_types.fill(chance, self.table)
        self.maps = [f"map{at}" for at in range(chance.choice([0, 0, 1, 2, 3]))]
        count = chance.choice([0, 0, 1, 2, 4])
        self.variables = [(f"var{at}", chance.choice(DATA), 8 * at, chance.choice([1, 4, 8])) for at in range(count)]
        self.externs = [of for of, _ in declared.externs(chance, self.table)] if not chance.one_in(3) else []

    def targets(self, called):
        """What calls and what loads may refer to."""
        calls = [("symbol", name) for name in called] * 3 + [("section", ".text")]
        calls += [("symbol", of.name) for of in self.externs if of.is_function]
        loads = [("symbol", name) for name in self.maps + [name for name, *_ in self.variables]]
        loads += [("section", section) for _, section, *_ in self.variables]
        loads += [("symbol", of.name) for of in self.externs] + [("symbol", name) for name in called[:1]]
        return calls, loads

    def section_of_code(self, name, functions):
        """A section with these functions one behind the other, their symbols and their records."""
        chance, code = self.chance, bytearray()
        symbols = []
        for body in functions:
            code += bytes(8) if chance.bad(20) or name != ".text" and chance.one_in(30) else b""
            symbols.append((body, len(code)))
            code += body.slots
        self.file.code(name, bytes(code), **({} if name else {"name_at": 0}))
        number = self.file.last
        self.symbols.setdefault(("section", name), None)
        for body, at in symbols:
            self.file.symbol(body.name, body.binding | IS_FUNCTION, number, at, len(body.slots))
            self.symbols.setdefault(("symbol", body.name), self.file.last_symbol)
            self.waiting += [(number, at + place, target, kind) for place, target, kind in body.references]
            self.say(name, at, body)
        if name == ".text" or chance.one_in(4):
            self.file.symbol("", SECTION, number, 0, 0)
            self.symbols["section", name] = self.file.last_symbol

    def say(self, section, at, body):
        """Records on a function: of itself, of its lines, by types."""
        chance = self.chance
        for place, held, access, asked in body.records:
            self.said.record(section, at + place, held, access, asked)
        if not self.recorded or chance.bad(4):
            return
        held = self.table.function(body.name, self.table.add(FUNC_PROTO, "", 1))
        self.said.function(section, at + (8 if chance.bad(10) else 0), held)
        for place in range(0, len(body.slots), chance.choice([8, 16, 64])):
            self.said.line(section, at + place, "file.c", "a line", chance.randrange(2**16) << 10 | place)

    def programs(self):
        """Sections with programs, which are empty so far."""
        chance, at, found = self.chance, 0, []
        for _ in range(chance.choice([1, 1, 2, 3, 8])):
            held = chance.choice([0, 1, 1, 1, 2])
            found.append((names.of_program(chance, self.broad), [Body(f"p{at + one}", GLOBAL) for one in range(held)]))
            at += held
        return found

    def code(self):
        """Programs and the functions that they call."""
        chance = self.chance
        count = 200 if chance.one_in(60) else chance.choice([0, 1, 2, 3, 5])
        text = [Body(f"f{at}", chance.choice([LOCAL, LOCAL, GLOBAL, WEAK])) for at in range(count)]
        sections = self.programs()
        called = [body.name for body in text] + (["p0"] if chance.one_in(5) else [])
        calls, loads = self.targets(called)
        if text:
            sections.insert(chance.randrange(len(sections) + 1), (".text", text))
        for name, functions in sections:
            for body in functions:
                bodies.fill(chance, body, self.table, calls, loads)
            self.section_of_code(name, functions)

    def map_sections(self):
        chance = self.chance
        of_structs = self.maps if chance.one_in(4) else []
        if of_structs:
            size = chance.choice([20, 24, 28])
            rows = [[chance.randrange(1, 30), 4, 8, 16, 0, 0, 2 if chance.bad(5) else 1] for _ in of_structs]
            data = b"".join(words(row)[:size] for row in rows)
            self.file.section("maps", PROGBITS, 3, data)
            self.of_section("maps", [(name, size * at, size) for at, name in enumerate(of_structs)])
        elif self.maps:
            self.file.section(".maps", PROGBITS, 3, bytes(32 * len(self.maps)))
            self.of_section(".maps", [(name, 32 * at, 32) for at, name in enumerate(self.maps)])
            self.table.datasec(".maps", declared.map_rows(chance, self.table, self.maps))

    def of_section(self, name, rows):
        """The symbols of what lies in the last section."""
        number = self.file.last
        for symbol, at, size in rows:
            self.file.symbol(symbol, OBJECT, number, at, size)
            self.symbols["symbol", symbol] = self.file.last_symbol
        if name != "maps" or self.chance.bad(2):
            self.file.symbol("", SECTION, number, 0, 0)
            self.symbols["section", name] = self.file.last_symbol

    def data_sections(self):
        chance = self.chance
        for name in dict.fromkeys(section for _, section, *_ in self.variables):
            held = [(of, at, size) for of, section, at, size in self.variables if section == name]
            kind, flags = NOBITS if name == ".bss" else PROGBITS, 2 if name.startswith(".ro") else 3
            size = max(at + size for _, at, size in held)
            data = chance.randbytes(size)
            self.file.section(name, kind, flags, b"" if kind == NOBITS else data, size=size)
            self.of_section(name, held)
            if chance.one_in(2):
                self.table.datasec(name, declared.variable_rows(chance, self.table, held))

    def terms(self):
        chance = self.chance
        if not chance.one_in(5):
            strange = self.broad and chance.one_in(4) or chance.bad(3)
            self.file.data("license", chance.choice(STRANGE_LICENSES if strange else LICENSES))
        if chance.one_in(8):
            self.file.data("version", chance.choice([b"\1", bytes(8)] if chance.bad(3) else [words([0xFFFFFFFE]), words([7])]))

    def extern_symbols(self):
        for of in self.externs:
            if not self.chance.bad(10):
                self.file.symbol(of.name, WEAK if self.chance.one_in(3) else GLOBAL, 0, 0, 0)
                self.symbols.setdefault(("symbol", of.name), self.file.last_symbol)

    def references(self):
        """A section of relocations for each section of code that has some."""
        rows = {}
        for number, at, target, kind in self.waiting:
            symbol = self.symbols.get(target)
            if symbol is not None:
                rows.setdefault(number, []).append((at, symbol, kind))
        for number, entries in rows.items():
            self.file.relocations(number, entries)
            self.file.keep("relocations", 16 * len(entries))

    def type_sections(self):
        chance, strings = self.chance, Strings()
        if not self.externs and not self.maps and chance.one_in(10) or chance.bad(10):
            return
        said = b"" if self.said.is_empty() and chance.one_in(2) else self.said.bytes(chance, strings, self.order)
        data = self.table.bytes(strings, self.order)
        self.file.data(".BTF", data)
        self.file.keep("types", len(data))
        if said:
            self.file.data(".BTF.ext", said)
            self.file.keep("said", len(said))

    def make(self):
        self.plan()
        steps = [self.code, self.map_sections, self.data_sections, self.terms]
        if self.chance.one_in(4):
            self.chance.shuffle(steps)
        for step in [*steps, self.extern_symbols, self.references, self.type_sections]:
            step()
        return self.file.bytes()

    def externs_written(self):
        """What a kernel may have: names with types and whether they are functions."""
        return [(of.name, self.table.types[of.held - 1].held, of.is_function) for of in self.externs]

    def kernel(self):
        return kernels.types_of(self.chance, self.table, self.externs_written())

    def lines(self):
        return kernels.lines_of(self.chance, self.externs_written())

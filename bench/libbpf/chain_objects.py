"""Objects of chains of functions without clang, which takes minutes for 20,000 functions.

Of a source by `chain` or `worked_chain` the object is, byte for byte, what LLVM 14 makes of it with `clang -target
bpfel -O2 -g -fno-addrsig` and `llvm-strip -g`; ../check_chains.py compares them. So it has all that clang's has but
`.llvm_addrsig`, of a few bytes, and the `.debug_*` sections with their relocations and symbols, which no loader reads:
for 2,000 functions these are 39% of clang's file of `chain`, and 28% of that of `worked_chain`.
"""
from libbpf.llvm_files import CODE, OF_SECTION, STRTAB, SYMTAB, WRITTEN, Section
from libbpf.llvm_files import file, relocations, string_table, symbol_table
from rows.btf import DATASEC, FUNC, FUNC_PROTO, INT, VAR, array, ext, function, pointer, ty, with_strings
from rows.elf import CALL, CALL32, EXIT, FUNCTION, OBJECT, PROGBITS, REL, SECTION, call_by, slot

# The type of a relocation of a word that isn't loaded, and the type and binding of a function of this file alone.
WORD32, OWN_FUNCTION = 4, 2

# The numbers of sections, and of symbols of sections.
STRINGS, TEXT, PROGRAM, LICENSE, TYPES, RECORDS, SYMBOLS = 1, 2, 3, 5, 6, 8, 10
TEXT_SYMBOL, PROGRAM_SYMBOL = 1, 2

# The numbers of types, the last one that of the first function's prototype.
INT_TYPE, BIG_TYPE, LONG_TYPE, FIRST_TYPE = 3, 4, 5, 6

SIGNED = 1 << 24


class Strings:
    """Strings of type information, each once. They are put one after the other at last, as 100,000 functions have many."""

    def __init__(self):
        self.places = {"": 0}
        self.size = 1

    def offset(self, name):
        """The offset of a name, which is added where it's new; a number is the offset itself."""
        if isinstance(name, int):
            return name
        at = self.places.setdefault(name, self.size)
        if at == self.size:
            self.size += len(name) + 1
        return at

    def bytes(self):
        return "".join(f"{name}\0" for name in self.places).encode()


class Code:
    """A section of instructions, and the words of the records on its functions and lines."""

    def __init__(self, name, symbol, path, strings):
        self.name, self.symbol, self.path, self.strings = name, symbol, path, strings
        self.slots, self.functions, self.lines = [], [], []

    def size(self):
        return len(self.slots) * 8

    def begin(self, kind):
        """Begins a function of a type."""
        self.strings.offset(self.name)
        self.functions += [self.size(), kind]

    def add(self, line, column, *slots):
        """Slots of a place in the source: a line's number and text, and a column."""
        number, text = line
        names = [self.strings.offset(self.path), self.strings.offset(text)]
        self.lines += [self.size(), *names, number << 10 | column]
        self.slots += slots

    def places(self):
        """Where each function begins and how long it is."""
        starts = self.functions[::2]
        return [(start, end - start) for start, end in zip(starts, [*starts[1:], self.size()])]


def column(text, part, behind=0):
    return text.index(part, behind) + 1


def moved(target, source):
    return slot(0xBF, source << 4 | target)


def step(code, line, number, held, other, copied):
    """Slots of `x = (x * A) ^ (x >> B)`, where x is in the register `held`, and may be in the other one already."""
    text = line[1]
    copy = [] if copied else [moved(other, held)]
    code.add(line, column(text, ">>"), *copy, slot(0xC7, other, imm=number + 1))
    code.add(line, column(text, "*"), slot(0x27, held, imm=number * 2 + 3))
    code.add(line, column(text, "^"), slot(0xAF, other << 4 | held))


def steps(code, head, lines, first, last):
    """What a function does before its end. The first one's x is known to be 1, and so is what its first step makes of
    that. The last one has x in the register of its result."""
    held, other = (0, 1) if last else (1, 2)
    if first:
        code.add(head, 0, slot(0xB7, held, imm=3 if lines else 1))
    elif last:
        code.add(head, 0, moved(held, other))
    for number, line in enumerate(lines):
        if number or not first:
            step(code, line, number, held, other, last and not number)


def end(code, line, callee, call, added):
    """Slots of `return CALLEE(x) + ADDED`, where there is a callee and where something is added."""
    text = line[1]
    returned = column(text, "return")
    if callee:
        code.add(line, column(text, f"{callee}(", returned), call)
    if added:
        code.add(line, column(text, "+", returned), slot(0x07, imm=added))
    code.add(line, returned, EXIT)


def parted(source):
    """The number and text of the program's line, and for each function of its lines that have code."""
    lines = list(enumerate(source.split("\n"), 1))
    heads = [at for at, (_, text) in enumerate(lines) if text.startswith("static")]
    program = next(at for at, (_, text) in enumerate(lines) if text.startswith("SEC"))
    # Between the lines that have code are braces and barriers. The source begins with the last function.
    ends = [*heads[1:], program]
    return lines[program], [lines[start:end:2] for start, end in zip(heads, ends)][::-1]


class Chain:
    """The code and the types of a chain's source that is at a path."""

    def __init__(self, source, path):
        self.strings, self.words = Strings(), []
        self.program = Code("socket", PROGRAM_SYMBOL, path, self.strings)
        self.text = Code(".text", TEXT_SYMBOL, path, self.strings)
        program, functions = parted(source)
        self.count = len(functions)
        self.begin(program)
        for number, lines in enumerate(functions):
            self.function(number, lines)
        self.license()

    def add(self, *types):
        for of in types:
            self.words += of(self.strings)

    def begin(self, line):
        self.add(pointer(0), ty("", FUNC_PROTO, INT_TYPE, "c", 1, entries=1), ty("int", INT, 4, SIGNED | 32))
        self.add(ty("big", FUNC, 2, entries=1))
        self.program.begin(BIG_TYPE)
        end(self.program, line, "f0", CALL, 0)
        self.add(ty("long", INT, 8, SIGNED | 64))

    def function(self, number, lines):
        first, last = number == 0, number == self.count - 1
        kind = FIRST_TYPE + 2 * number
        self.add(ty("", FUNC_PROTO, LONG_TYPE, "x", LONG_TYPE, entries=1), function(f"f{number}", kind))
        self.text.begin(kind + 1)
        steps(self.text, lines[0], lines[1:-1], first, last)
        # The next function begins behind this one's end.
        added = 1 if last else number % 97
        end(self.text, lines[-1], "" if last else f"f{number + 1}", call_by(2 if added else 1), added)

    def license(self):
        char = FIRST_TYPE + 2 * self.count
        self.add(ty("char", INT, 1, SIGNED | 8), array(char, 4, char + 2), ty("__ARRAY_SIZE_TYPE__", INT, 4, 32))
        self.add(ty("_license", VAR, char + 1, 1), ty("license", DATASEC, 0, char + 3, 0, 4, entries=1))

    def symbols(self):
        """The symbols of this file alone, and the others."""
        own = [("", SECTION, TEXT, 0, 0), ("", SECTION, PROGRAM, 0, 0)]
        own += [(f"f{at}", OWN_FUNCTION, TEXT, *place) for at, place in enumerate(self.text.places())]
        return own, [("big", FUNCTION, PROGRAM, *self.program.places()[0]), ("_license", OBJECT, LICENSE, 0, 4)]

    def table(self, each, of, start):
        """The words of records of so many words each, and relocations of each one's place. The records of a section are
        `of` it, and the table is so many bytes into its section."""
        words, entries = [each * 4], []
        for code in (self.program, self.text):
            rows = of(code)
            words += [self.strings.offset(code.name), len(rows) // each]
            at = start + len(words) * 4
            entries += [(at + place * 4, code.symbol, WORD32) for place in range(0, len(rows), each)]
            words += rows
        return words, entries

    def records(self):
        """`.BTF.ext` and its relocations."""
        functions, of_functions = self.table(2, lambda code: code.functions, 32)
        lines, of_lines = self.table(4, lambda code: code.lines, 32 + len(functions) * 4)
        return ext(functions, lines), of_functions + of_lines

    def object(self):
        own, others = self.symbols()
        records, of_records = self.records()
        # The last type ends with the offset and the size of `_license` in its section.
        of_types = [(24 + len(self.words) * 4 - 8, len(own) + len(others), WORD32)]
        sections = [
            Section(".strtab", STRTAB, b"", alignment=1),
            Section(".text", PROGBITS, b"".join(self.text.slots), CODE),
            Section("socket", PROGBITS, b"".join(self.program.slots), CODE),
            relocated("socket", PROGRAM, [(0, TEXT_SYMBOL, CALL32)]),
            Section("license", PROGBITS, b"GPL\0", WRITTEN, alignment=1),
            Section(".BTF", PROGBITS, with_strings(self.words, self.strings.bytes()), alignment=4),
            relocated(".BTF", TYPES, of_types),
            Section(".BTF.ext", PROGBITS, records, alignment=4),
            relocated(".BTF.ext", RECORDS, of_records),
            Section(".symtab", SYMTAB, b"", 0, STRINGS, len(own) + 1, each=24),
        ]
        symbols = own + others
        names = {symbol[0] for symbol in symbols} | {section.name for section in sections}
        sections[0].data, places = string_table(names - {""})
        sections[-1].data = symbol_table(symbols, places)
        return file(sections, places)


def relocated(name, target, entries):
    """The relocations of a section."""
    return Section(f".rel{name}", REL, relocations(entries), OF_SECTION, SYMBOLS, target, each=16)


def chain_object(source, path):
    """The object of a source by `chain` or `worked_chain` that is at a path."""
    return Chain(source, str(path)).object()

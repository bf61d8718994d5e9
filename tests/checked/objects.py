"""Objects that ask something of a kernel, kernels that answer, and what `ebpf check` prints of one object and one kernel."""
import struct
from dataclasses import dataclass

from rows.btf import Strings, btf, ext, type_words, with_strings
from rows.core_sides import EXISTS, LOAD, MOVE, OFFSET, S
from rows.elf import CALL32, CALL_CODE, FUNCTION, LOAD64, NOBITS, NOTHING, OBJECT, PROGBITS, File, slot

# The binding of symbols without a section.
GLOBAL, WEAK = 0x10, 0x20

# Operations of conditional jumps.
JEQ, JSET, JNE = 1, 4, 5


@dataclass
class Asks:
    """Slots with a record about the first one."""

    slots: bytes
    kind: int
    type: int
    access: str


@dataclass
class Refers:
    """Slots with a relocation of the first one, to a symbol."""

    slots: bytes
    symbol: str
    kind: int


@dataclass
class Code:
    """A function of a section: slots, some of which ask or refer."""

    section: str
    name: str
    code: list


def slots_of(piece):
    return piece if isinstance(piece, bytes) else piece.slots


def wide(register, number, source=0):
    """A load of a number of 64 bits."""
    low, high = struct.unpack("<ii", struct.pack("<Q", number))
    return slot(0x18, register | source << 4, imm=low) + slot(0, imm=high)


def move(register, number):
    return slot(0xB7, register, imm=number)


def jump(operation, register, number, by, width=64):
    """A jump by so many slots where a register and an immediate are so."""
    return slot(operation << 4 | (5 if width == 64 else 6), register, by, number)


def go(by):
    return slot(0x05, 0, by)


def helper(number):
    return slot(CALL_CODE, imm=number)


def call(name):
    """A call of a function or an extern."""
    return Refers(slot(CALL_CODE, 0x10, imm=-1), name, CALL32)


def address(register, name):
    """A load of what a symbol stands for."""
    return Refers(slot(0x18, register) + NOTHING, name, LOAD64)


# The load of `b` of the struct of two members, and the question whether it is there; the struct in a kernel without it.
GONE = Asks(LOAD, OFFSET, 2, "0:1")
IS_THERE = Asks(MOVE, EXISTS, 2, "0:1")
LACKS_B = btf(S[0], lambda strings: [strings.offset("s"), 4 << 24 | 1, 4, strings.offset("a"), 1, 0])
HAS_B = btf(*S)
NO_B = "struct s.b  <byte_off>  no such member"


def gone_at(code):
    """The slots of a function that load `b`."""
    at, places = 0, []
    for piece in code:
        if piece is GONE:
            places.append(at)
        at += len(slots_of(piece)) // 8
    return places


class Parts:
    """Sections of functions in the making, with their symbols, records and relocations."""

    def __init__(self, functions):
        self.sections, self.functions, self.records, self.references = {}, [], {}, {}
        for each in functions:
            self.add(each)

    def add(self, each):
        start = at = len(self.sections.setdefault(each.section, b""))
        for piece in each.code:
            if isinstance(piece, Asks):
                record = (at, piece.kind, piece.type, piece.access)
                self.records.setdefault(each.section, []).append(record)
            if isinstance(piece, Refers):
                self.references.setdefault(each.section, []).append((at, piece.symbol, piece.kind))
            self.sections[each.section] += slots_of(piece)
            at += len(slots_of(piece))
        self.functions.append((each.name, each.section, start, at - start))


def type_parts(types, records, lines):
    """`.BTF` with types, and `.BTF.ext` with records by sections, and with lines of the section `kprobe/p`, each a place in
    bytes, a file, a number, and its text where it has one."""
    strings = Strings()
    numbers = type_words(types, strings)
    asked = [16]
    for section, entries in records.items():
        asked += [strings.offset(section), len(entries)]
        asked += [word for at, kind, held, access in entries for word in (at, held, strings.offset(access), kind)]
    lined = [16, strings.offset("kprobe/p"), len(lines)] if lines else []
    for at, file, line, *text in lines:
        lined += [at, strings.offset(file), strings.offset(text[0]) if text else 0, line << 10]
    return with_strings(numbers, strings.data), ext(lines=lined, relocations=asked)


def object_of(functions, types=S, externs=None, maps=None, lines=(), zeros=None):
    """An object of functions with types. `externs` has bindings by names, `maps` types of maps by names, `lines` lines of
    the section `kprobe/p`; `zeros` is the name of a variable of eight bytes in `.bss`."""
    parts = Parts(functions)
    held, said = type_parts(types, parts.records, lines)
    file = File()
    numbers = {name: 3 + at for at, name in enumerate(parts.sections)}
    symbols = {}
    for name, data in parts.sections.items():
        file.code(name, data)
    file.data(".BTF", held).data(".BTF.ext", said)
    if zeros:
        file.section(".bss", NOBITS, 3, b"", size=8)
    if maps:
        file.section("maps", PROGBITS, 3, b"".join(struct.pack("<5I", of, 4, 4, 1, 0) for of in maps.values()))
    for name, section, start, size in parts.functions:
        symbols[name] = len(symbols) + 1
        file.symbol(name, FUNCTION, numbers[section], start, size)
    for name, binding in (externs or {}).items():
        symbols[name] = len(symbols) + 1
        file.symbol(name, binding, 0, 0, 0)
    for at, name in enumerate(maps or {}):
        symbols[name] = len(symbols) + 1
        file.symbol(name, OBJECT, len(numbers) + (6 if zeros else 5), 20 * at, 20)
    if zeros:
        symbols[zeros] = len(symbols) + 1
        file.symbol(zeros, OBJECT, len(numbers) + 5, 0, 8)
    for section, entries in parts.references.items():
        file.relocations(numbers[section], [(at, symbols[name], kind) for at, name, kind in entries])
    return file.bytes()


def program(*code, section="kprobe/p", name="p"):
    return Code(section, name, list(code))


def function(name, *code):
    return Code(".text", name, list(code))


def found(line, *places, on="on 1 of 1"):
    """What is told of something: a line, the kernels and the places."""
    return "".join(f"{text}\n" for text in [f"  {line}", f"    {on}", *(f"    {place}" for place in places)])


def told(breaking, count, breaks=(), guarded=(), more="", untargeted=(), lacking=0):
    """What is printed of the object `object` on the one kernel `kernel`. `untargeted` has the lines on programs without a
    target, and `lacking` is how many programs have none and no other reason to break."""
    running = f"breaks  {breaking}" if breaking else f"ok      {count - lacking}"
    out = f"{running}/{count} programs  kernel" + (f"  ({lacking} no target)" if lacking else "") + "\n\n"
    findings = "BREAKS\n" + "".join(breaks) if breaks else ""
    findings += "NO TARGET (not found, and not counted as broken)\n" + "".join(untargeted) if untargeted else ""
    findings += "GUARDED (absent, not reached)\n" + "".join(guarded) if guarded else ""
    findings += more
    out += findings + "\n" if findings else ""
    if breaking:
        return f"{out}object: breaks on 1 of 1 kernels, {breaking} of {count} programs\n"
    left_out = f", if {lacking} program{'s' if lacking > 1 else ''} without a target {'are' if lacking > 1 else 'is'} left out" if lacking else ""
    return f"{out}object: ok on 1 of 1 kernels, {count - lacking} of {count} programs{left_out}\n"


def one_kernel(
    rows, name, data, kernel, breaks=(), guarded=(), more="", breaking=None, count=1, words=(), untargeted=(), lacking=None, status=None
):
    """A row of an object and a kernel: what breaks, what is guarded and what else is told. Where something breaks it is one
    program, where nothing else is said, and the status is 1. Where programs have no target, one has none and doesn't break,
    where nothing else is said."""
    breaking = (1 if breaks else 0) if breaking is None else breaking
    lacking = (1 if untargeted and not breaking else 0) if lacking is None else lacking
    rows.write("object", data)
    rows.write("kernel", kernel)
    out = told(breaking, count, breaks, guarded, more, untargeted, lacking)
    wanted = (1 if breaking else 0) if status is None else status
    rows.row(name, ["check", "object", "kernel", *words], wanted, out)

"""Which slots are reached: jumps on known numbers and on others, arithmetic, calls, loops, paths that meet. Each case is a
program of its own, and what is reached of it is read from JSON."""
import json

from checked.objects import (
    GONE,
    IS_THERE,
    JEQ,
    JNE,
    Asks,
    Code,
    go,
    gone_at,
    helper,
    jump,
    move,
    object_of,
    wide,
)
from rows.btf import btf, struct_of
from rows.core_sides import INT_4, MOVE, S, TYPE_EXISTS, VARIANT_EXISTS, VARIANT_VALUE, enum_of
from rows.elf import CALL_CODE, EXIT, slot

# r6 is kept over calls; r1 holds what the program is called with, which isn't known.
ONE, SIX, SEVEN, EIGHT = 1, 6, 7, 8

# Behind a jump by 1 the end is reached, and else what is gone.
END = [GONE, EXIT]
# Of these the first is reached behind a jump that isn't taken, the second behind one by 2 that is.
BOTH = [GONE, EXIT, GONE, EXIT]
TAKEN, NOT_TAKEN, BOTH_WAYS = "gr", "rg", "rr"

IF_ZERO = jump(JEQ, SIX, 0, 1)


def moved(register, source, width=64):
    return slot(0xBF if width == 64 else 0xBC, register | source << 4)


def jump_by_register(operation, register, other, by, width=64):
    return slot(operation << 4 | (0xD if width == 64 else 0xE), register | other << 4, by)


COMPARED = {"JEQ": 1, "JGT": 2, "JGE": 3, "JSET": 4, "JNE": 5, "JSGT": 6, "JSGE": 7}
COMPARED |= {"JLT": 10, "JLE": 11, "JSLT": 12, "JSLE": 13}

# Two numbers, and the jumps that are taken by them, of 64 and of 32 bits.
COMPARISONS = [
    (0xFFFFFFFF00000001, 1, "JNE JGT JGE JSET JSLT JSLE", "JEQ JGE JLE JSET JSGE JSLE"),
    (5, 2**64 - 1, "JNE JLT JLE JSET JSGT JSGE", "JNE JLT JLE JSET JSGT JSGE"),
    (2**63, 1, "JNE JGT JGE JSLT JSLE", "JNE JLT JLE JSLT JSLE"),
    (2**32, 2**32, "JEQ JGE JLE JSET JSGE JSLE", "JEQ JGE JLE JSGE JSLE"),
]


def comparisons():
    """Each jump, by a register and, where the second number is one, by an immediate."""
    for x, y, *taken in COMPARISONS:
        for width, names in zip((64, 32), taken):
            for name, operation in COMPARED.items():
                wanted = TAKEN if name in names.split() else NOT_TAKEN
                by_register = jump_by_register(operation, SIX, SEVEN, 2, width)
                title = f"{name} of {width} bits of {x:#x} and {y:#x}"
                yield title, [wide(SIX, x), wide(SEVEN, y), by_register, *BOTH], wanted
                if y == 2**32:
                    continue
                by_number = jump(operation, SIX, y if y < 2**31 else -1, 2, width)
                yield f"{title}, an immediate", [wide(SIX, x), by_number, *BOTH], wanted


MIN_64, MIN_32 = 2**63, 2**31

# An operation, its offset, two operands, and what it gives of 64 and of 32 bits (RFC 9669, section 4.1).
ARITHMETIC = [
    ("ADD", 0, 0, 0x1FFFFFFFF, 2, 0x200000001, 1),
    ("ADD past the end", 0, 0, 2**64 - 1, 3, 2, 2),
    ("SUB", 1, 0, 0x200000000, 1, 0x1FFFFFFFF, 0xFFFFFFFF),
    ("MUL", 2, 0, 0x100000003, 0x10, 0x1000000030, 0x30),
    ("DIV", 3, 0, 0x100000008, 4, 0x40000002, 2),
    ("DIV of a large number", 3, 0, 2**64 - 8, 2, 2**63 - 4, 0x7FFFFFFC),
    ("DIV by 0", 3, 0, 7, 0, 0, 0),
    ("DIV by the low 0", 3, 0, 0x200000000, 0x100000000, 2, 0),
    ("SDIV", 3, 1, 2**64 - 8, 2, 2**64 - 4, 0xFFFFFFFC),
    ("SDIV by 0", 3, 1, 7, 0, 0, 0),
    ("SDIV of the least number by -1", 3, 1, MIN_64, 2**64 - 1, MIN_64, 0),
    ("SDIV of the least low number by -1", 3, 1, MIN_32, 2**64 - 1, 2**64 - MIN_32, MIN_32),
    ("OR", 4, 0, 0x100000001, 0x400000006, 0x500000007, 7),
    ("AND", 5, 0, 0x300000003, 0x600000006, 0x200000002, 2),
    ("LSH", 6, 0, 0x180000001, 1, 0x300000002, 2),
    ("LSH by 33", 6, 0, 0x180000001, 33, 0x200000000, 2),
    ("LSH by 65", 6, 0, 0x180000001, 65, 0x300000002, 2),
    ("RSH", 7, 0, 0x180000000, 4, 0x18000000, 0x08000000),
    ("MOD", 9, 0, 0x100000007, 5, 3, 2),
    ("MOD by 0", 9, 0, 0x100000007, 0, 0x100000007, 7),
    ("SMOD", 9, 1, 2**64 - 7, 3, 2**64 - 1, 0xFFFFFFFF),
    ("SMOD by 0", 9, 1, 2**64 - 7, 0, 2**64 - 7, 0xFFFFFFF9),
    ("SMOD of the least number by -1", 9, 1, MIN_64, 2**64 - 1, 0, 0),
    ("XOR", 10, 0, 0x300000003, 0x600000005, 0x500000006, 6),
    ("MOV", 11, 0, 0, 0x580000000, 0x580000000, 0x80000000),
    ("MOVSX of 8 bits", 11, 8, 0, 0x17F80, 2**64 - 128, 0xFFFFFF80),
    ("MOVSX of 16 bits", 11, 16, 0, 0x18000, 2**64 - 2**15, 0xFFFF8000),
    ("ARSH", 12, 0, 0x8000000080000000, 4, 0xF800000008000000, 0xF8000000),
    ("ARSH by 36", 12, 0, 0x8000000080000000, 36, 2**64 - 0x8000000, 0xF8000000),
]

# A code, its immediate, a number, and what it gives.
ONE_OPERAND = [
    ("NEG of 64 bits", 0x87, 0, 1, 2**64 - 1),
    ("NEG of 32 bits", 0x84, 0, 1, 0xFFFFFFFF),
    ("LE of 16 bits", 0xD4, 16, 0x1122334455667788, 0x7788),
    ("LE of 32 bits", 0xD4, 32, 0x1122334455667788, 0x55667788),
    ("LE of 64 bits", 0xD4, 64, 0x1122334455667788, 0x1122334455667788),
    ("BE of 16 bits", 0xDC, 16, 0x1122334455667788, 0x8877),
    ("BE of 32 bits", 0xDC, 32, 0x1122334455667788, 0x88776655),
    ("BE of 64 bits", 0xDC, 64, 0x1122334455667788, 0x8877665544332211),
    ("BSWAP of 16 bits", 0xD7, 16, 0x1122334455667788, 0x8877),
    ("BSWAP of 32 bits", 0xD7, 32, 0x1122334455667788, 0x88776655),
    ("BSWAP of 64 bits", 0xD7, 64, 0x1122334455667788, 0x8877665544332211),
    ("ADD of an immediate", 0x07, -1, 0x100000000, 0xFFFFFFFF),
    ("ADD of an immediate, of 32 bits", 0x04, -1, 0x100000000, 0xFFFFFFFF),
    ("AND of an immediate", 0x57, -2, 2**64 - 1, 2**64 - 2),
    ("AND of an immediate, of 32 bits", 0x54, -2, 2**64 - 1, 0xFFFFFFFE),
    ("MOV of an immediate", 0xB7, -1, 0, 2**64 - 1),
    ("MOV of an immediate, of 32 bits", 0xB4, -1, 0, 0xFFFFFFFF),
]


def arithmetic():
    """A jump where the number is the one that an operation gives."""
    same = [jump_by_register(JEQ, SIX, EIGHT, 2), *BOTH]
    for name, operation, offset, x, y, *results in ARITHMETIC:
        for width, code, result in zip((64, 32), (0x0F, 0x0C), results):
            done = slot(operation << 4 | code, SIX | SEVEN << 4, offset)
            yield f"{name} of {width} bits", [wide(SIX, x), wide(SEVEN, y), done, wide(EIGHT, result), *same], TAKEN
    longer = slot(0xBF, SIX | SEVEN << 4, 32)
    code = [move(SIX, 0), wide(SEVEN, 0x180000000), longer, wide(EIGHT, 2**64 - 2**31), *same]
    yield "MOVSX of 32 bits", code, TAKEN
    for name, code, imm, x, result in ONE_OPERAND:
        yield name, [wide(SIX, x), slot(code, SIX, imm=imm), wide(EIGHT, result), *same], TAKEN


def unknown_numbers():
    """What isn't known: arguments, what memory holds, what one unknown operand gives, what is no operation."""
    kept = [slot(0x7B, 0x6A, -8), slot(0x79, 0xA0 | SEVEN, -8)]
    zero = move(SIX, 0)
    yield "a jump on an argument", [jump(JEQ, ONE, 0, 2), *BOTH], BOTH_WAYS
    yield "a jump on an argument, of 32 bits", [jump(JEQ, ONE, 0, 2, 32), *BOTH], BOTH_WAYS
    yield "a jump on a number and an argument", [zero, jump_by_register(JEQ, SIX, ONE, 2), *BOTH], BOTH_WAYS
    yield "a jump on an argument and a number", [zero, jump_by_register(JEQ, ONE, SIX, 2), *BOTH], BOTH_WAYS
    yield "a jump on a number of an argument", [moved(SIX, ONE), jump(JEQ, SIX, 0, 2), *BOTH], BOTH_WAYS
    yield "a jump on the frame", [jump(JEQ, 10, 0, 2), *BOTH], BOTH_WAYS
    yield "a number that was stored and loaded", [zero, *kept, jump(JEQ, SEVEN, 0, 2), *BOTH], BOTH_WAYS
    yield "a number that was stored", [zero, *kept, jump(JEQ, SIX, 0, 2), *BOTH], TAKEN
    yield "a register that is loaded into", [zero, slot(0x79, 0xA0 | SIX, -8), jump(JEQ, SIX, 0, 2), *BOTH], BOTH_WAYS
    # No bits are known of a register, so nothing is known of it and 0.
    yield "an argument and 0", [moved(SIX, ONE), slot(0x57, SIX, imm=0), jump(JEQ, SIX, 0, 2), *BOTH], BOTH_WAYS
    yield "an argument less itself", [slot(0x1F, 0x11), jump(JEQ, ONE, 0, 2), *BOTH], BOTH_WAYS
    yield "a number that is moved over an argument", [moved(SIX, ONE), zero, jump(JEQ, SIX, 0, 2), *BOTH], TAKEN
    # Adds to memory and loads what was there; compares and exchanges with r0.
    exchanged = [zero, slot(0xDB, 0x6A, -8, 0xE1), jump(JEQ, SIX, 0, 2), *BOTH]
    yield "a number that memory is exchanged with", exchanged, BOTH_WAYS
    swapped = [move(0, 0), slot(0xDB, 0x6A, -8, 0xF1), jump(JEQ, 0, 0, 2), *BOTH]
    yield "a number that memory is compared with", swapped, BOTH_WAYS
    yield "arithmetic of no operation", [zero, slot(0xE7, SIX), jump(JEQ, SIX, 0, 2), *BOTH], BOTH_WAYS
    yield "a move of no width", [zero, slot(0xBF, 0x66, 5), jump(JEQ, SIX, 0, 2), *BOTH], BOTH_WAYS
    yield "a jump of no comparison", [zero, slot(0xE5, SIX, 2), *BOTH], BOTH_WAYS


def ways():
    """Jumps that are always taken, ends, and what leads out of the program."""
    yield "a jump over it", [go(1), *END], "g"
    yield "a long jump over it", [slot(0x06, imm=1), *END], "g"
    yield "a jump to it", [go(1), EXIT, *END], "r"
    yield "a long jump to it", [slot(0x06, imm=1), EXIT, *END], "r"
    yield "a jump back to it", [go(2), *END, go(-3)], "r"
    yield "a jump back past it", [go(2), EXIT, *END[:1], go(-3)], "g"
    yield "an end before it", [EXIT, *END], "g"
    yield "a jump out of the program", [go(100), *END], "g"
    yield "a jump before the program", [go(-2), *END], "g"
    yield "a jump out of the program that isn't taken", [move(SIX, 0), jump(JNE, SIX, 0, 100), *END], "r"
    yield "the first slot", END, "r"
    yield "what isn't reached behind what is", [*END, *END], "rg"


def calls():
    """A call forgets r0 to r5."""
    for register in range(10):
        code = [move(register, 0), helper(1), jump(JEQ, register, 0, 2), *BOTH]
        yield f"r{register} over a call", code, BOTH_WAYS if register <= 5 else TAKEN
    again = [helper(1), move(0, 0), jump(JEQ, 0, 0, 2), *BOTH]
    yield "a number behind a call", again, TAKEN
    kernel_function = [move(SIX, 0), move(2, 0), slot(CALL_CODE, 0x20, imm=7), IF_ZERO, GONE, jump(JEQ, 2, 0, 1), *END]
    yield "a call of a kernel's function", kernel_function, "gr"


def loops():
    zero, more = move(SIX, 0), slot(0x07, SIX, imm=1)
    yield "a loop that counts", [zero, more, jump(JNE, SIX, 10, -2), *END], "r"
    yield "what a loop has counted", [zero, more, jump(JNE, SIX, 10, -2), jump(JEQ, SIX, 10, 2), *BOTH], BOTH_WAYS
    yield "a number over a loop", [zero, helper(1), jump(JEQ, 0, 0, -2), IF_ZERO, *END], "g"
    yield "a loop without an end", [go(-1), *END], "g"
    yield "a loop that a number never ends", [zero, jump(JEQ, SIX, 0, -1), *END], "g"
    # The first time round the number is 0, and the second time 1.
    late = [zero, jump(JEQ, SIX, 1, 3), move(SIX, 1), helper(1), go(-4), *END]
    yield "what a loop comes to later", late, "r"
    yield "two loops, one in the other", [zero, helper(1), jump(JEQ, 0, 0, -2), jump(JEQ, 0, 1, -3), IF_ZERO, *END], "g"


def meetings():
    """Two paths, one with a number in r6 and one with another."""
    two = lambda first, second: [jump(JEQ, ONE, 0, 2), *first, go(1), *second]
    numbers = lambda first, second: two([move(SIX, first)], [move(SIX, second)])
    yield "equal numbers that meet", [*numbers(1, 1), jump(JEQ, SIX, 1, 2), *BOTH], TAKEN
    # Each of the numbers alone would decide.
    yield "different numbers that meet", [*numbers(1, 2), jump(JNE, SIX, 0, 2), *BOTH], BOTH_WAYS
    yield "a number that meets none", [*two([move(SIX, 1)], [moved(SIX, ONE)]), jump(JEQ, SIX, 1, 2), *BOTH], BOTH_WAYS
    yield "none that meets a number", [*two([moved(SIX, ONE)], [move(SIX, 1)]), jump(JEQ, SIX, 1, 2), *BOTH], BOTH_WAYS
    other = [move(SEVEN, 3), *numbers(1, 2), jump(JEQ, SEVEN, 3, 2), *BOTH]
    yield "another number where different ones meet", other, TAKEN
    # Only one of the paths is there: the other one begins behind a jump that isn't taken.
    alone = [move(EIGHT, 0), jump(JNE, EIGHT, 0, 2), move(SIX, 1), go(1), move(SIX, 2), jump(JEQ, SIX, 1, 2), *BOTH]
    yield "a number that nothing meets", alone, TAKEN
    yield "a jump to the next slot", [move(SIX, 1), jump(JEQ, ONE, 0, 0), jump(JEQ, SIX, 1, 2), *BOTH], TAKEN


def poisoned():
    """Behind a slot that fails nothing is known; what asks for existence is known."""
    yield "behind one that fails", [move(SIX, 0), GONE, IF_ZERO, *END], "rr"
    yield "a number behind one that fails", [GONE, move(SIX, 0), IF_ZERO, *END], "rg"
    yield "one that fails behind a guard", [move(SIX, 0), IF_ZERO, GONE, IF_ZERO, *END], "gg"
    absent = [IS_THERE, jump(JEQ, ONE, 0, 1)]
    yield "a guard", [*absent, *END], "g"
    yield "a guard, the other way round", [IS_THERE, jump(JNE, ONE, 0, 1), EXIT, *END], "g"
    yield "a guard of 32 bits", [IS_THERE, jump(JEQ, ONE, 0, 1, 32), *END], "g"
    yield "a guard that is kept over a call", [IS_THERE, moved(SIX, ONE), helper(1), IF_ZERO, *END], "g"
    yield "a guard that is lost over a call", [IS_THERE, helper(1), jump(JEQ, ONE, 0, 1), *END], "r"
    yield "a guard that is turned", [IS_THERE, slot(0xA7, ONE, imm=1), jump(JNE, ONE, 0, 1), *END], "g"
    yield "a guard by another field", [Asks(MOVE, 2, 2, "0:0"), jump(JEQ, ONE, 0, 1), *END], "r"
    wide_guard = Asks(wide(ONE, 1), 2, 2, "0:1")
    yield "a guard in a wide load", [wide_guard, jump(JEQ, ONE, 0, 1), *END], "g"
    yield "a guard by a type that is there", [Asks(MOVE, TYPE_EXISTS, 2, "0"), jump(JEQ, ONE, 0, 1), *END], "r"
    yield "a guard by a type", [Asks(MOVE, TYPE_EXISTS, 4, "0"), jump(JEQ, ONE, 0, 1), *END], "g"
    yield "a guard by an enumerator", [Asks(MOVE, VARIANT_EXISTS, 3, "1"), jump(JEQ, ONE, 0, 1), *END], "g"
    yield "a guard by one that is there", [Asks(MOVE, VARIANT_EXISTS, 3, "0"), jump(JEQ, ONE, 0, 1), *END], "r"
    # In the object it is 5, and in the kernel 7.
    by_value = Asks(MOVE, VARIANT_VALUE, 3, "0")
    yield "the kernel's value", [by_value, jump(JEQ, ONE, 7, 2), *BOTH], TAKEN
    yield "not the object's value", [by_value, jump(JEQ, ONE, 5, 2), *BOTH], NOT_TAKEN


def places_by_program(findings):
    """The slots of `b` by programs."""
    places = {}
    for finding in findings:
        if finding["name"] == "struct s.b":
            for place in finding["places"]:
                places.setdefault(place["program"], []).append(place["slot"])
    return places


def wanted_places(code, ways):
    """The slots that are reached, and those that aren't."""
    places = list(zip(gone_at(code), ways, strict=True))
    return tuple([place for place, way in places if way == letter] for letter in "rg")


LOCAL = [*S, enum_of("e", ("A", 5), ("B", 1)), struct_of("gone", 4)]
KERNEL = [INT_4, struct_of("s", 4, ("a", 1, 0)), enum_of("e", ("A", 7))]


def told_of(cases):
    """A walk's rows: an object with a program for each case, on a kernel without `b`, and on one that has it."""

    def run(rows):
        held = {f"p{number}": case for number, case in enumerate(cases())}
        programs = [Code(f"kprobe/{name}", name, code) for name, (_, code, _) in held.items()]
        rows.write("object", object_of(programs, LOCAL))
        rows.write("kernel", btf(*KERNEL))
        rows.write("itself", btf(*LOCAL))
        breaks = any("r" in ways for _, _, ways in held.values())
        ran = rows.row(f"{cases.__name__}", ["check", "object", "kernel", "--json"], int(breaks))
        told = json.loads(ran.stdout)
        reached, guarded = places_by_program(told["breaks"]), places_by_program(told["guarded"])
        breaking = set(told["kernels"][0]["breaks"])
        for name, (title, code, ways) in held.items():
            found = reached.get(name, []), guarded.get(name, []), name in breaking
            rows.expect(title, found, (*wanted_places(code, ways), "r" in ways))
        out = f"ok      {len(held)}/{len(held)} programs  itself\n\n"
        out += f"object: ok on 1 of 1 kernels, {len(held)} of {len(held)} programs\n"
        rows.row(f"{cases.__name__}, where all is there", ["check", "object", "itself"], 0, out)

    run.__name__ = cases.__name__
    return run


CASES = [comparisons, arithmetic, unknown_numbers, ways, calls, loops, meetings, poisoned]
ROWS = [told_of(cases) for cases in CASES]

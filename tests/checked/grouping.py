"""What is told as one: all that is asked of a field in one source line."""
import json

from checked.objects import JEQ, LACKS_B, Asks, found, jump, object_of, one_kernel, program
from rows.btf import btf, pointer, struct_of
from rows.core_sides import (
    EXISTS,
    INT_4,
    LEFT_SHIFT,
    MOVE,
    OFFSET,
    RIGHT_SHIFT,
    SIGNED,
    SIZE,
    TARGET_ID,
    TYPE_SIZE,
    bit_struct,
)
from rows.elf import EXIT


def with_bits(at, bits):
    """`struct s { int a; int b : bits; }`, whose `b` begins at a bit."""
    return bit_struct("s", 16, ("a", 1, 0, 0), ("b", 1, at, bits))


# An object that asks all that is asked of a bit field, in another order than it is told in.
TYPES = [INT_4, with_bits(32, 3)]
ASKED = [RIGHT_SHIFT, SIGNED, EXISTS, OFFSET, LEFT_SHIFT, SIZE]
WORDS = "<byte_off> <byte_sz> <signed> <lshift_u64> <rshift_u64>"
NO_B = f"struct s.b  {WORDS}  no such member"


def of_b(kind, slots=MOVE):
    return Asks(slots, kind, 2, "0:1")


def lined(*code, lines=((0, 6),)):
    """An object of one program whose slots have lines: each a slot and a line."""
    return object_of([program(*code, EXIT)], TYPES, lines=[(8 * slot, "/src/x.c", line) for slot, line in lines])


SIX = [of_b(kind) for kind in ASKED]


def bit_fields(rows):
    """The six records of a bit field that is absent: the one that asks whether it is there has an answer."""
    places = lambda *slots: [f"p slot {slot}  x.c:6" for slot in slots]
    one_kernel(rows, "a bit field, reached", lined(*SIX), LACKS_B, [found(NO_B, *places(0, 1, 3, 4, 5))])
    guards = [of_b(EXISTS), jump(JEQ, 1, 0, 6)]
    one_kernel(rows, "a bit field, guarded", lined(*guards, *SIX), LACKS_B, (), [found(NO_B, *places(2, 3, 5, 6, 7))])
    ran = rows.row("a bit field in JSON", ["check", "object", "kernel", "--json"], 0)
    told = json.loads(ran.stdout)["guarded"]
    kinds = ["byte_off", "byte_sz", "signed", "lshift_u64", "rshift_u64"]
    rows.expect("a bit field in JSON: kinds", [(each["kind"], each["kinds"]) for each in told], [("byte_off", kinds)])
    rows.expect("a bit field in JSON: slots", [place["slot"] for place in told[0]["places"]], [2, 3, 5, 6, 7])
    one_kernel(rows, "a bit field that is there", lined(*SIX), btf(*TYPES))
    twice = btf(*TYPES, with_bits(64, 3))
    refused = 'refused: the kernel has types for "s" that disagree: "s"'
    six = "<byte_off> <byte_sz> <field_exists> <signed> <lshift_u64> <rshift_u64>"
    breaks = [found(f"struct s.b  {six}  {refused}", *places(0, 1, 2, 3, 4, 5))]
    one_kernel(rows, "a bit field, refused", lined(*SIX), twice, breaks)


def one_entry(rows):
    """Which words are told, and each slot once."""
    at = lambda words, *slots: found(f"struct s.b  {words}  no such member", *(f"p slot {slot}  x.c:6" for slot in slots))
    two = lined(of_b(SIZE), of_b(OFFSET), of_b(SIZE))
    one_kernel(rows, "a size, a place and a size", two, LACKS_B, [at("<byte_off> <byte_sz>", 0, 1, 2)])
    rest = lined(of_b(RIGHT_SHIFT), of_b(SIGNED))
    one_kernel(rows, "no place", rest, LACKS_B, [at("<signed> <rshift_u64>", 0, 1)])
    ran = rows.run("check", "object", "kernel", "--json")
    rows.expect("no place: in JSON", json.loads(ran.stdout)["breaks"][0]["kind"], "signed")
    same = lined(of_b(SIZE, b""), of_b(OFFSET))
    one_kernel(rows, "two records of one slot", same, LACKS_B, [at("<byte_off> <byte_sz>", 0)])
    guarded = lined(of_b(OFFSET), of_b(EXISTS), jump(JEQ, 1, 0, 1), of_b(SIZE))
    one_kernel(rows, "one reached and one guarded", guarded, LACKS_B, [at("<byte_off>", 0)], [at("<byte_sz>", 3)])


def apart(rows):
    """What isn't told as one: other lines, fields and reasons, what is asked of types, and values."""
    line = lambda text, slot, number=6: found(text, f"p slot {slot}  x.c:{number}")
    of = lambda field, kind: f"struct s.{field}  <{kind}>  no such member"
    two = lined(of_b(SIZE), of_b(OFFSET), lines=[(0, 7), (1, 6)])
    one_kernel(rows, "two lines", two, LACKS_B, [line(of("b", "byte_off"), 1), line(of("b", "byte_sz"), 0, 7)])
    two = lined(of_b(SIZE), Asks(MOVE, OFFSET, 2, "0:0"))
    told = [line(of("a", "byte_off"), 1), line(of("b", "byte_sz"), 0)]
    one_kernel(rows, "two fields", two, btf(INT_4, struct_of("s", 4)), told)
    types = lined(Asks(MOVE, TYPE_SIZE, 2, "0"), Asks(MOVE, TARGET_ID, 2, "0"))
    of_type = lambda kind: f"struct s  <{kind}>  no such type (a module's?)"
    told = [line(of_type("target_type_id"), 1), line(of_type("type_size"), 0)]
    one_kernel(rows, "a type's size and id", types, btf(INT_4), told)
    rows.write("object", lined(of_b(SIZE), of_b(OFFSET)))
    rows.write("lacks", LACKS_B)
    rows.write("other", btf(INT_4, pointer(1), struct_of("s", 8, ("b", 2, 0))))
    reasons = [("a member of another kind", "other"), ("no such member", "lacks")]
    told = "".join(
        found(f"struct s.b  <byte_off> <byte_sz>  {reason}", "p slot 0  x.c:6", "p slot 1  x.c:6", on=f"on 1 of 2: {kernel}")
        for reason, kernel in reasons
    )
    out = "breaks  1/1 programs  lacks\nbreaks  1/1 programs  other\n\nBREAKS\n"
    out += f"{told}\nobject: breaks on 2 of 2 kernels, 1 of 1 programs\n"
    rows.row("two reasons", ["check", "object", "lacks", "other"], 1, out)
    values = [("byte_off", 4, 8), ("lshift_u64", 61, 59), ("rshift_u64", 61, 59)]
    told = "".join(f"  struct s.b  <{kind}>  {own} in the object\n    {value} on kernel\n" for kind, own, value in values)
    moved = btf(INT_4, with_bits(64, 5))
    one_kernel(rows, "values", lined(*SIX), moved, more=f"CHANGED (written; nothing to do)\n{told}", words=["--all"])


ROWS = [bit_fields, one_entry, apart]

"""The limits of paths, of searches, of types and of bits, from both sides."""
from rows.btf import array, pointer, struct_of, typedef
from rows.core_sides import (
    BAD_TYPE,
    EXISTS,
    INT_4,
    LOCAL_ID,
    OFFSET,
    S,
    SIZE,
    TYPE_EXISTS,
    types_relocated,
    bad_slot,
    bad_string,
    beside,
    learned,
    numbers,
    one_of,
    refused,
    row,
    too_deep,
    too_nested,
)
from rows.elf import slot


def zeros(parts):
    return ":".join(["0"] * parts)


def parts():
    """64 parts of an access string, and 64 of a path in the kernel's type."""
    # A struct that is its own member `a`.
    local = [struct_of("s___x", 4, ("a", 1, 0))]
    # There `a` lies in a member without a name, each time, or the first time alone.
    each = [struct_of("s", 4, ("", 2, 0)), struct_of("", 4, ("a", 1, 0))]
    once = [struct_of("s", 4, ("", 2, 0)), struct_of("", 4, ("a", 3, 0)), struct_of("t", 4, ("a", 3, 0))]
    of = lambda count: one_of(local, EXISTS, 1, zeros(count))
    there = numbers(1)
    word = zeros(65) + ":x"
    return [
        beside("64 parts", of(64), [("same", local, there), ("once", once, refused(too_nested("s")))]),
        # The element and 62 names are 63 parts, and a member without a name is another one: before the next step there
        # would be 64, and before the last there are 63.
        beside("63 parts", of(63), [("once", once, there)]),
        row("65 parts", of(65), local, refused(too_nested("s___x"))),
        row("65 parts and a word", one_of(local, EXISTS, 1, word), local, refused(bad_string(word))),
        row("65 parts for a local id", one_of(local, LOCAL_ID, 1, zeros(65)), local, refused(too_nested("s___x"))),
        # Each name is two parts: before name 32 there are 63, and before name 33 there are 65.
        beside("32 names of two parts", of(33), [("each", each, there)]),
        beside("33 names of two parts", of(34), [("each", each, refused(too_nested("s")))]),
    ]


def inside(levels, members):
    """Types with a STRUCT `s`: members that lie inside so many members without a name, each at bit 8."""
    types = [INT_4, struct_of("", 8, *members)]
    for level in range(levels):
        types.append(struct_of("s" if level + 1 == levels else "", 8, ("", len(types), 8)))
    return types


def levels():
    """64 members without a name around a member."""
    b = ("b", 1, 0)
    # A member without a name, which has no members itself.
    nothing = ("", 1, 0)
    return [
        beside(
            "members inside others without a name",
            one_of(S, OFFSET, 2, "0:1"),
            [
                ("inside_64", inside(64, [b]), numbers(64)),
                ("inside_65", inside(65, [b]), refused(too_nested("s"))),
                ("nothing_inside_63", inside(63, [nothing, b]), numbers(63)),
                ("nothing_inside_64", inside(64, [nothing, b]), refused(too_nested("s"))),
                ("nothing_behind", inside(64, [b, nothing]), numbers(64)),
                ("only_others", inside(64, [("a", 1, 0)]), numbers(None)),
            ],
        )
    ]


def pairs(structs, first=2):
    """So many structs, of which each has two members without a name of the one before; the first has an empty struct,
    which is the type `first`, before them."""
    return [struct_of("", 0)] + [struct_of("", 0, ("", first + at, 0), ("", first + at, 0)) for at in range(structs)]


def behind_pairs(structs, *members):
    """A STRUCT `s` of two members without a name, which are so many structs of pairs deep, and further members: there
    are 2 and 4 and so on entries before these."""
    return [INT_4, *pairs(structs - 1), struct_of("s", 8, ("", structs + 1, 0), ("", structs + 1, 0), *members)]


def searched():
    """1,048,576 members that one step looks at. 19 structs of pairs have 2^20 - 2 entries."""
    x, b = ("x", 1, 0), ("b", 1, 64)
    nested = refused(too_nested("s"))
    return [
        beside(
            "members of many structs",
            one_of(S, OFFSET, 2, "0:1"),
            [
                ("pairs_19", behind_pairs(19), numbers(None)),
                ("pairs_20", behind_pairs(20), nested),
                # The last entry that is looked at, and the one behind it.
                ("last", behind_pairs(19, x, b), numbers(8)),
                ("past", behind_pairs(19, x, x, b), nested),
                # So many entries without `b`, and one more.
                ("all", behind_pairs(19, x, x), numbers(None)),
                ("one_more", behind_pairs(19, x, x, x), nested),
            ],
        )
    ]


def searched_twice():
    """As many members that each of two steps looks at: each counts anew."""
    x, b = ("x", 1, 0), ("b", 1, 64)
    # `struct s { struct i i; }`, where `i` is `struct i { int b; }`: the kernel has as many entries before both.
    local = [INT_4, struct_of("i", 4, ("b", 1, 0)), struct_of("s", 4, ("i", 2, 0))]
    first = behind_pairs(19, x, b)[:-1]
    twice = lambda *members: [
        *first,
        struct_of("i", 8, ("", 20, 0), ("", 20, 0), *members),
        struct_of("s", 16, ("", 20, 0), ("", 20, 0), x, ("i", 21, 64)),
    ]
    return [
        beside(
            "two steps through many structs",
            one_of(local, OFFSET, 3, "0:0:0"),
            [("last", twice(x, b), numbers(16)), ("past", twice(x, x, b), refused(too_nested("s")))],
        ),
    ]


def bits():
    """Bit offsets to 4,294,967,295, and offsets of loads to 32,767."""
    number = [INT_4]
    last = 2**32 - 1
    member = lambda at: [INT_4, struct_of("s", 4, ("a", 1, at))]
    elements = lambda count: [INT_4, array(1, count), struct_of("s", 4, ("a", 2, 0))]
    load = slot(0x61, 0x12)
    of = lambda index, *slots: one_of(number, OFFSET, 1, index, *slots)
    return [
        # 134,217,727 ints of 32 bits are 32 bits less than 2^32.
        learned("the last index of an int", number, number, (OFFSET, 1, "134217727", 536870908)),
        row("an index past the last of an int", of("134217728"), number, refused(BAD_TYPE)),
        row("the last index of an int in a load", of("134217727", load), number, refused(bad_slot(), load)),
        # 8,191 ints of 4 bytes.
        row("the last index for a load", of("8191", load), number, types_relocated(slot(0x61, 0x12, 32764))),
        row("an index past the last for a load", of("8192", load), number, refused(bad_slot(), load)),
        # The same of structs of eight bytes.
        learned("the last index of a struct", S, S, (OFFSET, 2, "67108863", 536870904)),
        row("an index past the last of a struct", one_of(S, OFFSET, 2, "67108864"), S, refused(BAD_TYPE)),
        # 32 bits of a struct, and a member at the last bit or behind it.
        learned("the last bit of a member", member(last - 32), [], (EXISTS, 2, "1:0", 0)),
        row("a bit behind the last", one_of(member(last - 31), EXISTS, 2, "1:0"), [], refused(BAD_TYPE)),
        learned("the last element of an array", elements(2**28), [], (EXISTS, 3, "0:0:134217727", 0)),
        row("an element past the last bit", one_of(elements(2**28), EXISTS, 3, "0:0:134217728"), [], refused(BAD_TYPE)),
    ]


def chain(count):
    """An int, and so many steps to it: TYPEDEFs, of which the last has the name `t`."""
    return [INT_4, *(typedef("t" if at + 1 == count else "x", at + 1) for at in range(count))]


def arrays(count):
    """A STRUCT `s` whose member is so many arrays of one element inside each other."""
    held = [array(at + 1, 1) for at in range(count)]
    return [INT_4, *held, struct_of("s", 4, ("a", count + 1, 0))]


def pointers(count):
    """A TYPEDEF `t` of so many pointers to an int."""
    return [INT_4, *(pointer(at + 1) for at in range(count)), typedef("t", count + 1)]


def steps():
    """32 steps of types, for resolving them, for sizes, and for comparing."""
    return [
        learned("a type in 32 steps", chain(32), chain(32), (OFFSET, 33, "3", 12), (TYPE_EXISTS, 33, "0", 1)),
        row("a type in 33 steps", one_of(chain(33), OFFSET, 34, "3"), chain(33), refused(too_deep(34))),
        row("a kernel's type in 33 steps", one_of(chain(32), OFFSET, 33, "3"), chain(33), refused(too_deep(34))),
        learned("a size in 32 steps", arrays(32), arrays(32), (SIZE, 34, "0:0", 4), (EXISTS, 34, "0:0", 1)),
        # There is no match, so nothing is compared; that it is there needs no size.
        row("a size in 33 steps", one_of(arrays(33), SIZE, 35, "0:0"), [], refused(too_deep(34))),
        learned("the existence of a field without a size", arrays(33), [], (EXISTS, 35, "0:0", 0)),
        # The comparison has a limit of its own.
        row("fields in 33 steps", one_of(arrays(33), EXISTS, 35, "0:0"), arrays(33), refused(too_deep(34))),
        learned("types in 32 steps", pointers(32), pointers(32), (TYPE_EXISTS, 34, "0", 1)),
        row("types in 33 steps", one_of(pointers(33), TYPE_EXISTS, 35, "0"), pointers(33), refused(too_deep(35))),
    ]


def long_cases():
    """Searches of up to 1,048,576 members, which take minutes in a program that is built with checks: proved programs run
    them, ebpf-link (search_limits.py) and the library for C."""
    return searched() + searched_twice()


def cases():
    return parts() + levels() + bits() + steps()

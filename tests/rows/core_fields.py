"""Where a path of names leads in a type of a kernel."""
from rows.btf import FWD, INT, UNION, VOLATILE, array, btf, pointer, prototype, struct_of, ty, typedef
from rows.core_sides import (
    BAD_TYPE,
    EXISTS,
    INT_4,
    LOAD,
    OFFSET,
    POISON,
    S,
    WIDE,
    types_relocated,
    beside,
    conflict,
    numbers,
    one_of,
    refused,
    row,
    too_deep,
    too_nested,
    unexpected,
    unknown,
    unreadable,
)
from rows.elf import slot


def moved_fields():
    """`b` of the struct, in a load by its offset."""
    data = one_of(S, OFFSET, 2, "0:1", LOAD)
    inner = [INT_4, struct_of("", 8, ("a", 1, 0), ("b", 1, 32)), struct_of("s", 12, ("x", 1, 0), ("", 2, 32))]
    # Behind these, `struct { void *b; }`, type 3, and `struct { void *b; int b; }`.
    start = [INT_4, pointer(0)]
    other, both = struct_of("", 8, ("b", 2, 0)), struct_of("", 12, ("b", 2, 0), ("b", 1, 64))
    at = lambda offset: types_relocated(slot(0x61, 0x12, offset))
    lost = types_relocated(POISON)
    return [
        beside(
            "a field that moved",
            data,
            [
                # The field lies in a member without a name.
                ("inside", inner, at(8)),
                # A second type of the name has it elsewhere.
                ("two", [*inner, struct_of("s", 8, ("a", 1, 0), ("b", 1, 32))], refused(conflict("s", "s"), LOAD)),
                ("none", [INT_4], lost),
                ("itself", [struct_of("s", 8, ("", 1, 0))], refused(too_nested("s"), LOAD)),
                # A member of the name that is no int ends the search of the inner type alone.
                ("behind", [*start, other, struct_of("s", 12, ("", 3, 0), ("b", 1, 64))], at(8)),
                # It ends the search of its own type, and does not go on to what comes behind it.
                ("ended", [*start, struct_of("", 4, ("b", 1, 0)), struct_of("s", 12, ("b", 2, 0), ("", 3, 64))], lost),
                ("twice", [*start, struct_of("s", 12, ("b", 2, 0), ("b", 1, 64))], lost),
                # The inner type has a second one, which is not found either.
                ("twice_inside", [*start, both, struct_of("s", 16, ("", 3, 0), ("b", 1, 96))], at(12)),
            ],
        ),
        row("a field of no type in a wide load", one_of(S, OFFSET, 2, "0:1", *WIDE), [INT_4], types_relocated(POISON, POISON)),
    ]


def views():
    """The members that are searched, and their order."""
    data = one_of(S, OFFSET, 2, "0:1")
    # One struct with `b` at bit 0, and one that has it without a name, at bit 64.
    deep = [INT_4, struct_of("", 4, ("b", 1, 0)), struct_of("", 12, ("", 2, 64))]
    # A UNION that a TYPEDEF, type 4, stands for.
    union = [INT_4, ty("u", UNION, 4, "b", 1, 0, entries=1), ty("", VOLATILE, 2), typedef("v", 3)]
    return [
        beside(
            "members that are searched",
            data,
            [
                # Their bits are added up: 96 and 64 and 0.
                ("inside_twice", [*deep, struct_of("s", 24, ("", 3, 96))], numbers(20)),
                # What lies in a member comes before the next member.
                ("inside_first", [*deep, struct_of("s", 24, ("", 3, 64), ("b", 1, 0))], numbers(16)),
                ("outside_first", [*deep, struct_of("s", 24, ("b", 1, 32), ("", 3, 64))], numbers(4)),
                # The type of a member without a name is resolved, and may be a UNION.
                ("resolved", [*union, struct_of("s", 8, ("", 4, 16))], numbers(2)),
                # One that is no struct has no members, and one that has a name is not searched.
                ("padding", [*deep, struct_of("s", 8, ("", 1, 0), ("b", 1, 32))], numbers(4)),
                ("named", [*deep, struct_of("s", 8, ("c", 2, 0))], numbers(None)),
                # So has one with a name that is empty: the string at 1.
                (
                    "empty_name",
                    btf(INT_4, struct_of("", 4, (4, 1, 0)), struct_of(2, 4, (1, 2, 0)), strings=b"\0\0s\0b\0"),
                    numbers(None),
                ),
                # Members of a name that is longer or shorter are others.
                ("similar", [INT_4, struct_of("s", 8, ("bb", 1, 0), ("b___x", 1, 0), ("B", 1, 0))], numbers(None)),
                # The candidate of the name is a struct without members.
                ("no_members", [struct_of("s", 8)], numbers(None)),
            ],
        ),
    ]


def through():
    """Each step begins in the type that the last one led to, which is resolved."""
    # `struct s { int x; struct i { int y; int b; } i[2]; }`, type 4.
    inner = struct_of("i", 8, ("y", 1, 0), ("b", 1, 32))
    local = [INT_4, inner, array(2, 2), struct_of("s", 20, ("x", 1, 0), ("i", 3, 32))]
    # There the elements are of a TYPEDEF, type 4, of what is VOLATILE.
    named = [INT_4, struct_of("", 12, ("b", 1, 64)), ty("", VOLATILE, 2), typedef("t", 3), array(4, 2), typedef("u", 5)]
    union = [INT_4, ty("i", UNION, 4, "y", 1, 0, "b", 1, 0, entries=2), array(2, 2), pointer(2)]
    other = [INT_4, struct_of("", 4, ("y", 1, 0)), array(2, 2)]
    return [
        beside(
            "a field of an element",
            one_of(local, OFFSET, 4, "0:1:1:1"),
            [
                ("same", local, numbers(16)),
                # 8 bytes, an element of 12 bytes, and 8 bytes.
                ("resolved", [*named, struct_of("s", 32, ("i", 6, 64))], numbers(28)),
                ("union", [*union, struct_of("s", 8, ("i", 3, 0))], numbers(4)),
                # Pointers are no structs, and a path ends with the first step that leads nowhere.
                ("pointers", [*union, array(4, 2), struct_of("s", 16, ("i", 5, 0))], numbers(None)),
                ("without_i", [*named, struct_of("s", 32, ("b", 1, 0))], numbers(None)),
                ("without_b", [*other, struct_of("s", 8, ("i", 3, 0))], numbers(None)),
            ],
        )
    ]


def indices():
    """Elements of arrays: a type of another kind is no match, nor is an index that the kernel's array lacks."""
    # `struct s { int a[4]; }`, type 3, and a TYPEDEF of the array, type 4.
    local = [INT_4, array(1, 4), struct_of("s", 16, ("a", 2, 0)), typedef("t", 2)]
    held = lambda length: [INT_4, array(1, length), struct_of("s", 8, ("x", 1, 0), ("a", 2, 32))]
    first = [INT_4, array(1, 0), struct_of("s", 8, ("a", 2, 0), ("x", 1, 32))]
    union = [INT_4, array(1, 0), ty("u", UNION, 4, "a", 2, 0, entries=1), struct_of("s", 4, ("", 3, 0))]
    last = struct_of("", 4, ("x", 1, 0), ("a", 2, 32))
    inside = [INT_4, array(1, 0), last, struct_of("s", 8, ("", 3, 32), ("y", 1, 0))]
    wider = [ty("", INT, 8, 64), typedef("i", 1), array(2, 4), struct_of("s", 32, ("a", 3, 0))]
    return [
        beside(
            "elements that a kernel's array has",
            one_of(local, OFFSET, 3, "0:0:3"),
            [
                # Three elements and the four bytes before the array.
                ("four", held(4), numbers(16)),
                ("three", held(3), numbers(None)),
                # An array without a length has each element where it ends a struct, also one without a name.
                ("without_length", held(0), numbers(16)),
                ("inside", inside, numbers(20)),
                ("first", first, numbers(None)),
                ("in_a_union", union, numbers(None)),
                # Elements of a typedef are as large as what it stands for.
                ("wider", wider, numbers(24)),
            ],
        ),
        beside(
            "an index in what a typedef stands for",
            one_of(local, OFFSET, 4, "1:2"),
            [
                # One array of 20 bytes and two elements.
                ("array", [INT_4, array(1, 5), typedef("t", 2)], numbers(28)),
                ("number", [INT_4, typedef("t", 1)], numbers(None)),
                ("struct", [struct_of("u", 8), typedef("t", 1)], numbers(None)),
                # The step before leads to no struct.
                ("without_length", [INT_4, array(1, 0), typedef("t", 2)], numbers(None)),
            ],
        ),
        # The root index counts candidates of another size, and needs that size also where it is 0.
        beside(
            "an index of a whole type",
            one_of(local, OFFSET, 3, "2"),
            [("larger", [struct_of("s", 20)], numbers(40)), ("empty", [struct_of("s", 0)], numbers(0))],
        ),
        beside(
            "the existence of a field in a type without a size",
            one_of(local, EXISTS, 4, "0"),
            [
                ("declared", [ty("s", FWD, 0), typedef("t", 1)], refused(unexpected(1))),
                ("nothing", [typedef("t", 0)], refused(unexpected(0))),
                ("function", [prototype(0), typedef("t", 1)], refused(unexpected(1))),
                ("unknown", [typedef("t", 9)], refused(unknown(9))),
                ("a_size", [INT_4, typedef("t", 1)], numbers(1)),
            ],
        ),
    ]


def needed():
    """Names and types that can't be read, up to the member that is looked up."""
    struct = lambda *members: [INT_4, typedef("t", 2), struct_of("s", 8, *members)]
    b = ("b", 1, 32)
    inner = [INT_4, struct_of("", 4, (1000, 1, 0)), struct_of("s", 8, ("", 2, 0), (900, 1, 0))]
    return [
        beside(
            "members that can't be read",
            one_of(S, OFFSET, 2, "0:1"),
            [
                ("name_before", struct((1000, 1, 0), b), refused(unreadable(1000))),
                ("name_behind", struct(b, (1000, 1, 0)), numbers(4)),
                ("name_and_no_other", struct((1000, 1, 0)), refused(unreadable(1000))),
                # The type of a member without a name is needed, that of another name is not.
                ("type_before", struct(("", 9, 0), b), refused(unknown(9))),
                ("loop_before", struct(("", 2, 0), b), refused(too_deep(2))),
                ("type_behind", struct(b, ("", 9, 0)), numbers(4)),
                ("type_of_another", struct(("c", 9, 0), b), numbers(4)),
                ("type", struct(("b", 9, 0)), refused(unknown(9))),
                ("loop", struct(("b", 2, 0)), refused(too_deep(2))),
                # Members inside are met in their place.
                ("inside", inner, refused(unreadable(1000))),
            ],
        ),
        # The local member's type is needed where there is one of its name.
        beside(
            "a local member of an unknown type",
            one_of([struct_of("s", 8, ("a", 9, 0))], EXISTS, 1, "0:0"),
            [("named", S, refused(unknown(9))), ("another", [INT_4, struct_of("s", 8, ("b", 1, 0))], numbers(0))],
        ),
    ]


def bits():
    """A sum of bits that is past 32 bits refuses after a step, not inside it."""
    last = 2**32 - 1
    inner = struct_of("", 4, ("a", 1, 0), ("b", 1, 1))
    return [
        beside(
            "bits of a kernel's field",
            one_of(S, OFFSET, 2, "0:1"),
            [
                # Byte 536870911, and 7 bits.
                ("last", [INT_4, struct_of("s", 8, ("b", 1, last))], numbers(2**29 - 1)),
                ("past", [INT_4, inner, struct_of("s", 8, ("", 2, last))], refused(BAD_TYPE)),
                # What is passed on the way may lie anywhere.
                (
                    "passed",
                    [INT_4, struct_of("", 4, ("x", 1, last)), struct_of("s", 8, ("", 2, last), ("b", 1, 64))],
                    numbers(8),
                ),
            ],
        ),
        row(
            "bits behind a whole struct",
            one_of(S, OFFSET, 2, "1:1"),
            [INT_4, struct_of("s", 4, ("b", 1, 2**32 - 32))],
            refused(BAD_TYPE),
        ),
        # The struct itself begins at a bit that is past the last.
        row("bits of a whole struct", one_of(S, OFFSET, 2, "1"), [struct_of("s", 2**29)], refused(BAD_TYPE)),
    ]


def cases():
    return moved_fields() + views() + through() + indices() + needed() + bits()

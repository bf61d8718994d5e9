"""Access strings, and the paths that they mean in a local type."""
from rows.btf import CONST, FWD, TYPEDEF, UNION, array, pointer, struct_of, ty, typedef
from rows.core_sides import (
    BAD_TYPE,
    EXISTS,
    INT_4,
    LEFT_SHIFT,
    LOCAL_ID,
    OFFSET,
    S,
    SIZE,
    TARGET_ID,
    TYPE_EXISTS,
    TYPE_SIZE,
    VARIANT_EXISTS,
    VARIANT_VALUE,
    bad_index,
    bad_kind,
    bad_string,
    enum64_of,
    enum_of,
    learned,
    one_of,
    refused,
    row,
    too_deep,
    unexpected,
    unknown,
    unreadable,
)


def refusal(name, types, asked, held, access, fault, kernel=()):
    """A relocation of a move that is refused, whatever types the kernel has."""
    return row(name, one_of(types, asked, held, access), kernel, refused(fault))


def strings():
    empty = [struct_of("s", 8)]
    at = lambda access, number: (OFFSET, 1, access, number)
    bad = [
        ("an empty access string", ""),
        ("an access string that ends in a colon", "0:"),
        ("an access string that begins with a colon", ":0"),
        ("an access string with a sign", "0:-1"),
        ("an access string with a blank", "0: 1"),
        ("an access string with another digit", "0x0"),
        ("an access string past 64 bits", "18446744073709551616"),
    ]
    return [
        # Each part is a decimal number, with a plus or zeros before it.
        learned("access strings that are numbers", empty, empty, at("2", 16), at("+2", 16), at("002", 16), at("0", 0)),
        learned("parts that are numbers", S, S, (OFFSET, 2, "0:1", 4), (OFFSET, 2, "0:+1", 4), (OFFSET, 2, "1:01", 12)),
        # The greatest number of 64 bits, of structs that take no byte.
        learned("the greatest index", [struct_of("s", 0)], [struct_of("s", 0)], at("18446744073709551615", 0)),
        refusal("the greatest index of structs with bytes", empty, OFFSET, 1, "18446744073709551615", BAD_TYPE),
    ] + [refusal(name, S, OFFSET, 2, access, bad_string(access)) for name, access in bad]


def texts():
    """The local type, its name, and the access string are read in this order."""
    unnamed = [struct_of(1000, 8)]
    return [
        refusal("an unknown local type", S, LOCAL_ID, 9, "0", unknown(9)),
        refusal("a local type without a name that can be read", unnamed, LOCAL_ID, 1, "0", unreadable(1000)),
        refusal("an access string that can't be read", S, LOCAL_ID, 2, 2000, unreadable(2000)),
        refusal("an unknown local type and an access string that can't be read", S, LOCAL_ID, 9, 2000, unknown(9)),
        refusal("neither name nor access string that can be read", unnamed, LOCAL_ID, 1, 2000, unreadable(1000)),
    ]


def resolved():
    """The local type is resolved: here through a TYPEDEF and what is const."""
    loop = [ty("t", TYPEDEF, 1)]
    held = [*S, ty("", CONST, 2), typedef("t", 3)]
    return [
        learned("a path in what a typedef stands for", held, held, (OFFSET, 4, "0:1", 4), (OFFSET, 4, "1:1", 12)),
        # The access string is split before.
        refusal("a typedef of itself", loop, OFFSET, 1, "0", too_deep(1)),
        refusal("a typedef of itself as a whole", loop, LOCAL_ID, 1, "0", too_deep(1)),
        refusal("a typedef of itself and a bad access string", loop, OFFSET, 1, "x", bad_string("x")),
    ]


def whole_types():
    """What is asked of a type has one part, 0."""
    good = [(LOCAL_ID, 2, "00", 2), (TYPE_SIZE, 2, "+0", 8), (TYPE_EXISTS, 2, "0", 1)]
    bad = [
        ("the local id with another part", LOCAL_ID, "1"),
        ("the id with two parts", TARGET_ID, "0:0"),
        ("the existence of a type with another part", TYPE_EXISTS, "1"),
        ("the size of a type with two parts", TYPE_SIZE, "0:0"),
    ]
    return [learned("one part that is 0", S, S, *good)] + [
        refusal(name, S, asked, 2, access, bad_string(access)) for name, asked, access in bad
    ]


def variants():
    """What is asked of a variant: its type is an enumeration, then there is one part, then that is a variant."""
    union = ty("u", UNION, 4, "a", 1, 0, entries=1)
    types = [enum_of("e", ("A", 1)), enum64_of("f", ("A", 1), ("B", 2)), union, typedef("t", 1)]
    unnamed = [enum_of("e", ("A", 1), (1000, 2))]
    return [
        learned(
            "variants of enumerations",
            types,
            types,
            (VARIANT_VALUE, 1, "0", 1),
            (VARIANT_VALUE, 2, "1", 2),
            (VARIANT_VALUE, 4, "0", 1),
        ),
        refusal("a variant of an int", S, VARIANT_VALUE, 1, "0", bad_kind()),
        refusal("a variant of a struct by two parts", S, VARIANT_EXISTS, 2, "0:9", bad_kind()),
        refusal("a variant of a union", types, VARIANT_EXISTS, 3, "0", bad_kind()),
        refusal("a variant by two parts", types, VARIANT_EXISTS, 1, "9:0", bad_string("9:0")),
        refusal("a variant past the last", types, VARIANT_VALUE, 1, "1", bad_index("1", 1, 1)),
        refusal("a variant of 64 bits past the last", types, VARIANT_EXISTS, 2, "2", bad_index("2", 2, 2)),
        refusal("a variant without a name that can be read", unnamed, VARIANT_VALUE, 1, "1", unreadable(1000)),
    ]


def roots():
    """The first part counts elements of the resolved type, whose size is needed for each."""
    sizeless = [ty("s", FWD, 0), typedef("t", 1)]
    return [
        refusal("a field of a type without a size", sizeless, EXISTS, 1, "0", unexpected(1)),
        refusal("a field of a typedef of a type without a size", sizeless, EXISTS, 2, "1", unexpected(1)),
        refusal("a field of nothing", S, EXISTS, 0, "0", unexpected(0)),
    ]


def members():
    # `struct s { int a; struct { int b; int c; }; struct { int d; } i; union u { int e; } u; }`, type 5.
    inner = [
        INT_4,
        struct_of("", 8, ("b", 1, 0), ("c", 1, 32)),
        struct_of("", 4, ("d", 1, 0)),
        ty("u", UNION, 4, "e", 1, 0, entries=1),
        struct_of("s", 20, ("a", 1, 0), ("", 2, 32), ("i", 3, 96), ("u", 4, 128)),
    ]
    # There `c` stands alone.
    flat = [INT_4, struct_of("s", 12, ("x", 1, 0), ("y", 1, 32), ("c", 1, 64))]
    lost = [INT_4, struct_of("s", 8, ("a", 9, 0), (1000, 1, 32))]
    loop = [ty("t", TYPEDEF, 1), struct_of("s", 4, ("a", 1, 0))]
    named_first = [INT_4, struct_of("s", 4, (1000, 1, 2**32 - 1))]
    return [
        learned(
            "members inside members",
            inner,
            inner,
            (OFFSET, 5, "0:0", 0),
            (OFFSET, 5, "0:1:1", 8),
            (OFFSET, 5, "0:2:0", 12),
            (OFFSET, 5, "0:3", 16),
            (OFFSET, 5, "1:3:0", 36),
        ),
        # A member without a name is no step: `c` may lie elsewhere, and a path that ends in such a member ends in the
        # step before, which here is the whole struct.
        learned(
            "a path through a member without a name",
            inner,
            flat,
            (OFFSET, 5, "0:1:1", 8),
            (OFFSET, 5, "0:1", 0),
            (SIZE, 5, "0:1", 12),
            (EXISTS, 5, "0:1:0", 0),
        ),
        refusal("the shift of a member without a name", inner, LEFT_SHIFT, 5, "0:1", bad_kind()),
        refusal("a member past the last", S, OFFSET, 2, "0:2", bad_index("0:2", 2, 2)),
        refusal("a member of a union past the last", inner, OFFSET, 5, "0:3:1", bad_index("0:3:1", 1, 1)),
        refusal("a member of a struct without members", [struct_of("s", 8)], OFFSET, 1, "0:0", bad_index("0:0", 0, 0)),
        refusal("a part in an int", S, OFFSET, 2, "0:0:0", bad_kind()),
        refusal("a part in a pointer", [pointer(1)], EXISTS, 1, "0:7", bad_kind()),
        refusal("a member without a name that can be read", lost, EXISTS, 2, "0:1", unreadable(1000)),
        # The type of the last step is not looked at here, that of the step before a part is.
        refusal("a part in an unknown type", lost, EXISTS, 2, "0:0:0", unknown(9)),
        learned("a member of an unknown type", lost, [], (EXISTS, 2, "0:0", 0)),
        refusal("a part in a typedef of itself", loop, EXISTS, 2, "0:0:0", too_deep(1)),
        # Its bits are past 32 bits too.
        refusal("a name that can't be read before bits", named_first, OFFSET, 2, "1:0", unreadable(1000)),
    ]


def arrays():
    # Arrays of three ints, of none, and of two arrays of three.
    held = [INT_4, array(1, 3), array(1, 0), array(2, 2)]
    ends = struct_of("s", 4, ("n", 1, 0), ("rest", 3, 32))
    begins = struct_of("s", 4, ("rest", 3, 0), ("n", 1, 0))
    inner = [*held, struct_of("i", 4, ("n", 1, 0), ("rest", 3, 32)), struct_of("s", 8, ("i", 5, 32), ("n", 1, 0))]
    three = [*held, struct_of("s", 12, ("a", 2, 0))]
    six = [*held, struct_of("s", 24, ("a", 4, 0))]
    only = [*held, ty("s", UNION, 4, "rest", 3, 0, entries=1)]
    unnamed = [*held, struct_of("s", 4, ("n", 1, 0), ("", 3, 32))]
    sizeless = [ty("f", FWD, 0), array(1, 2), struct_of("s", 8, ("a", 2, 0))]
    in_three = [(OFFSET, 5, "0:0:2", 8), (OFFSET, 5, "1:0:1", 16), (SIZE, 5, "0:0:2", 4)]
    ending = [*held, ends]
    return [
        learned("elements of an array", three, three, *in_three),
        # One array of 12 bytes, and two ints behind it.
        learned("elements of arrays of arrays", six, six, (OFFSET, 5, "0:0:1:2", 20), (SIZE, 5, "0:0:1", 12)),
        refusal("an element past the last", three, OFFSET, 5, "0:0:3", bad_index("0:0:3", 3, 3)),
        refusal("an array past the last of an array", six, OFFSET, 5, "0:0:2:0", bad_index("0:0:2:0", 2, 2)),
        refusal("a part in an element", three, OFFSET, 5, "0:0:0:0", bad_kind()),
        # An array without a length that ends a struct has every element.
        learned("an array without a length", ending, ending, (OFFSET, 5, "0:1:5", 24), (OFFSET, 5, "0:1:0", 4)),
        learned("an array without a length inside", inner, inner, (OFFSET, 6, "0:0:1:2", 16)),
        refusal("an array without a length first", [*held, begins], OFFSET, 5, "0:0:0", bad_index("0:0:0", 0, 0)),
        refusal("an array without a length in a union", only, OFFSET, 5, "0:0:0", bad_index("0:0:0", 0, 0)),
        # A member without a name is no step, so it is the element of the whole that has to be a struct, and to have the
        # number of its last member.
        learned("an array without length and name", unnamed, unnamed, (EXISTS, 5, "1:1:5", 0)),
        refusal("an array without length and name first", unnamed, EXISTS, 5, "0:1:5", bad_index("0:1:5", 5, 0)),
        # The index comes before the size of an element, and that is needed also for the first.
        refusal("an index before a size", sizeless, EXISTS, 3, "0:0:2", bad_index("0:0:2", 2, 2)),
        refusal("an element without a size", sizeless, EXISTS, 3, "0:0:0", unexpected(1)),
    ]


def cases():
    return strings() + texts() + resolved() + whole_types() + variants() + roots() + members() + arrays()

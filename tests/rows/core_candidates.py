"""Which types of a kernel a local type may stand for, by kind and name."""
from rows.btf import FLOAT, UNION, pointer, struct_of, ty, typedef
from rows.core_sides import (
    INT_4,
    LOCAL_ID,
    MOVE,
    TARGET_ID,
    TYPE_EXISTS,
    TYPE_SIZE,
    beside,
    conflict,
    enum64_of,
    enum_of,
    learned,
    numbers,
    object_of,
    one_of,
    refused,
    row,
    unreadable,
)


def named(name_of_6="t"):
    """An int, a TYPEDEF `s`, STRUCT `s` with id 3, a PTR, STRUCT `s___a` with id 5, a STRUCT with id 6, UNION `s`."""
    structs = [struct_of("s", 4), pointer(3), struct_of("s___a", 8), struct_of(name_of_6, 4)]
    return [INT_4, typedef("s", 1), *structs, ty("s", UNION, 4)]


# STRUCT `s___z` and UNION `s`, and then ENUM `s` and STRUCT `v`.
LOCAL = [struct_of("s___z", 4), ty("s", UNION, 4), enum_of("s", ("A", 0)), struct_of("v", 4)]


def by_name():
    names = ["s__a", "s_", "s___b___c", "s___", "S"]
    flavors = [struct_of(name, at + 1) for at, name in enumerate(names)]
    return [
        # Both sides go by the name before three underscores; kinds and the rest of the name count for nothing more.
        learned(
            "types by kind and name",
            LOCAL,
            named(),
            (TYPE_EXISTS, 1, "0", 1),
            (TYPE_EXISTS, 2, "0", 1),
            (TARGET_ID, 2, "0", 7),
            (TYPE_EXISTS, 3, "0", 0),
            (TYPE_EXISTS, 4, "0", 0),
            (LOCAL_ID, 4, "0", 4),
        ),
        # The candidates are 3 and 5, in this order.
        row("ids of two candidates", one_of(LOCAL, TARGET_ID, 1, "0"), named(), refused(conflict("s___z", "s___a"))),
        # Candidates are 3 and 4, of 3 and 4 bytes.
        row("names with underscores", one_of(LOCAL, TYPE_SIZE, 1, "0"), flavors, refused(conflict("s___z", "s___"))),
        # The kind is that of the local type as it is named, not of what it stands for.
        learned(
            "a typedef of a struct",
            [struct_of("s", 4), typedef("s", 1)],
            [struct_of("s", 8), INT_4, struct_of("t", 16), typedef("s", 3)],
            (TARGET_ID, 1, "0", 1),
            (TYPE_SIZE, 1, "0", 8),
            (TARGET_ID, 2, "0", 4),
            (TYPE_SIZE, 2, "0", 16),
        ),
        # Enumerations of 32 and of 64 bits are of different kinds.
        learned(
            "enumerations of two kinds",
            [enum_of("e", ("A", 0)), enum64_of("f", ("A", 0))],
            [enum64_of("e", ("A", 0)), enum_of("f", ("A", 0)), enum64_of("f", ("A", 0))],
            (TYPE_EXISTS, 1, "0", 0),
            (TARGET_ID, 2, "0", 3),
        ),
        # A type without a name may stand for each one of its kind without a name.
        learned(
            "types without a name",
            [INT_4, pointer(1), struct_of("s", 4), pointer(3)],
            [struct_of("s", 4), pointer(1), INT_4, pointer(3)],
            (TARGET_ID, 2, "0", 4),
            (TARGET_ID, 4, "0", 2),
        ),
        # What was looked up for one local type is not what another one stands for, whose turn comes between.
        learned(
            "types that are asked for in turn",
            LOCAL,
            [struct_of("v", 1), struct_of("s", 2), ty("s", UNION, 3)],
            (TYPE_SIZE, 1, "0", 2),
            (TYPE_SIZE, 4, "0", 1),
            (TYPE_SIZE, 1, "0", 2),
            (TYPE_SIZE, 2, "0", 3),
            (TYPE_SIZE, 4, "0", 1),
        ),
    ]


def unreadable_names():
    """Kernels of which a name of some kind can't be read."""
    # Another STRUCT has such a name behind it, and a type of another kind before.
    kernel = [*named(1000), struct_of(900, 4), ty(800, FLOAT, 8)]
    before = [ty(700, FLOAT, 8), struct_of("s", 4), struct_of("s", 8)]
    lost = refused(unreadable(1000))
    return [
        # The lowest id comes first.
        row("a candidate's name that can't be read", one_of(LOCAL, TYPE_EXISTS, 1, "0"), kernel, lost),
        # It is a fault for each type of the kind, whatever it is called.
        row("a name that can't be read for another type", one_of(LOCAL, TYPE_EXISTS, 4, "0"), kernel, lost),
        # Names of other kinds are not looked at, and for the local id none is.
        learned(
            "names of other kinds that can't be read",
            LOCAL,
            kernel,
            (TARGET_ID, 2, "0", 7),
            (LOCAL_ID, 1, "0", 1),
            (TYPE_EXISTS, 3, "0", 0),
        ),
        # All names are read before any candidate is compared.
        row(
            "a name that can't be read behind candidates that differ",
            one_of(LOCAL, TYPE_SIZE, 1, "0"),
            [*before, struct_of(1000, 4)],
            lost,
        ),
        row("candidates that differ", one_of(LOCAL, TYPE_SIZE, 1, "0"), before, refused(conflict("s___z", "s"))),
    ]


def none():
    """Kernels in which no type has the name."""
    asked = [TYPE_EXISTS, TYPE_SIZE, TARGET_ID, LOCAL_ID]
    data = object_of(LOCAL, [(8 * at, kind, 1, "0") for at, kind in enumerate(asked)], 4 * [MOVE])
    found = numbers(0, None, None, 1)
    return [beside("no type of the name", data, [("one_int", [INT_4], found), ("empty", [], found)])]


def cases():
    return by_name() + unreadable_names() + none()

"""BTF-defined maps."""
from rows.btf import array, btf, datasec, function, integer, pointer, struct_of, typedef, variable
from rows.case import Case
from rows.elf import OBJECT, PROGBITS, File

# Types 1 to 6 of most rows: an INT, a pointer to it, and pointers to arrays of 1 and of 64 of it.
INT, TO_INT, ONE, TO_ONE, MANY, TO_MANY = NUMBERS = [
    integer("int", 4),
    pointer(1),
    array(1, 1),
    pointer(3),
    array(1, 64),
    pointer(5),
]


def declaring(*types):
    """These types, and the symbols `m` and twice `n` of the section `.maps`, number 3."""
    file = File().section(".maps", PROGBITS, 3, bytes(32))
    file.symbol("m", OBJECT, 3, 0, 32).symbol("n", OBJECT, 3, 0, 32).symbol("n", OBJECT, 3, 0, 32)
    return file.data(".BTF", btf(*types)).bytes()


MAPS = [
    (
        "a map of an array",
        [
            *NUMBERS,
            struct_of("", 32, ("type", 4, 0), ("max_entries", 6, 64), ("key", 2, 128), ("value", 2, 192)),
            variable("m", 7),
            datasec(".maps", 8),
        ],
        "map m in 3 symbol 1 type 1 key 4:1 value 4:1 entries 64 flags 0 extra 0 None",
    ),
    # An unknown member is passed over, and the later of two members stands. The later of two symbols stands too.
    (
        "a map with each member",
        [
            *NUMBERS,
            struct_of(
                "",
                64,
                ("other", 1, 0),
                ("type", 4, 0),
                ("type", 6, 0),
                ("key_size", 6, 0),
                ("value_size", 4, 0),
                ("map_flags", 6, 0),
                ("map_extra", 6, 0),
                ("pinning", 4, 0),
            ),
            typedef("t", 7),
            variable("n", 8),
            datasec(".maps", 9),
        ],
        "map n in 3 symbol 3 type 64 key 64:0 value 1:0 entries 0 flags 64 extra 64 ByName",
    ),
    (
        "two maps of one name",
        [
            *NUMBERS,
            struct_of("", 8, ("pinning", 6, 0)),
            struct_of("", 8, ("max_entries", 6, 0)),
            variable("m", 7),
            variable("m", 8),
            datasec(".maps", 9, 10),
            datasec("other", 1),
        ],
        "map m in 3 symbol 1 type 0 key 0:0 value 0:0 entries 64 flags 0 extra 0 None",
    ),
    # A pinning of 64 is none.
    (
        "a map of an unknown pinning",
        [*NUMBERS, struct_of("", 8, ("pinning", 6, 0)), variable("m", 7), datasec(".maps", 8)],
        "map m in 3 symbol 1 type 0 key 0:0 value 0:0 entries 0 flags 0 extra 0 None",
    ),
    (
        "a map of the first unknown pinning",
        [INT, array(1, 2), pointer(2), struct_of("", 8, ("pinning", 3, 0)), variable("m", 4), datasec(".maps", 5)],
        "map m in 3 symbol 1 type 0 key 0:0 value 0:0 entries 0 flags 0 extra 0 None",
    ),
    (
        "a map of maps",
        [
            *NUMBERS[:4],
            struct_of("inner", 16, ("type", 4, 0), ("value", 2, 64)),
            pointer(5),
            array(6, 0),
            struct_of("", 16, ("type", 4, 0), ("values", 7, 64)),
            variable("m", 8),
            datasec(".maps", 9),
        ],
        """
        map m in 3 symbol 1 type 1 key 0:0 value 4:0 entries 0 flags 0 extra 0 None
        inner in 0 symbol 0 type 1 key 0:0 value 4:1 entries 0 flags 0 extra 0 None
        """,
    ),
]


def unexpected(number):
    return f"BtfError(UnexpectedBtfType {{ type_id: {number} }})"


def named(error):
    return f'BtfError({error} {{ name: "m" }})'


FAULTS = [
    ("a function in .maps", [INT, function("f", 0), datasec(".maps", 1)], unexpected(0)),
    ("a function of an unknown type in .maps", [INT, function("f", 7), datasec(".maps", 2)], unexpected(7)),
    ("an unknown type in .maps", [INT, datasec(".maps", 9)], "BtfError(UnknownBtfType { type_id: 9 })"),
    (
        "a map of an unreadable name",
        [INT, variable(99, 1), datasec(".maps", 2)],
        "BtfError(InvalidStringOffset { offset: 99 })",
    ),
    ("a section of an unreadable name", [INT, datasec(99)], "BtfError(InvalidStringOffset { offset: 99 })"),
    ("a map that is a pointer", [INT, TO_INT, variable("m", 2), datasec(".maps", 3)], unexpected(1)),
    (
        "a type that is a number",
        [INT, struct_of("", 8, ("type", 1, 0)), variable("m", 2), datasec(".maps", 3)],
        unexpected(0),
    ),
    (
        "a type that points to a number",
        [INT, TO_INT, struct_of("", 8, ("type", 2, 0)), variable("m", 3), datasec(".maps", 4)],
        unexpected(0),
    ),
    (
        "a key that is no pointer",
        [INT, typedef("t", 1), struct_of("", 8, ("key", 2, 0)), variable("m", 3), datasec(".maps", 4)],
        unexpected(2),
    ),
    (
        "a value that points to nothing",
        [pointer(0), struct_of("", 8, ("value", 1, 0)), variable("m", 2), datasec(".maps", 3)],
        unexpected(0),
    ),
    (
        "maps in an array of numbers",
        [INT, TO_INT, ONE, struct_of("", 8, ("values", 3, 0)), variable("m", 4), datasec(".maps", 5)],
        named("InvalidValuesSpec"),
    ),
    (
        "a map of pinned maps",
        [
            *NUMBERS[:4],
            struct_of("", 8, ("type", 4, 0), ("pinning", 4, 0)),
            pointer(5),
            array(6, 0),
            struct_of("", 8, ("values", 7, 0)),
            variable("m", 8),
            datasec(".maps", 9),
        ],
        named("InnerMapCannotBePinned"),
    ),
    (
        "a map of maps of maps",
        [
            struct_of("", 8, ("values", 1, 0)),
            pointer(1),
            array(2, 0),
            struct_of("", 8, ("values", 3, 0)),
            variable("m", 4),
            datasec(".maps", 5),
        ],
        named("MultiLevelMapInMapNotSupported"),
    ),
    (
        "a map of a type without an end",
        [typedef("t", 1), variable("m", 1), datasec(".maps", 2)],
        "BtfError(MaximumTypeDepth { type_id: 1 })",
    ),
    (
        "a map without a symbol",
        [struct_of("", 0), variable("other", 1), datasec(".maps", 2)],
        'SymbolNotFound { name: "other" }',
    ),
    # The members are read first.
    (
        "a faulty map without a symbol",
        [struct_of("", 8, ("type", 1, 0)), variable("other", 1), datasec(".maps", 2)],
        unexpected(0),
    ),
]


def bare(types):
    """A section `.maps`, number 3, and a section with or without types, and no symbol."""
    return File().section(".maps", PROGBITS, 3, b"").data(types, btf()).bytes()


def cases():
    rows = [(name, declaring(*types), expected) for name, types, expected in MAPS + FAULTS]
    rows += [
        ("maps without types", bare(".BTF2"), "NoBTF"),
        ("maps without symbols", bare(".BTF"), 'NoSymbolsForSection { section_name: ".maps" }'),
    ]
    return [Case(name, data, {"parsed btf_defined_maps": expected}) for name, data, expected in rows]

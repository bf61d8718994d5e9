"""Externs, and the types that they add."""
from rows.btf import btf, datasec, function, integer, prototype, struct_of, typedef, variable
from rows.case import Case
from rows.elf import File

# Symbols without a section: of no type, and with the binding GLOBAL or WEAK.
GLOBAL, WEAK = 0x10, 0x20


def declaring(*types):
    """These types, and the symbols `v`, weak `f`, `w` and weak `w`."""
    file = File().symbol("v", GLOBAL, 0, 0, 0).symbol("f", WEAK, 0, 0, 0)
    file.symbol("w", GLOBAL, 0, 0, 0).symbol("w", WEAK, 0, 0, 0)
    return file.data(".BTF", btf(*types)).bytes()


# What is added is looked for from the id behind the file's own types on.
EXTERNS = [
    (
        "a function and a variable of the kernel",
        [prototype(0), function("f", 1), variable("v", 0), datasec(".ksyms", 2, 3)],
        """
        extern f type 2 typed true weak true resolved false None None
        extern v type 3 typed false weak false resolved false None None
        """,
        """
        5 int: Int { name_offset: 12, size: 4, int_data: 16777248 }
        6 ksym_func_placeholder: Var { name_offset: 16, btf_type: 5, linkage: 1 }
        """,
    ),
    # An INT of four bytes is there already.
    (
        "a function beside numbers",
        [integer("long", 8), integer("word", 4), prototype(0), function("f", 3), datasec(".ksyms", 4)],
        "extern f type 4 typed true weak true resolved false None None",
        "6 ksym_func_placeholder: Var { name_offset: 20, btf_type: 2, linkage: 1 }",
    ),
    (
        "variables of void and of a struct",
        [typedef("t", 0), struct_of("s", 0), variable("v", 1), variable("w", 2), datasec(".ksyms", 3, 4)],
        """
        extern v type 3 typed false weak false resolved false None None
        extern w type 4 typed true weak false resolved false None None
        """,
        "",
    ),
    # The later variable of a name stands; the later section of the name isn't read.
    (
        "two variables of one name, and two sections",
        [
            integer("int", 4),
            variable("v", 0),
            variable("v", 1),
            variable("w", 0),
            datasec(".ksyms", 2, 3),
            datasec(".ksyms", 4),
        ],
        "extern v type 3 typed true weak false resolved false None None",
        "",
    ),
    ("a section of another name", [integer("int", 4), datasec(".ksym", 1)], "", ""),
]

FAULTS = [
    ("a struct in .ksyms", [struct_of("v", 0), datasec(".ksyms", 1)], "BtfError(InvalidDatasec)"),
    ("an extern without a symbol", [variable("x", 0), datasec(".ksyms", 1)], "BtfError(InvalidSymbolName)"),
    ("an extern of an unknown type", [variable("v", 9), datasec(".ksyms", 1)], "BtfError(UnknownBtfType { type_id: 9 })"),
    # The symbol is looked for first.
    (
        "an extern of an unknown type without a symbol",
        [variable("x", 9), datasec(".ksyms", 1)],
        "BtfError(InvalidSymbolName)",
    ),
    (
        "an extern of an unreadable name",
        [variable(99, 0), datasec(".ksyms", 1)],
        "BtfError(InvalidStringOffset { offset: 99 })",
    ),
    (
        "an extern of a type without an end",
        [typedef("t", 1), variable("v", 1), datasec(".ksyms", 2)],
        "BtfError(MaximumTypeDepth { type_id: 1 })",
    ),
    (
        "a section of an unreadable name before externs",
        [datasec(99), variable("x", 0), datasec(".ksyms", 2)],
        "BtfError(InvalidStringOffset { offset: 99 })",
    ),
    # Each type is looked up before the first is read.
    (
        "an unknown type in .ksyms behind a struct",
        [struct_of("v", 0), datasec(".ksyms", 1, 9)],
        "BtfError(UnknownBtfType { type_id: 9 })",
    ),
    # Unless a function adds a variable there.
    (
        "an unknown type in .ksyms behind a struct and a function",
        [struct_of("v", 0), prototype(0), function("f", 2), datasec(".ksyms", 1, 3, 9)],
        "BtfError(InvalidDatasec)",
    ),
]


def cases():
    found = [
        Case(name, declaring(*types), {"parsed externs": externs, f"types {len(types) + 1}": added})
        for name, types, externs, added in EXTERNS
    ]
    return found + [Case(name, declaring(*types), {"parsed externs": fault}) for name, types, fault in FAULTS]

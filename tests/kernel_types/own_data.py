"""DATASECs of a file's own variables: their sizes, the places of variables, and those that are hidden."""
from row import (
    EXTERN,
    GLOBAL_FUNC,
    GLOBAL_NO_TYPE,
    GLOBAL_OBJECT,
    HIDDEN,
    INTERNAL,
    LOCAL_OBJECT,
    PROTECTED,
    SIGNED_INT,
    STATIC,
    WEAK_OBJECT,
    func,
    proto,
    refused,
    section,
    taken,
    var,
)
from rows.btf import (
    CONST,
    DECL_TAG,
    ENUM,
    ENUM64,
    FLOAT,
    FWD,
    RESTRICT,
    TYPE_TAG,
    UNION,
    VOLATILE,
    array,
    pointer,
    struct_of,
    ty,
    typedef,
)
from rows.elf import EXIT

A, B = var("a", 1), var("b", 1)

TWELVE = {"sections": [(".data", bytes(12))], "symbols": [("a", GLOBAL_OBJECT, ".data", 0), ("b", GLOBAL_OBJECT, ".data", 8)]}


def no_size(number):
    return f"BTF type {number} is a section without a size, and the file has none of its name with one"


def no_variable(number):
    return f"BTF type {number}, which an entry of a section names, is no variable"


def no_symbol(number):
    return f"BTF type {number} is a global variable, and no symbol has its name"


def without_sizes():
    """A DATASEC that states no size, and sections of the file that have none of 32 bits."""
    types = [SIGNED_INT, A, section(".bss", 0, (2, 0, 4))]
    symbols = [("a", GLOBAL_OBJECT, None)]
    return [
        refused("no_section_of_the_name", types, no_size(3), sections=[(".bss.a", 8), (".data", bytes(8))], symbols=symbols),
        refused("section_of_0_bytes", types, no_size(3), sections=[(".bss", 0)], symbols=symbols),
        refused("section_of_4_gib", types, no_size(3), sections=[(".bss", 1 << 32)], symbols=symbols),
    ]


def without_variables():
    """Entries that name an INT, void, and a type that isn't there."""
    def naming(number):
        return [SIGNED_INT, section(".data", 8, (number, 0, 4))]

    return [
        refused("entry_of_an_int", naming(1), no_variable(1)),
        refused("entry_of_void", naming(0), no_variable(0)),
        refused("entry_of_no_type", naming(3), no_variable(3)),
    ]


def without_symbols():
    """A global variable, and symbols of its name that are local, a function's, of no type; one of another name."""
    types = [SIGNED_INT, A, section(".data", 0, (2, 0, 4))]
    sized = [SIGNED_INT, A, section(".data", 4, (2, 0, 4))]
    sections = [(".data", bytes(4)), (".text", EXIT)]
    others = [
        ("a", LOCAL_OBJECT, ".data"), ("a", GLOBAL_FUNC, ".text"),
        ("a", GLOBAL_NO_TYPE, ".data"), ("ab", GLOBAL_OBJECT, ".data"),
    ]
    return [
        refused("no_symbol", types, no_symbol(2), sections=sections, symbols=others),
        refused("no_symbol_of_a_stated_size", sized, no_symbol(2), sections=sections),
    ]


def faults_in_order():
    """Two faults in one object: that of the lower id of a DATASEC counts, of one that of its size, of entries the first."""
    by_id = [SIGNED_INT, A, section(".data", 4, (2, 0, 4)), section(".bss", 0)]
    by_size = [SIGNED_INT, section(".data", 0, (1, 0, 4))]
    by_entry = [SIGNED_INT, A, section(".data", 8, (2, 4, 4), (1, 0, 4))]
    return [
        refused("no_symbol_then_no_size", by_id, no_symbol(2)),
        refused("no_size_then_no_variable", by_size, no_size(2)),
        refused("no_symbol_then_no_variable", by_entry, no_symbol(2)),
    ]


def sizes():
    """Sizes that are stated and ones that aren't; entries come out in the order of their offsets."""
    entries = section(".data", 0, (3, 0, 4), (2, 0, 4))
    stated = section(".data", 24, (3, 16, 4), (2, 4, 4))
    equal = section(".data", 16, (2, 8, 4), (3, 4, 4), (3, 8, 4), (2, 4, 4))
    largest = [SIGNED_INT, section(".bss", 0)]
    two = [(".data", bytes(8)), (".data", bytes(16))]
    return [
        taken("size_of_a_section", [SIGNED_INT, A, B, entries], {4: section(".data", 12, (2, 0, 4), (3, 8, 4))}, **TWELVE),
        taken("size_that_is_stated", [SIGNED_INT, A, B, stated], {4: section(".data", 24, (2, 4, 4), (3, 16, 4))}, **TWELVE),
        taken(
            "entries_of_one_offset",
            [SIGNED_INT, A, B, equal],
            {4: section(".data", 16, (3, 4, 4), (2, 4, 4), (2, 8, 4), (3, 8, 4))},
            **TWELVE,
        ),
        taken("section_of_4_gib_less_1", largest, {2: section(".bss", 2**32 - 1)}, sections=[(".bss", 2**32 - 1)]),
        taken("sections_of_one_name", [SIGNED_INT, section(".data", 0)], {2: section(".data", 8)}, sections=two),
    ]


def places():
    """Variables that keep their offsets, and which symbol another one has."""
    kept = [SIGNED_INT, var("s", 1, STATIC), var("e", 1, EXTERN), A, section(".data", 0, (2, 8, 4), (3, 4, 4), (4, 0, 4))]
    one = [SIGNED_INT, A, section(".data", 0, (2, 0, 4))]
    sections = [(".data", bytes(16)), (".text", EXIT)]
    several = [
        ("a", LOCAL_OBJECT, ".data", 4), ("a", GLOBAL_FUNC, ".text", 0),
        ("a", WEAK_OBJECT, ".data", 8), ("a", GLOBAL_OBJECT, ".data", 12, HIDDEN),
    ]
    return [
        taken(
            "static_and_extern_variables",
            kept,
            {5: section(".data", 16, (3, 4, 4), (2, 8, 4), (4, 12, 4))},
            sections=[(".data", bytes(16))],
            symbols=[("s", LOCAL_OBJECT, ".data", 0), ("e", GLOBAL_OBJECT, ".data", 0), ("a", GLOBAL_OBJECT, ".data", 12)],
        ),
        taken("first_symbol_of_the_name", one, {3: section(".data", 16, (2, 8, 4))}, sections=sections, symbols=several),
        taken(
            "address_past_32_bits",
            one,
            {3: section(".data", 16, (2, 4, 4))},
            sections=sections,
            symbols=[("a", GLOBAL_OBJECT, ".data", (1 << 32) + 4)],
        ),
    ]


def hidden_variables():
    """Variables of each visibility: hidden and internal ones are static, also where the size is stated."""
    types = [SIGNED_INT, A, B, var("c", 1), var("d", 1)]
    written = {3: var("b", 1, STATIC), 4: var("c", 1, STATIC)}
    symbols = [
        ("a", GLOBAL_OBJECT, ".data", 0), ("b", GLOBAL_OBJECT, ".data", 4, INTERNAL),
        ("c", WEAK_OBJECT, ".data", 8, HIDDEN), ("d", GLOBAL_OBJECT, ".data", 12, PROTECTED),
    ]
    file = {"sections": [(".data", bytes(16))], "symbols": symbols}
    placed = section(".data", 16, (2, 0, 4), (3, 4, 4), (4, 8, 4), (5, 12, 4))
    stated = section(".data", 16, (5, 0, 4), (4, 4, 4), (3, 8, 4), (2, 12, 4))
    return [
        taken(
            "hidden_variables",
            [*types, section(".data", 0, (2, 0, 4), (3, 0, 4), (4, 0, 4), (5, 0, 4))],
            {**written, 6: placed},
            **file,
        ),
        taken("hidden_variables_of_a_stated_size", [*types, stated], written, **file),
    ]


def all_kinds():
    """Types of all kinds before, between and behind two DATASECs. Bits of info words that mean nothing are kept."""
    types = [
        SIGNED_INT, pointer(1), array(1, 4), struct_of("s", 4, ("m", 1, 0)), ty("u", UNION, 4, "m", 1, 0, entries=1),
        ty("e", ENUM, 4, "V", 1, "W", 2, entries=2, flag=1), ty("w", FWD, 0, flag=1), typedef("t", 1), ty("", VOLATILE, 1),
        ty("", CONST, 1), ty("", RESTRICT, 2), proto(1, ("p", 1), ("q", 2)), func("f", 12), A,
        section(".data", 0, (14, 0, 4)), ty("double", FLOAT, 8), ty("tag", DECL_TAG, 14, 2**32 - 1), ty("of", TYPE_TAG, 1),
        ty("l", ENUM64, 8, "X", 1, 2, entries=1), ty("i", 3 << 5 | 1, 4, 32), B, section(".bss", 0, (21, 0, 4)),
    ]
    symbols = [("a", GLOBAL_OBJECT, ".data", 4), ("b", GLOBAL_OBJECT, ".bss", 8)]
    written = {15: section(".data", 8, (14, 4, 4)), 22: section(".bss", 12, (21, 8, 4))}
    return [taken("all_kinds", types, written, sections=[(".data", bytes(8)), (".bss", 12)], symbols=symbols)]


def rows():
    faults = without_sizes() + without_variables() + without_symbols() + faults_in_order()
    return faults + sizes() + places() + hidden_variables() + all_kinds()

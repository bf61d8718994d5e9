"""Sections of all kinds and a hidden function in one object, of either byte order."""
from ksyms import PLACEHOLDER, externs, placeholder
from row import EXTERN, GLOBAL_FUNC, GLOBAL_OBJECT, HIDDEN, SIGNED_INT, STATIC, func, proto, section, taken, var
from rows.btf import BIG, LITTLE
from rows.elf import EXIT

TYPES = [
    SIGNED_INT, proto(1, ("x", 1)), func("helper", 2), proto(0, ("", 1)), func("called", 4, EXTERN), var("told", 1, EXTERN),
    var("CONFIG_B", 1, EXTERN), var("CONFIG_A", 1, EXTERN), var("a", 1), var("b", 1), section(".kconfig", 0, (7, 0, 4), (8, 0, 4)),
    section(".ksyms", 0, (5, 0, 0), (6, 0, 0)), section(".data", 0, (10, 0, 4), (9, 0, 4)),
]

WRITTEN = {
    3: func("helper", 2, STATIC), 4: proto(0, (PLACEHOLDER, 1)), 5: func("called", 4), 6: var("told", 1),
    7: var("CONFIG_B", 1), 8: var("CONFIG_A", 1), 10: var("b", 1, STATIC), 11: section(".kconfig", 8, (8, 0, 4), (7, 4, 4)),
    12: section(".ksyms", 8, (14, 0, 4), (6, 4, 4)), 13: section(".data", 8, (9, 0, 4), (10, 4, 4)),
}

SYMBOLS = [
    ("helper", GLOBAL_FUNC, ".text", 0, HIDDEN), ("a", GLOBAL_OBJECT, ".data", 0), ("b", GLOBAL_OBJECT, ".data", 4, HIDDEN),
    *externs("called", "told", "CONFIG_B", "CONFIG_A"),
]


def rows():
    file = {"sections": [(".text", EXIT), (".data", bytes(8))], "symbols": SYMBOLS}
    return [
        taken(name, TYPES, WRITTEN, [placeholder(1)], order, **file)
        for name, order in {"sections_of_all_kinds": LITTLE, "big_endian": BIG}.items()
    ]

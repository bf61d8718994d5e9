"""Functions of `.text` that are hidden, and what leaves a function global."""
from row import (
    EXTERN,
    GLOBAL_FUNC,
    GLOBAL_NO_TYPE,
    GLOBAL_OBJECT,
    HIDDEN,
    INTERNAL,
    LOCAL_FUNC,
    PROTECTED,
    SIGNED_INT,
    STATIC,
    WEAK_FUNC,
    func,
    proto,
    taken,
)
from rows.btf import typedef
from rows.elf import EXIT

PROTO = proto(1, ("x", 1))


def code(count):
    """So many functions in `.text`, and one in a section of programs."""
    return [(".text", EXIT * count), ("socket", EXIT)]


def visibilities():
    """Functions of each visibility."""
    names = ["hidden", "internal", "protected", "shown", "weak"]
    symbols = [
        ("hidden", GLOBAL_FUNC, ".text", 0, HIDDEN), ("internal", GLOBAL_FUNC, ".text", 8, INTERNAL),
        ("protected", GLOBAL_FUNC, ".text", 16, PROTECTED), ("shown", GLOBAL_FUNC, ".text", 24),
        ("weak", WEAK_FUNC, ".text", 32, HIDDEN),
    ]
    written = {3: func("hidden", 2, STATIC), 4: func("internal", 2, STATIC), 7: func("weak", 2, STATIC)}
    types = [SIGNED_INT, PROTO, *(func(name, 2) for name in names)]
    return taken("hidden_functions", types, written, sections=code(5), symbols=symbols)


def other_symbols():
    """Hidden symbols that are no function of `.text` bound GLOBAL or WEAK."""
    names = ["elsewhere", "local", "number", "untyped", "undefined"]
    symbols = [
        ("elsewhere", GLOBAL_FUNC, "socket", 0, HIDDEN), ("local", LOCAL_FUNC, ".text", 0, HIDDEN),
        ("number", GLOBAL_OBJECT, ".text", 8, HIDDEN), ("untyped", GLOBAL_NO_TYPE, ".text", 8, HIDDEN),
        ("undefined", GLOBAL_FUNC, None, 0, HIDDEN),
    ]
    types = [SIGNED_INT, PROTO, *(func(name, 2) for name in names)]
    return taken("hidden_symbols_that_are_no_functions", types, sections=code(2), symbols=symbols)


def several_types():
    """Types of the name of a hidden function: the first global FUNC among them."""
    types = [SIGNED_INT, PROTO, typedef("f", 1), func("f", 2, STATIC), func("f", 2, EXTERN), func("f", 2), func("f", 2)]
    symbols = [("f", GLOBAL_FUNC, ".text", 0, HIDDEN)]
    return taken("types_of_a_hidden_function", types, {6: func("f", 2, STATIC)}, sections=code(1), symbols=symbols)


def no_text():
    """A hidden function of a file without `.text`."""
    symbols = [("f", GLOBAL_FUNC, "socket", 0, HIDDEN)]
    return taken("hidden_function_without_text", [SIGNED_INT, PROTO, func("f", 2)], sections=code(0)[1:], symbols=symbols)


def rows():
    return [visibilities(), other_symbols(), several_types(), no_text()]

"""DATASECs `.ksyms`: the kernel's functions and variables, and what stands in for them."""
from own_data import no_variable
from row import EXTERN, SIGNED_INT, WEAK_NO_TYPE, func, proto, refused, section, taken, var
from rows.btf import CONST, INT, integer, pointer, struct_of, ty

LONG = integer("long", 8)

# The variable that stands in for functions, by the id of its type, and the name that it gives parameters.
PLACEHOLDER = "ksym_func_placeholder"


def placeholder(number):
    return var(PLACEHOLDER, number)


def externs(*names):
    """Weak symbols that are defined nowhere."""
    return [(name, WEAK_NO_TYPE) for name in names]


def faults():
    """Entries that name an INT and no type; the first one of each counts."""
    symbols = externs("v")
    types = [SIGNED_INT, var("v", 1, EXTERN), section(".ksyms", 0, (2, 0, 0), (1, 0, 0), (7, 0, 0))]
    return [
        refused("ksyms_entry_of_an_int", types, no_variable(1), symbols=symbols),
        refused("ksyms_entry_of_no_type", [SIGNED_INT, section(".ksyms", 0, (7, 0, 0), (1, 0, 0))], no_variable(7)),
    ]


def variables():
    """Variables become ones of 4 bytes: of the first INT that has as many, or of one that is appended."""
    types = [LONG, integer("u32", 4), SIGNED_INT, var("v", 1, EXTERN), ty("", CONST, 0), var("w", 5, EXTERN)]
    placed = section(".ksyms", 8, (6, 0, 4), (4, 4, 4))
    without = [LONG, ty("int", INT, 2, 16), var("v", 1, EXTERN)]
    return [
        taken(
            "ksyms_variables",
            [*types, section(".ksyms", 40, (6, 24, 16), (4, 8, 8))],
            {4: var("v", 2), 6: var("w", 2), 7: placed},
            symbols=externs("v", "w"),
        ),
        taken(
            "ksyms_variable_without_an_int_of_4_bytes",
            [*without, section(".ksyms", 0, (3, 0, 0))],
            {3: var("v", 5), 4: section(".ksyms", 4, (3, 0, 4))},
            [SIGNED_INT],
            symbols=externs("v"),
        ),
        taken("ksyms_of_nothing", [LONG, section(".ksyms", 0)]),
    ]


def functions():
    """Functions become global, their parameters get names, and a variable that is appended stands in for each."""
    types = [
        SIGNED_INT, pointer(0), proto(1, ("", 2), ("named", 1), ("", 1)), func("f", 3, EXTERN), proto(0),
        func("g", 5, EXTERN), section(".ksyms", 0, (4, 0, 0), (6, 0, 0)),
    ]
    written = {
        3: proto(1, (PLACEHOLDER, 2), ("named", 1), (PLACEHOLDER, 1)), 4: func("f", 3), 6: func("g", 5),
        7: section(".ksyms", 8, (8, 0, 4), (8, 4, 4)),
    }
    without = [LONG, proto(0, ("", 1)), func("f", 2, EXTERN), section(".ksyms", 0, (3, 0, 0))]
    of_count = [SIGNED_INT, proto(0, ("", 1), ("", 0)), func("f", 2, EXTERN), section(".ksyms", 0, (3, 0, 0))]
    return [
        taken("ksyms_functions", types, written, [placeholder(1)], symbols=externs("f", "g")),
        taken(
            "ksyms_function_without_an_int_of_4_bytes",
            without,
            {2: proto(0, (PLACEHOLDER, 1)), 3: func("f", 2), 4: section(".ksyms", 4, (6, 0, 4))},
            [SIGNED_INT, placeholder(5)],
            symbols=externs("f"),
        ),
        taken(
            "ksyms_function_of_variable_count",
            of_count,
            {2: proto(0, (PLACEHOLDER, 1), ("", 0)), 3: func("f", 2), 4: section(".ksyms", 4, (5, 0, 4))},
            [placeholder(1)],
            symbols=externs("f"),
        ),
    ]


def both():
    """Variables and functions of one prototype among each other."""
    types = [
        SIGNED_INT, struct_of("s", 4, ("m", 1, 0)), proto(0, ("", 1)), func("f", 3, EXTERN), var("v", 2, EXTERN),
        func("g", 3, EXTERN), section(".ksyms", 0, (5, 0, 0), (4, 0, 0), (6, 0, 0)),
    ]
    written = {
        3: proto(0, (PLACEHOLDER, 1)), 4: func("f", 3), 5: var("v", 1), 6: func("g", 3),
        7: section(".ksyms", 12, (5, 0, 4), (8, 4, 4), (8, 8, 4)),
    }
    return [taken("ksyms_functions_and_variables", types, written, [placeholder(1)], symbols=externs("f", "v", "g"))]


def rows():
    return faults() + variables() + functions() + both()

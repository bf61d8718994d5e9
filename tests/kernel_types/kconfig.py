"""DATASECs `.kconfig`: where externs of the kernel's configuration stand in the value of their map."""
import ksyms
from own_data import no_symbol, no_variable
from row import EXTERN, SIGNED_INT, func, proto, refused, section, taken, var
from rows.btf import CONST, ENUM, ENUM64, INT, TYPE_TAG, VOLATILE, array, integer, pointer, struct_of, ty, typedef

BYTE = integer("char", 1)
TOO_LARGE = "the types don't fit: their ids, offsets and lengths have 32 bits"


def unsupported(number):
    return f"BTF type {number} is an extern of .kconfig of a type that has no size there"


def extern(name, held):
    return var(f"CONFIG_{name}", held, EXTERN)


def externs(*names):
    """Weak symbols that are defined nowhere."""
    return ksyms.externs(*(f"CONFIG_{name}" for name in names))


def unsupported_types():
    """A STRUCT, a pointer, an array of arrays, and an array of 2^32 bytes."""
    def of(kinds, held, name):
        types = [SIGNED_INT, *kinds, extern("A", held), section(".kconfig", 0, (len(kinds) + 2, 0, 4))]
        return refused(f"kconfig_{name}", types, unsupported(len(kinds) + 2), symbols=externs("A"))

    return [
        of([struct_of("s", 4, ("m", 1, 0))], 2, "struct"),
        of([pointer(1)], 2, "pointer"),
        of([array(1, 2), array(2, 2)], 3, "array_of_arrays"),
        of([array(1, 1 << 30)], 2, "array_of_4_gib"),
    ]


def other_faults():
    """Entries that are no variables; values of 2^32 bytes together, and a fault of a later entry, which comes first."""
    called = [SIGNED_INT, proto(0), func("f", 2, EXTERN), section(".kconfig", 0, (3, 0, 0))]
    halves = [BYTE, array(1, 1 << 31), extern("A", 2), extern("B", 2)]
    struct = [struct_of("s", 1, ("m", 1, 0)), extern("C", 5)]
    before = section(".kconfig", 0, (3, 0, 0), (4, 0, 0), (6, 0, 0))
    data = [SIGNED_INT, var("a", 1), section(".kconfig", 0, (1, 0, 0)), section(".data", 4, (2, 0, 4))]
    return [
        refused("kconfig_function", called, no_variable(3), symbols=ksyms.externs("f")),
        refused("kconfig_of_4_gib", [*halves, section(".kconfig", 0, (3, 0, 0), (4, 0, 0))], TOO_LARGE, symbols=externs("A", "B")),
        refused("kconfig_struct_then_of_4_gib", [*halves, *struct, before], unsupported(6), symbols=externs("A", "B", "C")),
        refused("kconfig_fault_then_no_symbol", data, no_variable(1)),
        refused("no_symbol_then_kconfig_fault", [*data[:2], data[3], data[2]], no_symbol(2)),
    ]


def compiled_types():
    """Externs of the types that loaders give values: by descending alignment, ascending size and name."""
    types = [
        ty("_Bool", INT, 1, 4 << 24 | 8), integer("u16", 2), SIGNED_INT, integer("u64", 8), BYTE, array(5, 7, 3), array(5, 3, 3),
        ty("libbpf_tristate", ENUM, 4, "TRI_NO", 0, "TRI_YES", 1, "TRI_MODULE", 2, entries=3),
    ]
    held = {"VERSION": 3, "BOOL": 1, "LONG": 4, "TEXT": 6, "SHORT": 2, "NAME": 7, "TRISTATE": 8, "CHAR": 5}
    variables = [extern(name, number) for name, number in held.items()]
    sizes = [4, 1, 8, 7, 2, 3, 4, 1]
    entries = [(9 + at, 0, size) for at, size in enumerate(sizes)]
    places = [(11, 0, 8), (15, 8, 4), (9, 12, 4), (13, 16, 2), (10, 18, 1), (16, 19, 1), (14, 20, 3), (12, 23, 7)]
    written = {9 + at: var(f"CONFIG_{name}", number) for at, (name, number) in enumerate(held.items())}
    written[17] = section(".kconfig", 30, *places)
    return taken("kconfig_alignments", [*types, *variables, section(".kconfig", 0, *entries)], written, symbols=externs(*held))


def names():
    """Externs of one size by their names, in a DATASEC that states a size and offsets."""
    types = [SIGNED_INT, extern("B", 1), extern("AB", 1), extern("A", 1)]
    written = {2: var("CONFIG_B", 1), 3: var("CONFIG_AB", 1), 4: var("CONFIG_A", 1)}
    written[5] = section(".kconfig", 12, (4, 0, 4), (3, 4, 4), (2, 8, 4))
    stated = section(".kconfig", 100, (2, 0, 4), (3, 96, 4), (4, 50, 4))
    return taken("kconfig_names", [*types, stated], written, symbols=externs("B", "AB", "A"))


def through_names():
    """Types behind TYPEDEFs, CONST, VOLATILE and a TYPE_TAG, elements of arrays too; an ENUM64."""
    types = [
        integer("u64", 8), typedef("large", 1), ty("", CONST, 2), array(3, 3), ty("", VOLATILE, 4), ty("tag", TYPE_TAG, 2),
        ty("e", ENUM64, 8, "V", 1, 2, entries=1), extern("A", 5), extern("B", 6), extern("C", 7),
    ]
    written = {8: var("CONFIG_A", 5), 9: var("CONFIG_B", 6), 10: var("CONFIG_C", 7)}
    written[11] = section(".kconfig", 40, (9, 0, 8), (10, 8, 8), (8, 16, 24))
    entries = section(".kconfig", 0, (8, 0, 24), (9, 0, 8), (10, 0, 8))
    return taken("kconfig_through_names", [*types, entries], written, symbols=externs("A", "B", "C"))


def odd_sizes():
    """Integers of 16, 5, 3, 1 and 0 bytes, and an array of no elements: places between which there is room."""
    kinds = [integer(name, size) for name, size in {"t": 16, "v": 5, "h": 3, "o": 1, "n": 0}.items()]
    held = {"O": 4, "N": 5, "H": 3, "V": 2, "T": 1, "Z": 7}
    variables = [extern(name, number) for name, number in held.items()]
    entries = section(".kconfig", 0, (8, 0, 1), (9, 0, 0), (10, 0, 3), (11, 0, 5), (12, 0, 16), (13, 0, 0))
    written = {8 + at: var(f"CONFIG_{name}", number) for at, (name, number) in enumerate(held.items())}
    written[14] = section(".kconfig", 34, (12, 0, 16), (11, 20, 5), (13, 28, 0), (10, 30, 3), (8, 33, 1), (9, 34, 0))
    types = [*kinds, SIGNED_INT, array(6, 0), *variables, entries]
    return taken("kconfig_odd_sizes", types, written, symbols=externs(*held))


def largest():
    """Values of 2^32 - 1 bytes together."""
    types = [BYTE, array(1, 1 << 31), array(1, (1 << 31) - 1), extern("A", 2), extern("B", 3)]
    written = {4: var("CONFIG_A", 2), 5: var("CONFIG_B", 3)}
    written[6] = section(".kconfig", 2**32 - 1, (5, 0, 0), (4, (1 << 31) - 1, 0))
    types.append(section(".kconfig", 0, (4, 0, 0), (5, 0, 0)))
    return taken("kconfig_of_4_gib_less_1", types, written, symbols=externs("A", "B"))


def rows():
    faults = unsupported_types() + other_faults()
    return faults + [compiled_types(), names(), through_names(), odd_sizes(), largest()]

"""Files that are prepared in one call."""
import struct

from make_call_object import call_object
from rows.btf import btf, datasec, struct_of, variable
from rows.case import Case
from rows.core_sides import INT_4, OFFSET, S, one_of
from rows.elf import CALL, CALL32, EXIT, FUNCTION, LOAD64, NOTHING, OBJECT, PROGBITS, File, call_by, changed
from rows.linked import END, call, no_function, slots
from rows.fds_written import LOAD_8, referring
from rows.resolved import FAR, GLOBAL, LOAD, function_of, with_extern
from rows.small_object import RELOCATION

# Where a relocation entry has the number of its symbol.
SYMBOL = 12


def prepared(maps, text):
    return f"maps {maps}\n{text}"


def refused(stage, function, error):
    return f'{stage}(EbpfRelocationError {{ function: "{function}", error: {error} }})'


def no_map(section, symbol, name):
    said = f'section_index: {section}, symbol_index: {symbol}, symbol_name: Some("{name}")'
    return refused("Maps", "p", f"SectionNotFound {{ {said} }}")


def chosen():
    """The small object with none of the passes and with some, and with one change."""
    plain = slots("p", call(-1), END)
    other_symbol = changed(call_object(), RELOCATION + SYMBOL, struct.pack("<I", 7))
    return [
        Case(
            "the small object, prepared",
            call_object(),
            {
                "prepared": prepared(0, plain),
                "prepared calls": prepared(0, slots("p", call(1), END, END)),
                # a name that the object lacks
                "prepared maps m=7 calls": prepared(0, slots("p", call(1), END, END)),
                "prepared types maps externs_written calls": prepared(0, slots("p", call(1), END, END)),
            },
        ),
        # Without a usable relocation the call is of its own function.
        Case(
            "the small object with a relocation to no symbol, prepared",
            other_symbol,
            {
                "prepared calls": prepared(0, slots("p", call(1), END, call(-1), END)),
                "prepared maps calls": refused("Maps", "p", "UnknownSymbol { index: 7 }"),
            },
        ),
        Case("no file, prepared", b"foo", {"prepared calls": "Parse(ElfError(TooShort))"}),
    ]


def descriptors():
    """Descriptors of the object's own maps, which stay."""
    file = referring([LOAD_8, NOTHING, LOAD_8, NOTHING, EXIT], [(0, 2, LOAD64), (16, 4, LOAD64)])
    far = referring([LOAD_8, NOTHING, EXIT], [(0, 5, LOAD64)])
    value = ("18210000", 7), ("00000000", 24)
    whole = slots("p", *value, ("18110000", 3), ("00000000", 0), END)
    return [
        Case(
            "descriptors of its own maps, prepared",
            file,
            {
                "prepared maps .data=7 m=3": prepared(3, whole),
                # names that the object lacks, and a name twice
                "prepared maps n=9 .data=1 .data=7 m=3 .bss=4 calls": prepared(3, whole),
                "prepared maps .data=7": no_map(6, 4, "m"),
            },
        ),
        Case("a section without a map, prepared", far, {"prepared maps .data=7 calls": no_map(7, 5, "x")}),
    ]


def externs():
    """Externs that are resolved, and then written; a stage's fault comes before those of later stages."""
    types = variable("v", 0), datasec(".ksyms", 1)
    known = with_extern("v", GLOBAL, *types, slots=[LOAD, NOTHING, EXIT], relocations=[(0, LOAD64)])
    called = with_extern("v", GLOBAL, *types, slots=[CALL, EXIT], relocations=[(0, CALL32)])
    astray = with_extern("v", GLOBAL, *types, slots=[call_by(5), EXIT])
    lines = b"ffffffff81000010 D v\n"
    return [
        Case(
            "the address of a variable, prepared",
            {"object": known, "kallsyms": lines},
            {
                "prepared externs calls": prepared(0, slots("p", ("18010000", FAR % 2**32 - 2**32), ("00000000", -1), END)),
                "prepared": prepared(0, slots("p", ("18010000", 0), ("00000000", 0), END)),
            },
        ),
        Case(
            "a variable without an address, prepared",
            {"object": known, "kallsyms": b""},
            {"prepared externs calls": 'Ksyms(VariableNotFound { name: "v" })'},
        ),
        Case(
            "a call of an address, prepared",
            {"object": called, "kallsyms": lines},
            {"prepared externs calls": refused("Externs", "p", 'UnresolvableSymbol { name: "v" }')},
        ),
        Case(
            "a function without a kernel's types, prepared",
            function_of("f", GLOBAL),
            {"prepared externs": "Ksyms(TypedKsymRequiresKernelBtf)"},
        ),
        Case(
            "a variable without an address and a call of no function, prepared",
            {"object": astray, "kallsyms": b""},
            {
                "prepared externs calls": 'Ksyms(VariableNotFound { name: "v" })',
                "prepared calls": f"Calls({no_function('p', 'p', 48)})",
            },
        ),
    ]


def types():
    """Functions that are relocated to a kernel's types, before all other passes."""
    kernel = btf(INT_4, struct_of("s", 12, ("a", 1, 0), ("x", 1, 32), ("b", 1, 64)))
    no_path = (
        'Types(BtfRelocationError { section: "kprobe/p", error: InvalidAccessString'
        ' { access_str: "x" } })'
    )
    return [
        Case(
            "a place in a kernel's type, prepared",
            {"object": one_of(S, OFFSET, 2, "0:1"), "types": kernel},
            {
                "prepared types calls": prepared(0, slots("p", ("b7010000", 8))),
                "prepared calls": prepared(0, slots("p", ("b7010000", 0))),
            },
        ),
        Case(
            "no access string, prepared",
            {"object": one_of(S, OFFSET, 2, "x"), "types": kernel},
            {"prepared types maps externs calls": no_path, "prepared calls": prepared(0, slots("p", ("b7010000", 0)))},
        ),
    ]


def two_maps():
    """A program that loads the map m, whose section has the map n too."""
    file = File().code("kprobe/p", LOAD + NOTHING + EXIT).section("maps", PROGBITS, 3, bytes(56))
    file.symbol("p", FUNCTION, 3, 0, 24).symbol("m", OBJECT, 4, 0, 28).symbol("n", OBJECT, 4, 28, 28)
    return file.relocations(3, [(0, 2, LOAD64)]).bytes()


def called_extern():
    """A program without types whose first slot calls an extern."""
    file = File().code("kprobe/p", CALL + EXIT).symbol("e", GLOBAL, 0, 0, 0).symbol("p", FUNCTION, 3, 0, 16)
    return file.relocations(3, [(0, 1, CALL32)]).bytes()


def missing():
    """Maps without a descriptor, names without a map, and externs that aren't written: refused where nothing may be
    missing."""
    data_and_map = referring([LOAD_8, NOTHING, LOAD_8, NOTHING, EXIT], [(0, 2, LOAD64), (16, 4, LOAD64)])
    types = variable("v", 0), datasec(".ksyms", 1)
    called = with_extern("v", GLOBAL, *types, slots=[CALL, EXIT], relocations=[(0, CALL32)])

    def loaded(descriptor):
        return prepared(2, slots("p", ("18110000", descriptor), ("00000000", 0), END))

    # Linked, the call is of its own function, of which there is a copy.
    copied = prepared(0, slots("p", call(1), END, call(-1), END))
    return [
        Case(
            "two maps of one section, one with a descriptor",
            two_maps(),
            {
                "prepared maps m=3 n=4 complete": loaded(3),
                # n is not referred to
                "prepared maps m=3 complete": loaded(3),
                "prepared maps n=4 complete": 'MissingDescriptor { map: "m" }',
                "prepared types maps n=4 complete": 'MissingDescriptor { map: "m" }',
                # the descriptor of the other map
                "prepared maps n=4": loaded(4),
                "missing n=4": "map m at 3 0 slot 0",
            },
        ),
        Case(
            "a misspelt name of a map",
            two_maps(),
            {
                "prepared maps mm=3 n=4 complete": 'UnknownMap { name: "mm" }',
                "prepared maps m=3 mm=3 complete": 'UnknownMap { name: "mm" }',
                # the descriptor of the other map
                "prepared maps mm=3 n=4": loaded(4),
                "missing mm=3 n=4 M=5": "map m at 3 0 slot 0\nunknown mm\nunknown M",
            },
        ),
        Case(
            "a map and a variable without descriptors",
            data_and_map,
            {
                "prepared maps complete": 'MissingDescriptor { map: ".data" }',
                "prepared maps .data=7 complete": 'MissingDescriptor { map: "m" }',
                "prepared maps .data=7": no_map(6, 4, "m"),
                "missing": "map .data at 3 0 slot 0\nmap m at 3 0 slot 2",
            },
        ),
        Case(
            "a call of an extern at the first slot",
            called_extern(),
            {
                "prepared calls": copied,
                "prepared calls complete": 'UnwrittenExtern { name: "e" }',
                # without types nothing is written
                "prepared externs calls complete": 'UnwrittenExtern { name: "e" }',
                "prepared complete": prepared(0, slots("p", call(-1), END)),
                "missing": "extern e at 3 0 slot 0",
            },
        ),
        Case(
            "a call of an extern that has types",
            called,
            {"prepared calls": copied, "prepared calls complete": 'UnwrittenExtern { name: "v" }'},
        ),
    ]


def cases():
    return chosen() + types() + descriptors() + externs() + missing()

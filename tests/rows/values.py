"""Values of variables that are written into map data, and functions that are made fit for a kernel."""
from rows.case import Case
from rows.elf import CALL_CODE, FUNCTION, OBJECT, PROGBITS, File, slot


def variables():
    """`.data` of four zero bytes, number 3, and a section without a map, number 4. The symbols are `a`, the four
    bytes; `b`, the last two; `past`, two bytes from the last one on; and `other`, in the section without a map."""
    file = File().section(".data", PROGBITS, 3, bytes(4)).data("other", bytes(4))
    file.symbol("a", OBJECT, 3, 0, 4).symbol("b", OBJECT, 3, 2, 2).symbol("past", OBJECT, 3, 3, 2)
    return file.symbol("other", OBJECT, 4, 0, 4).bytes()


def patched(name, values, how, expected):
    """Values by variable, and for each whether the object has to have its variable."""
    words = " ".join(f"{variable} {how}" for variable in values)
    return Case(name, {"object": variables(), **values}, {f"patched {words}": expected})


def calls(first, second):
    """A program of two slots: helper calls by their numbers."""
    return File().code("kprobe/p", slot(CALL_CODE, imm=first) + slot(CALL_CODE, imm=second)).symbol("p", FUNCTION, 3, 0, 16).bytes()


def invalid(name, size, length):
    return (
        f'Err(InvalidGlobalData {{ name: "{name}", sym_size: {size}, data_size: {length} }})'
        " [0, 0, 0, 0]"
    )


def cases():
    four = b"\1\2\3\4"
    return [
        # In the order of their names: b stands over the last two bytes of a.
        patched("values of two variables", {"b": b"\x09\x0a", "a": four}, "must", "Ok(()) [1, 2, 9, 10]"),
        patched(
            "a value of no variable",
            {"c": b"\1"},
            "must",
            'Err(SymbolNotFound { name: "c" }) [0, 0, 0, 0]',
        ),
        patched("a value of no variable, which need not be there", {"c": b"\1"}, "may", "Ok(()) [0, 0, 0, 0]"),
        # Nothing is written of the others either.
        patched("a value of another length", {"a": four, "b": b"\x09"}, "must", invalid("b", 2, 1)),
        patched("a variable without a map", {"other": four}, "must", "Err(MapNotFound { index: 4 }) [0, 0, 0, 0]"),
        patched("a variable past the data", {"past": b"\1\2"}, "must", invalid("past", 2, 2)),
        Case("no value", variables(), {"patched": "Ok(()) [0, 0, 0, 0]"}),
        # probe_read_kernel and probe_read_kernel_str; the kernel is asked.
        Case(
            "newer helpers",
            calls(113, 115),
            {"sanitized older": "4 45 asked true", "sanitized newer": "113 115 asked true"},
        ),
        Case("other helpers", calls(111, 116), {"sanitized older": "111 116 asked false"}),
    ]

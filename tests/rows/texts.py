"""The functions of Text sections, which tile them."""
from rows.case import Case
from rows.elf import FUNCTION, File

F = 'InvalidSymbol { index: 1, name: Some("f") }'

TOP = 2**64 - 8


def text(length, symbols, address=0):
    """A section `.text` of so many zero bytes, number 3, at this address, and symbols of it, each with an address and
    a size."""
    file = File().code(".text", bytes(length), address=address)
    for value, size in symbols:
        file.symbol("f", FUNCTION, 3, value, size)
    return file.bytes()


def cases():
    rows = [
        ("a gap behind a function", text(16, [(0, 8)]), "UnknownSymbol { section_index: 3, address: 8 }"),
        ("two functions at one address", text(16, [(0, 8), (0, 8)]), "SymbolTableConflict { section_index: 3, address: 0 }"),
        ("an empty function", text(16, [(0, 0)]), F),
        ("a function past the text", text(16, [(0, 24)]), F),
        ("a function of one slot and a half", text(16, [(0, 12)]), "InvalidProgramCode"),
        (
            "symbols in another order",
            text(16, [(8, 8), (0, 8)]),
            """
            function f at 3 0 offset 0 slots 1
            function f at 3 8 offset 8 slots 1
            """,
        ),
        # The addresses go round.
        (
            "a text at the top of the addresses",
            text(16, [(0, 8), (TOP, 8)], address=TOP),
            """
            function f at 3 0 offset 8 slots 1
            function f at 3 18446744073709551608 offset 0 slots 1
            """,
        ),
        ("an empty text", text(0, []), ""),
    ]
    return [Case(name, data, {"parsed functions": expected}) for name, data, expected in rows]

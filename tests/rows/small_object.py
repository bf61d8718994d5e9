"""The smallest object with a call, whole, cut, and with one change."""
import struct

from make_call_object import call_object
from rows import linking_reader, reader
from rows.case import Case
from rows.elf import changed

# Where its parts stand: symbols 1 and 2, the relocation, and the table of section headers.
PROGRAM, FUNCTION, RELOCATION, SECTIONS = 88 + 24, 88 + 48, 160, 232

# Where a symbol has its address and its size, and a section header its kind, its offset and its link.
ADDRESS, SIZE = 8, 16
KIND, OFFSET, LINK = 4, 24, 40


def with_change(at, new):
    return changed(call_object(), at, new)


def cases():
    program = "program p KProbe at 1"
    function = "function f at 2 0 offset 0 slots 1"
    return [
        Case(
            "the small object",
            call_object(),
            {
                "parsed programs functions symbols relocations sections": f"""
                    {program} 0
                    function p at 1 0 offset 0 slots 2
                    {function}
                    symbol 1 Text in Some(1) size 16 defined true
                    symbol 2 Text in Some(2) size 8 defined true
                    relocation at 1 0 size 32 symbol 2
                    section 5 .relkprobe/p
                    section 4 .strtab
                    section 3 .symtab
                    section 2 .text
                    section 1 kprobe/p
                """,
                # the usual license stands where a file has none
                "parsed license_and_version": "[71, 80, 76] None",
                # no part of it is an object
                "prefixes 0 64": "64: ElfError(TooShort)",
                "prefixes 64 616": "552: ElfError(BadSectionTable)",
                "prefixes 616 617": "1: parsed",
                # nor does any of its bytes, set to 00 or ff, give anything but this
                "bytes 0 616 0": reader.each_byte(call_object(), 0),
                "bytes 0 616 255": reader.each_byte(call_object(), 255),
                # nor where its programs are linked
                "prepared_bytes 0 616 0": linking_reader.each_byte(call_object(), 0),
                "prepared_bytes 0 616 255": linking_reader.each_byte(call_object(), 255),
            },
        ),
        Case(
            "data outside the file",
            with_change(SECTIONS + 64 + OFFSET, struct.pack("<Q", 616)),
            {"parsed programs": "SectionError { index: 1, error: BadSectionRange }"},
        ),
        Case(
            "another string table",
            with_change(SECTIONS + 3 * 64 + LINK, struct.pack("<I", 9)),
            {"parsed programs": "ElfError(BadStringTable)"},
        ),
        Case(
            "a relocation without a target",
            with_change(RELOCATION + 12, b"\0"),
            {"parsed programs": "UnsupportedRelocationTarget"},
        ),
        Case(
            "a large program",
            with_change(PROGRAM + SIZE, b"\xff" * 8),
            {"parsed programs": 'InvalidSymbol { index: 1, name: Some("p") }'},
        ),
        Case(
            "a large function",
            with_change(FUNCTION + SIZE, b"\x10"),
            {"parsed programs": 'InvalidSymbol { index: 2, name: Some("f") }'},
        ),
        Case(
            "an empty program",
            with_change(PROGRAM + SIZE, b"\0"),
            {
                "parsed programs functions": f"""
                    {program} 0
                    function p at 1 0 offset 0 slots 0
                    {function}
                """,
                "linked slots": "program p slots 0",
            },
        ),
        Case(
            "a program behind the first slot",
            with_change(PROGRAM + ADDRESS, struct.pack("<QB", 8, 8)),
            {
                "parsed programs functions": f"""
                    {program} 8
                    function p at 1 8 offset 8 slots 1
                    {function}
                """,
                "linked slots": """
                    program p slots 1
                    95 00 00 00 00 00 00 00
                """,
            },
        ),
        # No such symbol is there: the call is read as one relative to its place.
        Case(
            "a relocation to a symbol past the last",
            with_change(RELOCATION + 12, b"\x07"),
            {
                "linked slots": """
                    program p slots 4
                    85 10 00 00 01 00 00 00
                    95 00 00 00 00 00 00 00
                    85 10 00 00 ff ff ff ff
                    95 00 00 00 00 00 00 00
                """,
            },
        ),
    ]

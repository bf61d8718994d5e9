"""The maps of data sections and of map structs."""
from rows.btf import words
from rows.case import Case
from rows.elf import NOBITS, OBJECT, PROGBITS, File


def data(name, kind, size):
    """A section of this name and kind, number 3, of three bytes, that states a size."""
    return File().section(name, kind, 3, b"\1\2\3", size=size).bytes()


# The words 1 to 5, an id and a number of pinning.
STRUCT = words([1, 2, 3, 4, 5, 0x80706, 2])


def struct(address, size):
    """A section `maps` of this struct and a symbol of it with an address and a size."""
    return File().section("maps", PROGBITS, 3, STRUCT).symbol("m", OBJECT, 3, address, size).bytes()


NO_MAP = 'InvalidMapDefinition { name: "m" }'
NO_SYMBOL = 'InvalidSymbol { index: 1, name: Some("m") }'
MAP = "map m type 1 key 2 value 3 entries 4 flags 5 None symbol Some(1) data []"


def array(name, size, flags, held):
    return f"map {name} type 2 key 4 value {size} entries 1 flags {flags} None symbol None data {held}"


def cases():
    rows = [
        # A section of zeros that the file doesn't hold.
        ("four bytes of .bss", data(".bss", NOBITS, 4), array(".bss", 4, 0, [0, 0, 0, 0])),
        # Its map can only be read.
        ("sixteen bytes of .bss", data(".bss", NOBITS, 16), array(".bss", 16, 0, [0] * 16)),
        ("three bytes of .rodata", data(".rodata", PROGBITS, 3), array(".rodata", 3, 128, [1, 2, 3])),
        ("three bytes of .data.x", data(".data.x", PROGBITS, 3), array(".data.x", 3, 0, [1, 2, 3])),
        ("a .data that is not in the file", data(".data", NOBITS, 3), array(".data", 3, 0, [])),
        ("a .bss of 4 GiB", data(".bss", NOBITS, 2**32), 'InvalidMapDefinition { name: ".bss" }'),
        ("a map struct of 20 bytes", struct(0, 20), MAP),
        ("a map struct of 23 bytes", struct(0, 23), MAP),
        ("a map struct of 19 bytes", struct(0, 19), NO_MAP),
        # Its pinning, 2, is none.
        ("a map struct of 28 bytes", struct(0, 28), NO_MAP),
        ("an empty map struct at the end", struct(28, 0), NO_MAP),
        ("an empty map struct past the end", struct(29, 0), NO_SYMBOL),
        ("a map struct past the end", struct(8, 21), NO_SYMBOL),
        (
            "map structs without symbols",
            data("maps", PROGBITS, 3),
            'NoSymbolsForSection { section_name: "maps" }',
        ),
    ]
    given = [Case(name, bytes_, {"parsed maps": expected}) for name, bytes_, expected in rows]
    return given + with_ids() + made()


def with_ids():
    """The id of a map struct: of 20 bytes it has none, of 23 the three low bytes of one."""
    ids = {20: 0, 23: 526086}
    return [
        Case(f"the id in a map struct of {size} bytes", struct(0, size), {"parsed map_ids": f"map m id {number}"})
        for size, number in ids.items()
    ]


def made():
    """Maps that are made of what a kernel says of a Bloom filter: an id, a value type and a pinning; and one that is
    made by its parameters, changed and copied."""
    return [
        Case(
            "maps without a file",
            {},
            {
                # The value type stands where the kind of map has one.
                "map_info 0 7 None": (
                    "type 30 key 0 value 4 entries 64 flags 0 extra 3 pinning None section 0 BtfMaps symbol Some(0)"
                    " data []"
                ),
                "map_info 9 0 ByName": (
                    "type 30 key 0 value 4 entries 64 flags 0 extra 0 pinning ByName section 0 Undefined symbol None"
                    " data [] id 9"
                ),
                "map_copy": (
                    "type 1 key 4 value 9 entries 17 flags 32 extra 0 pinning None section 0 Undefined symbol None"
                    " data [5] holds a map false"
                ),
            },
        )
    ]

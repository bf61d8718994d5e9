"""Bytes that are no file, files without types, and types that can't be read or stand otherwise in their section."""
from row import GLOBAL_OBJECT, SIGNED_INT, Row, file_of, section, taken, var
from rows.btf import BIG, INT, btf, integer, magic, ty, words
from rows.elf import NOBITS, File, changed, header

TYPES = [SIGNED_INT, var("a", 1), section(".data", 0, (2, 0, 4))]
SIZED = {3: section(".data", 8, (2, 4, 4))}
DATA = {"sections": [(".data", bytes(8))], "symbols": [("a", GLOBAL_OBJECT, ".data", 4)]}

SMALL = btf(SIGNED_INT)

HEADER = "the header of .BTF or .BTF.ext is cut or has another magic, or a part of it passes the end"
TYPE = "a BTF type is cut or of an unknown kind, or a size or an offset in it is out of range"


def unread(name, data, sentence):
    return Row(name, data, f"refused: {sentence}")


def no_files():
    """The faults of the file, before those of its types."""
    whole = file_of(SMALL)
    table = "the table of section headers passes the end of the file, or its headers have not 64 bytes"
    past_the_end = File().data(".BTF", b"no types", size=1 << 20).bytes()
    return [
        unread("no_bytes", b"", "the file has fewer than the 64 bytes of an ELF header"),
        unread("no_elf_file", b"no ELF file".ljust(64), "the file is no ELF file: it does not begin with 7f 45 4c 46"),
        unread("file_of_32_bits", changed(whole, 4, b"\1"), "the file is no 64-bit ELF file"),
        unread("cut_file", whole[:-1], table),
        unread("btf_past_the_end", past_the_end, "a section's data pass the end of the file"),
    ]


def no_types():
    return [
        Row("no_sections", header(0, 0, 0), "none"),
        Row("no_btf", File().data(".data", bytes(8)).bytes(), "none"),
    ]


def cut(strings):
    """An INT without its last word."""
    return [0, INT << 24, 4]


def unread_types():
    """The one with a type that is cut has a DATASEC without a size before it, too."""
    return [
        unread("btf_empty", file_of(b""), HEADER),
        unread("btf_without_bytes", File().section(".BTF", NOBITS, 0, b"", size=len(SMALL)).bytes(), HEADER),
        unread("btf_of_another_magic", file_of(changed(SMALL, 0, b"\x9e")), HEADER),
        unread("btf_of_another_order", file_of(btf(SIGNED_INT, order=BIG)), HEADER),
        unread("btf_types_past_the_end", file_of(changed(SMALL, 12, words([len(SMALL) - 23]))), HEADER),
        unread("btf_cut_type", file_of(btf(section(".data", 0), cut)), TYPE),
        unread("btf_kind_20", file_of(btf(SIGNED_INT, ty("", 20, 0))), TYPE),
    ]


def long_header(numbers, strings, order):
    """A header of 32 bytes, strings, and then types."""
    types = words(numbers, order)
    counts = words([32, len(strings), len(types), 0, len(strings)], order)
    return magic(order) + counts + b"\xff" * 8 + strings + types


def rows():
    other = btf(integer("other", 8))
    return no_files() + no_types() + unread_types() + [
        taken("btf_twice", [SIGNED_INT], sections=[(".BTF", SMALL)], packed=lambda *_: other),
        taken("header_of_32_bytes", TYPES, SIZED, packed=long_header, **DATA),
    ]

"""The order of faults: of two, that of the earlier step is given."""
from rows.btf import btf, datasec, struct_of, words
from rows.case import Case
from rows.elf import FUNCTION, NOBITS, File

# An offset outside each string table.
OUTSIDE = 0xFFFFFF

STEPS = [
    ("license", "InvalidLicense { bytes: [65] }"),
    ("version", "InvalidKernelVersion { bytes: [1] }"),
    ("symbols", "BtfError(InvalidSymbolName)"),
    ("types", "BtfError(InvalidHeader)"),
    ("what is said of instructions", "BtfError(InvalidHeader)"),
    ("externs", "BtfError(InvalidDatasec)"),
    ("sections", 'InvalidProgramSection { section: "nothing" }'),
]


def faulty(first):
    """A file that is at fault in each step from one on."""
    file = File().code("nothing", bytes(8))
    if first <= 5:
        types = btf(struct_of("s", 0), datasec(".ksyms", 1))
        said = words([0x1EB9F, 24, 0, 0, 0, 0])
        file.data(".BTF", b"\0" if first <= 3 else types)
        file.data(".BTF.ext", b"\0" if first <= 4 else said)
    if first <= 2:
        file.symbol(OUTSIDE, FUNCTION, 3, 0, 8)
    file.data("version", b"\1" if first <= 1 else b"\1\0\0\0")
    return file.data("license", b"A" if first == 0 else b"A\0").bytes()


PARTS = [
    ("name", "SectionError { index: 3, error: BadStringTable }"),
    ("data", "SectionError { index: 3, error: BadSectionRange }"),
    ("relocations", "UnsupportedRelocationTarget"),
    ("kind", 'InvalidProgramSection { section: "nothing" }'),
]


def faulty_section(first):
    """A file whose section is at fault in each part from one on, before a section that is too large for a map."""
    name_at = OUTSIDE if first == 0 else None
    size = 1000000 if first <= 1 else None
    file = File().code("nothing", bytes(8), size=size, name_at=name_at)
    if first <= 2:
        file.relocations(3, [(0, 0, 10)])
    return file.section(".bss", NOBITS, 3, b"", size=2**32).bytes()


def cases():
    steps = [
        Case(f"at fault from the {step} on", faulty(number), {"parsed programs": expected})
        for number, (step, expected) in enumerate(STEPS)
    ]
    parts = [
        Case(f"a section at fault from its {part} on", faulty_section(number), {"parsed programs": expected})
        for number, (part, expected) in enumerate(PARTS)
    ]
    return steps + parts

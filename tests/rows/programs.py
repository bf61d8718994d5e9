"""The programs of a file, and the order of faults there."""
from rows.case import Case
from rows.elf import CALL32, EXIT, FUNCTION, File, changed

FOO = 'InvalidSymbol { index: 1, name: Some("foo") }'


def sized(data, size):
    """A section `kprobe/foo` of these bytes, number 3, and a symbol of it at 0."""
    return File().code("kprobe/foo", data).symbol("foo", FUNCTION, 3, 0, size).bytes()


def named(name):
    """A section of this name, of one slot, and no symbol."""
    return File().code(name, EXIT).bytes()


def large(name):
    """An empty section of this name that states a large size."""
    return File().data(name, b"", size=1000000).bytes()


def twice():
    """Two programs `foo`, two functions at one key and two relocations at one offset."""
    file = File().code("kprobe/a", EXIT).code("kprobe/b", EXIT)
    file.symbol("foo", FUNCTION, 3, 0, 8).symbol("foo", FUNCTION, 4, 0, 8).symbol("bar", FUNCTION, 4, 0, 8)
    return file.relocations(4, [(0, 1, 1), (0, 2, CALL32)]).bytes()


def cases():
    nothing = File().code("nothing", EXIT).symbol("foo", FUNCTION, 3, 0, 8).bytes()
    return [
        Case("no bytes", b"", {"parsed programs": "ElfError(TooShort)"}),
        Case("three bytes", b"foo", {"parsed programs": "ElfError(TooShort)"}),
        Case(
            "a header alone",
            b"\x7fELF\x02\x01" + bytes(58),
            {"parsed programs functions": "", "parsed license_and_version": "[71, 80, 76] None"},
        ),
        Case("a program of a byte", sized(bytes(4), 1), {"parsed programs": "InvalidProgramCode"}),
        Case(
            "an empty program of an odd section",
            sized(bytes(4), 0),
            {
                "parsed programs functions": """
                    program foo KProbe at 3 0
                    function foo at 3 0 offset 0 slots 0
                """
            },
        ),
        # The range is looked at before the slots are.
        Case("a program past its section", sized(bytes(4), 5), {"parsed programs": FOO}),
        Case(
            "a program before its section",
            File().code("kprobe/foo", EXIT, address=8).symbol("foo", FUNCTION, 3, 0, 8).bytes(),
            {"parsed programs": FOO},
        ),
        # The kind is looked at before the symbols are.
        Case(
            "a section of no kind and without symbols",
            named("nothing/foo"),
            {"parsed programs": 'InvalidProgramSection { section: "nothing/foo" }'},
        ),
        Case(
            "a section without symbols",
            named("kprobe/foo/bar"),
            {"parsed programs": 'NoSymbolsForSection { section_name: "kprobe/foo/bar" }'},
        ),
        Case(
            "symbols that are no programs",
            File().code("kprobe", EXIT).symbol("data", 0x11, 3, 0, 8).symbol("", FUNCTION, 3, 0, 8).bytes(),
            {"parsed programs functions": ""},
        ),
        Case(
            "later entries stand",
            twice(),
            {
                "parsed programs functions relocations": """
                    program bar KProbe at 4 0
                    program foo KProbe at 4 0
                    function foo at 3 0 offset 0 slots 1
                    function bar at 4 0 offset 0 slots 1
                    relocation at 4 0 size 32 symbol 2
                """
            },
        ),
        # The number of the symbol's name stands behind the header, the section's data and symbol 0.
        Case(
            "symbols come before sections",
            changed(nothing, 64 + 8 + 24 + 3, b"\xff"),
            {"parsed programs": "BtfError(InvalidSymbolName)"},
        ),
        Case(
            "types outside the file",
            large(".BTF"),
            {"parsed programs": "SectionError { index: 3, error: BadSectionRange }"},
        ),
        # It is not read where there are no types.
        Case("what types say outside the file", large(".BTF.ext"), {"parsed programs": ""}),
        Case(
            "another section outside the file",
            large(".BTF.e"),
            {"parsed programs": "SectionError { index: 3, error: BadSectionRange }"},
        ),
    ]

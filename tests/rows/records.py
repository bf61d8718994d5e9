"""What type information says of functions and lines, as parsed and as linked."""
from rows.btf import btf, words
from rows.case import Case
from rows.elf import CALL, CALL32, EXIT, FUNCTION, NOTHING, File
from rows.linked import program

# The names of two sections, and where they stand in the strings.
NAMES = b"\0kprobe/p\0.text\0"
PROGRAM, TEXT = 1, 10

# Records on functions and on lines of both sections; the places are in bytes.
SAID = words(
    [0x1EB9F, 24, 0, 44, 44, 116]
    + [8, 1, 1, 8, 5]
    + [10, 2, 0, 6, 8, 7]
    + [16, 1, 3, 8, 0, 0, 21, 16, 0, 0, 22, 0, 0, 0, 23]
    + [10, 3, 8, 0, 0, 31, 0, 0, 0, 32, 12, 0, 0, 33]
)


def functions():
    """A program of two slots at 8 of its section, and two functions of one slot in `.text`."""
    file = File().code("kprobe/p", bytes(24)).code(".text", bytes(16))
    return file.symbol("p", FUNCTION, 3, 8, 16).symbol("f", FUNCTION, 4, 0, 8).symbol("g", FUNCTION, 4, 8, 8)


def table(size, sections, rest):
    """A table of records of a size, by sections: a name and places; each record has these words behind its place."""
    numbers = [size]
    for name, places in sections:
        numbers += [name, len(places)]
        for place in places:
            numbers += [place, *rest]
    return words(numbers)


def recorded(slots, of_functions, lines):
    """A program of two slots that calls f, at 8 of `.text`, which has these slots, with these records on functions. The
    program has a record on each line, and f those at these places; all places are in bytes."""
    funcs = table(8, of_functions, [5])
    lines = table(16, [(PROGRAM, [0, 8]), (TEXT, lines)], [0, 0, 21])
    said = words([0x1EB9F, 24, 0, len(funcs), len(funcs), len(lines)]) + funcs + lines
    file = program([CALL, EXIT], [("g", [EXIT]), ("f", slots)])
    return file.data(".BTF", btf(strings=NAMES)).data(".BTF.ext", said).relocations(3, [(0, 3, CALL32)]).bytes()


BOTH = [(PROGRAM, [0]), (TEXT, [8])]


def refused(error):
    return f'EbpfRelocationError {{ function: "p", error: {error} {{ name: "f" }} }}'


def cases():
    # A later section `.BTF` isn't read.
    whole = functions().data(".BTF", btf(strings=NAMES)).data(".BTF.ext", SAID).data(".BTF", b"").bytes()
    return [
        Case(
            "records of functions",
            whole,
            {
                "parsed records sections": """
                    records p of 8 and 16 bytes: 0 of 1, 0/21 1/22 of 3
                    records f of 8 and 16 bytes: 0 of 2, 0/32 of 3
                    records g of 8 and 16 bytes: 1 of 2, 1/31 1/33 of 3
                    section 5 .BTF
                    section 6 .BTF.ext
                    section 2 .strtab
                    section 1 .symtab
                    section 4 .text
                    section 3 kprobe/p
                """
            },
        ),
        Case(
            "records without types",
            functions().data(".BTF.ext", b"\1").bytes(),
            {
                "parsed records sections": """
                    records p of 0 and 0 bytes: of 0, of 0
                    records f of 0 and 0 bytes: of 0, of 0
                    records g of 0 and 0 bytes: of 0, of 0
                    section 2 .strtab
                    section 1 .symtab
                    section 4 .text
                    section 3 kprobe/p
                """
            },
        ),
        Case(
            "types come before sections",
            File().code("nothing", bytes(8)).data(".BTF", bytes(23)).bytes(),
            {"parsed programs": "BtfError(InvalidHeader)"},
        ),
        Case(
            "records that move with their function",
            recorded([EXIT], BOTH, [8]),
            {
                "linked records": """
                    records p of 8 and 16 bytes: 0 2 of 2, 0/21 1/21 2/21 of 3
                    records g of 8 and 16 bytes: of 1, of 1
                    records f of 8 and 16 bytes: 1 of 1, 1/21 of 1
                """,
                "linked slots": """
                    program p slots 3
                    85 10 00 00 01 00 00 00
                    95 00 00 00 00 00 00 00
                    95 00 00 00 00 00 00 00
                """,
            },
        ),
        Case(
            "records of the program alone",
            recorded([EXIT], BOTH[:1], [8]),
            {
                "linked records": f"""
                    {refused("FunctionInfoMismatch")}
                    records p of 8 and 16 bytes: 0 of 1, 0/21 1/21 of 2
                    records g of 8 and 16 bytes: of 0, of 1
                    records f of 8 and 16 bytes: of 0, 1/21 of 1
                """
            },
        ),
        Case(
            "a line before the first",
            recorded([NOTHING, EXIT], BOTH, [16, 8]),
            {
                "linked records": f"""
                    {refused("InvalidLineInfo")}
                    records p of 8 and 16 bytes: 0 of 1, 0/21 1/21 of 2
                    records g of 8 and 16 bytes: of 1, of 2
                    records f of 8 and 16 bytes: 1 of 1, 2/21 1/21 of 2
                """
            },
        ),
    ]

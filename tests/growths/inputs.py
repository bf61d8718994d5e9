"""Files that calls are made on."""
from pathlib import Path

from rows import references
from rows.btf import btf, integer, struct_of, words
from rows.core_sides import INT_4, OFFSET, S, one_of
from rows.elf import CALL, CALL32, EXIT
from rows.linked import program
from rows.records import NAMES, PROGRAM, TEXT, table

TOP = Path(__file__).parents[2]
CRATES, DRIVERS = TOP / "crates", TOP / "tests/drivers"

SMALL = CRATES / "ebpf_link/data/call.o"
COUNTER = DRIVERS / "test_rows/data/counter.o"
REFERENCES = DRIVERS / "test_rows/data/references.o"

KERNEL, LINES = references.KERNEL, references.KALLSYMS

# A kernel where `tgid` lies elsewhere.
TASKS = btf(integer("int", 4), struct_of("task_struct", 16, ("state", 1, 0), ("pid", 1, 32), ("tgid", 1, 96)))


def records(of_functions, of_lines):
    funcs = table(8, of_functions, [5])
    lines = table(16, of_lines, [0, 0, 21])
    return words([0x1EB9F, 24, 0, len(funcs), len(funcs), len(lines)]) + funcs + lines


def two_calls(funcs=((PROGRAM, [0]), (TEXT, [0, 16])), lines=((PROGRAM, [0, 8, 16]), (TEXT, [0, 8, 16]))):
    """A program that calls f and g, where f calls g too, with records on functions and lines."""
    file = program([CALL, CALL, EXIT], [("f", [CALL, EXIT]), ("g", [EXIT])])
    file.data(".BTF", btf(strings=NAMES)).data(".BTF.ext", records(funcs, lines))
    return file.relocations(3, [(0, 2, CALL32), (8, 3, CALL32)]).relocations(4, [(0, 3, CALL32)]).bytes()


def core():
    """An object with one relocation by types, and a kernel's types."""
    kernel = btf(INT_4, struct_of("s", 12, ("a", 1, 0), ("x", 1, 32), ("b", 1, 64)))
    return one_of(S, OFFSET, 2, "0:1"), kernel


def section(data, name):
    """The bytes of a section of a small little endian file."""

    def number(at, size):
        return int.from_bytes(data[at : at + size], "little")

    def row(index):
        at = number(40, 8) + 64 * index
        return number(at, 4), number(at + 24, 8), number(at + 32, 8)

    _, names_at, _ = row(number(62, 2))
    for index in range(1, number(60, 2)):
        name_at, offset, size = row(index)
        start = names_at + name_at
        if data[start : data.index(b"\0", start)] == name.encode():
            return data[offset : offset + size]
    raise KeyError(name)

#!/usr/bin/env python3
"""Compares what `parse_within` counts of files with what their objects hold in memory: the driver test_owned_bytes counts
the bytes of each allocation. No object may hold more than is counted of its file, and counted.py counts the same.

The files: each shape of bench/costs/shapes.py, each object of make_rows.py, those below, and the files that are given.

usage: live_bytes.py [-v] [FILE..]     -v prints a table; ends with 'N passed, M failed'
"""
import runpy
import struct
import sys
import tempfile
from pathlib import Path

TESTS = Path(__file__).resolve().parents[1]
sys.path += [str(TESTS / "limits"), str(TESTS), str(TESTS.parent / "bench")]
from costs import shapes as costly  # noqa: E402
from costs.made import EXIT, FUNCTION, GLOBAL, INT, NOBITS, OBJECT, VAR, File, Types, entry  # noqa: E402
from counted import Counted  # noqa: E402
from driver_crates import make_repository  # noqa: E402
from unproved import rt_try  # noqa: E402

NAME = "test_owned_bytes"

# About the size of a shape's file, in bytes.
SIZE = 1 << 13

# One more than a power of two: what grows has the most spare room.
MANY = 257

SHAPES = {}

# tests/ has a module of the same name.
LIMITS = runpy.run_path(str(TESTS / "limits/make_rows.py"))["SHAPES"]


def shape(make):
    SHAPES[make.__name__] = make
    return make


def with_ext(file, types, funcs=b"", lines=b"", relocations=b""):
    """A file with types and the parts of a `.BTF.ext`."""
    parts, at = [funcs, lines, relocations], 0
    said = struct.pack("<HBBI", 0xEB9F, 1, 0, 32)
    for part in parts:
        said += struct.pack("<II", at, len(part))
        at += len(part)
    return file.types(types, said + b"".join(parts)).bytes()


def part(size, sections):
    """A part with entries of a size: of each section the offset of its name and its entries."""
    rows = b"".join(struct.pack("<II", name, len(entries) // size) + entries for name, entries in sections)
    return struct.pack("<I", size) + rows


def program():
    file = File()
    file.program()
    return file


@shape
def nothing():
    """A program alone."""
    return program().bytes()


@shape
def types():
    """The smallest types."""
    types = Types()
    for _ in range(MANY):
        types.add(2, "", 0)
    return program().types(types).bytes()


@shape
def types_and_an_extern():
    """The same with a function that is an extern: types are added."""
    types = Types()
    for _ in range(MANY):
        types.add(2, "", 0)
    proto = types.add(13, "", 0)
    types.datasec(".ksyms", [types.add(12, "f", proto, entries=2)])
    file = program()
    file.symbol("f", GLOBAL, 0)
    return file.types(types).bytes()


@shape
def strings():
    """A long string of types, and an extern that adds more."""
    types = Types()
    types.strings.long(5000)
    proto = types.add(13, "", 0)
    types.datasec(".ksyms", [types.add(12, "f", proto, entries=2)])
    file = program()
    file.symbol("f", GLOBAL, 0)
    return file.types(types).bytes()


@shape
def sections_without_entries():
    """Sections of `.BTF.ext` without entries."""
    types = Types()
    name = types.strings.add("kprobe/x")
    rows = part(8, [(name, b"")] * MANY), part(16, [(name, b"")] * MANY), part(16, [(name, b"")] * MANY)
    return with_ext(program(), types, *rows)


@shape
def sections_of_one_name():
    """Sections of `.BTF.ext` of one name, each with an entry: the last counts."""
    types = Types()
    name = types.strings.add("kprobe/x")
    rows = part(8, [(name, bytes(8))] * MANY), part(16, [(name, bytes(16))] * MANY), part(16, [(name, bytes(16))] * MANY)
    return with_ext(program(), types, *rows)


@shape
def long_names_of_sections():
    """Sections of `.BTF.ext` whose names are the ends of one, together about as long as all strings."""
    types = Types()
    at = types.strings.long(MANY * MANY // 2)
    ends = [(at + MANY * MANY // 2 - i, b"") for i in range(1, MANY)]
    return with_ext(program(), types, part(8, ends), part(16, ends))


@shape
def copied_strings():
    """Names of sections that together are longer than all strings: the strings are copied."""
    types = Types()
    at = types.strings.long(5000)
    return with_ext(program(), types, part(8, [(at, b"")] * 5), part(16, [(at, b"")] * 5))


@shape
def entries():
    """Many entries of one section, of the least size, in no function's range but one's."""
    types = Types()
    name = types.strings.add("kprobe/x")
    count = 8 * MANY
    funcs = b"".join(struct.pack("<II", 8 * i, 0) for i in range(count))
    lines = b"".join(struct.pack("<IIII", 8 * i, 0, 0, 0) for i in range(count))
    return with_ext(program(), types, part(8, [(name, funcs)]), part(16, [(name, lines)]))


@shape
def entries_of_each_function():
    """Entries that aren't in order: each function has all."""
    file, types = File(), Types()
    name = types.strings.add("kprobe/x")
    code = file.code("kprobe/x", EXIT * 64)
    for i in range(64):
        file.symbol(f"p{i}", FUNCTION, code, 8 * i, 8)
    lines = b"".join(struct.pack("<IIII", 8 * (i % 64), 0, 0, 0) for i in range(MANY))
    return with_ext(file, types, b"", part(16, [(name, lines)]))


@shape
def core_relocations():
    """Many CO-RE relocations of one section."""
    types = Types()
    name, at = types.strings.add("kprobe/x"), types.strings.add("0")
    types.add(INT, "int", 4, 0x20)
    rows = struct.pack("<IIII", 0, 1, at, 0) * MANY
    return with_ext(program(), types, b"", b"", part(16, [(name, rows)]))


@shape
def symbols():
    """Symbols without names."""
    file = program()
    for i in range(9 * 32 + 1):
        file.symbol(0, OBJECT, 0)
    return file.bytes()


@shape
def legacy_maps():
    """Maps of a section `maps`."""
    file = program()
    section = file.section("maps", struct.pack("<5I", 2, 4, 4, 1, 0) * MANY)
    for i in range(MANY):
        file.symbol(f"m{i:x}", OBJECT, section, 20 * i, 20)
    return file.bytes()


@shape
def maps_by_types():
    """Maps of a section `.maps`."""
    file, types = program(), Types()
    made = types.struct_of("", [("x", 0)])
    types.datasec(".maps", [types.add(VAR, f"m{i:x}", made, 1) for i in range(MANY)])
    section = file.section(".maps", bytes(8))
    for i in range(MANY):
        file.symbol(f"m{i:x}", OBJECT, section, 0, 8)
    return file.types(types).bytes()


@shape
def data_sections():
    """Sections of data."""
    file = program()
    for i in range(MANY):
        file.section(f".data.{i:x}", bytes(9))
        file.section(f".bss.{i:x}", kind=NOBITS, size=9)
    return file.bytes()


@shape
def programs():
    """Programs of five slots, in order of their names."""
    file = File()
    code = file.code("xdp", EXIT * 5 * MANY)
    for i in range(MANY):
        file.symbol(f"p{i:04x}", FUNCTION, code, 40 * i, 40)
    return file.bytes()


@shape
def functions():
    """Functions of one slot."""
    file = program()
    code = file.code(".text", EXIT * MANY)
    for i in range(MANY):
        file.symbol(f"f{i:04x}", FUNCTION, code, 8 * i, 8)
    return file.bytes()


@shape
def externs():
    """Externs of the types."""
    file, types = program(), Types()
    made = types.add(INT, "int", 4, 0x20)
    types.datasec(".ksyms", [types.add(VAR, f"e{i:x}", made, 2) for i in range(MANY)])
    for i in range(MANY):
        file.symbol(f"e{i:x}", GLOBAL, 0)
    return file.types(types).bytes()


@shape
def relocations():
    """Relocations of one section."""
    file = File()
    load = bytes.fromhex("18010000000000000000000000000000")
    code = file.program(load * MANY + EXIT)
    data = file.section(".data", bytes(8))
    symbol = file.symbol("d", OBJECT, data, 0, 8)
    file.relocations(code, b"".join(entry(16 * i, symbol) for i in range(MANY)))
    return file.bytes()


@shape
def relocations_of_many_sections():
    """One relocation of each of many sections."""
    file = File()
    data = file.section(".data", bytes(8))
    symbol = file.symbol("d", OBJECT, data, 0, 8)
    load = bytes.fromhex("18010000000000000000000000000000")
    for i in range(MANY):
        code = file.code(f"kprobe/{i}", load + EXIT)
        file.symbol(f"p{i}", FUNCTION, code, 0, 24)
        file.relocations(code, entry(0, symbol))
    return file.bytes()


@shape
def long_names():
    """Sections whose names are the ends of one long name."""
    file = program()
    at = file.names.long(2000)
    for i in range(MANY):
        file.section(at + i, flags=0)
    return file.bytes()


def all_files():
    """The files by name."""
    yield from ((name, make()) for name, make in SHAPES.items())
    yield from ((f"limits {make.__name__}", make().bytes()) for make in LIMITS)
    for name, make in costly.SHAPES.items():
        made = make(SIZE)
        yield f"costs {name}", made[0] if isinstance(made, tuple) else made
    for path in sorted((TESTS / "objects").glob("*.o")):
        yield path.name, path.read_bytes()


def lines_of(folder, counts):
    """The lines of the driver on files, by their paths, split at spaces. `counts` has what counted.py counts of each."""
    repository, cases, held = folder / "repository", folder / "cases", folder / "paths"
    repository.mkdir()
    cases.mkdir()
    make_repository(repository, [NAME])
    held.write_text("".join(f"{count} {path}\n" for path, count in counts.items()))
    (cases / "files").touch()
    (cases / "files.args").write_text(f"{held}\n")
    tried = rt_try(repository / "crates" / NAME, "--cases", str(cases), RT_ALLOW_C=NAME)
    lines = [line.split() for line in tried.printed.splitlines() if line.startswith("/")]
    return {line[0]: line for line in lines}, tried.last_lines


def fault(line, wanted):
    """Why the line of a file, of which counted.py counts so many bytes, is no right one, or None."""
    if len(line) != 4 or not all(word.isdigit() for word in line[1:]):
        return " ".join(line[1:])
    held, counted = int(line[1]), int(line[3])
    if held > counted:
        return f"the object holds {held} bytes, and {counted} are counted"
    return None if counted == wanted else f"{counted} bytes are counted, and counted.py counts {wanted}"


def judged(given, is_shown=False):
    """The number of files, and the faults."""
    with tempfile.TemporaryDirectory() as made:
        folder, files, counts = Path(made), dict(given), {}
        for number, (name, data) in enumerate(files.items()):
            path = folder / f"{number}.o"
            path.write_bytes(data)
            counts[str(path)] = Counted(data).made()
        lines, said = lines_of(folder, counts)
    faults = []
    for (name, data), (path, wanted) in zip(files.items(), counts.items()):
        line = lines.get(path, [path, f"no line: {said}"])
        why = fault(line, wanted)
        faults += [f"{name}: {why}"] if why else []
        if is_shown:
            print(f"{name:50} {len(data):8}", *(f"{word:>10}" for word in line[1:]), flush=True)
    return len(files), faults


def main(words):
    given = [(word, Path(word).read_bytes()) for word in words if word != "-v"]
    count, faults = judged(given or all_files(), "-v" in words)
    print("\n".join([*faults, f"{count - len(faults)} passed, {len(faults)} failed"]))
    return 1 if faults or not count else 0


if __name__ == "__main__":
    sys.exit(main(sys.argv[1:]))

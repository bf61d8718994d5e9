#!/usr/bin/env python3
"""Writes the objects of tests/drivers/test_object_calls/src/limits/objects.rs: one small object for each thing that an object
owns more often than its file has it, with what is made of it by counted.py.

usage: make_rows.py > tests/drivers/test_object_calls/src/limits/objects.rs
"""
import struct
import sys
from pathlib import Path

sys.path[:0] = [str(Path(__file__).resolve().parents[2] / "bench")]
from costs.made import EXIT, FUNCTION, GLOBAL, MOVE, NOBITS, OBJECT, File, Types, entry  # noqa: E402
from counted import Counted  # noqa: E402

LINE = 48


def with_license(file, text=b"GPL"):
    file.section("license", text + b"\0")
    return file


def licenses():
    """A license that is copied for each of three programs."""
    file = with_license(File(), b"GPL " * 10)
    code = file.code("xdp", 3 * EXIT)
    for i in range(3):
        file.symbol(f"p{i}", FUNCTION, code, 8 * i, 8)
    return file


def overlapping(file, slots=4):
    code = file.code("xdp", (slots - 1) * MOVE + EXIT)
    for i in range(slots):
        file.symbol(f"p{i}", FUNCTION, code, 8 * i, 8 * (slots - i))
    return file


def functions():
    """Functions that overlap: each has its own slots."""
    return overlapping(File())


def lines(slots):
    """Records on a section `xdp`: one on a function, and one on each line."""
    types = Types()
    name = types.strings.add("xdp")
    funcs = struct.pack("<IIIII", 8, name, 1, 0, 0)
    rows = struct.pack("<III", 16, name, len(slots)) + b"".join(struct.pack("<IIII", 8 * slot, 0, 0, 0) for slot in slots)
    head = struct.pack("<HBBIIIIIII", 0xEB9F, 1, 0, 32, 0, len(funcs), len(funcs), len(rows), 0, 0)
    return types, head + funcs + rows


def records():
    """The same with records in the order of their slots: each function has its own."""
    return overlapping(File()).types(*lines([0, 1, 2, 3]))


def disordered():
    """Records that aren't in order: each function counts all of them."""
    return overlapping(File()).types(*lines([3, 1, 2, 0]))


def zeros():
    """Zeros that the file hasn't."""
    file = File()
    file.section(".bss", kind=NOBITS, size=1000)
    file.program()
    return file


def tails():
    """Names of sections and of symbols that are the tails of one."""
    file = File()
    file.program()
    long, longer = file.names.long(40), file.texts.long(50)
    for i in range(4):
        file.section(long + i, flags=0)
        file.symbol(longer + i, GLOBAL, 0)
    return file


def entries():
    """Maps, relocations and functions of small size."""
    file = File()
    maps = file.section("maps", struct.pack("<5I", 2, 4, 4, 1, 0) * 2)
    held = [file.symbol(f"m{i}", OBJECT, maps, 20 * i, 20) for i in range(2)]
    load = bytes.fromhex("18010000000000000000000000000000")
    code = file.program(load * 2 + EXIT)
    file.relocations(code, b"".join(entry(16 * i, one) for i, one in enumerate(held)))
    text = file.code(".text", 2 * EXIT)
    for i in range(2):
        file.symbol(f"f{i}", FUNCTION, text, 8 * i, 8)
    return file


SHAPES = [licenses, functions, records, disordered, zeros, tails, entries]


def main():
    print("//! Small objects, each with one thing that an object owns more often than its file has it, and what is made of each.")
    print("//! tests/limits/make_rows.py writes them.")
    for shape in SHAPES:
        data = shape().bytes()
        digits = data.hex()
        cut = [digits[i : i + 2 * LINE] for i in range(0, len(digits), 2 * LINE)]
        print(f"\n/// {shape.__doc__}")
        print(f"pub const {shape.__name__.upper()}: [&str; {len(cut)}] = [")
        for line in cut:
            print(f'    "{line}",')
        print("];")
        print(f"\n/// What is made of it, in bytes.")
        print(f"pub const {shape.__name__.upper()}_MADE: u64 = {Counted(data).made()};")


if __name__ == "__main__":
    main()

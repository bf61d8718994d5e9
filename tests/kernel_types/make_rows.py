#!/usr/bin/env python3
"""Writes the objects of tests/drivers/test_kernel_types, and what it has to print of each: data, args and stdout of the crate.
usage: make_rows.py

A new row: in the module on its subject, an object by its types, sections and symbols, and the types that come out otherwise
(`taken`) or the sentence of the refusal (`refused`). What comes out is written by hand, from the definitions of
crates/ebpf_btf_load/specs, and never taken from what the program prints.
"""
import sys
from pathlib import Path

sys.path.append(str(Path(__file__).parents[1]))

import functions  # noqa: E402
import kconfig  # noqa: E402
import ksyms  # noqa: E402
import own_data  # noqa: E402
import reading  # noqa: E402
import together  # noqa: E402
from growths.inputs import section  # noqa: E402
from row import Row  # noqa: E402
from rows.btf import DATASEC, words  # noqa: E402

CRATE = Path(__file__).parents[1] / "drivers" / "test_kernel_types"

# The object that clang made of examples/check, and the sizes of its sections of variables, of one variable each.
COMPILED, SIZES = "memdrop.o", {".maps": 32, "license": 4}

# Objects are small.
LARGEST = 2048


def compiled():
    """The object that clang made: its types with the sizes of two sections, whose variables stand at their begins."""
    data = (CRATE / "data" / COMPILED).read_bytes()
    types = section(data, ".BTF")
    start = 24 + int.from_bytes(types[16:20], "little")
    for name, size in SIZES.items():
        offset = types.index(b"\0" + name.encode() + b"\0", start) + 1 - start
        front = words([offset, DATASEC << 24 | 1])
        assert types.count(front + bytes(4)) == 1, name
        types = types.replace(front + bytes(4), front + words([size]))
    return Row(COMPILED, data, types.hex())


def main():
    rows = [compiled()]
    for module in (reading, own_data, functions, ksyms, kconfig, together):
        rows += module.rows()
    names = [row.name for row in rows]
    assert len(set(names)) == len(names), "two objects of one name"
    for row in rows[1:]:
        assert len(row.data) < LARGEST, f"{row.name}: {len(row.data)} bytes"
        (CRATE / "data" / row.name).write_bytes(row.data)
    (CRATE / "args").write_text("".join(f"{name}\n" for name in names))
    (CRATE / "stdout").write_text("".join(f"{row.line}\n" for row in rows))


if __name__ == "__main__":
    main()

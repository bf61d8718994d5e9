#!/usr/bin/env python3
"""What the loader hands the kernel of programs that are attached to its functions and hooks, beside libbpf.

    beside_libbpf.py LIBBPF LIBRARY [OBJECT ..]

LIBBPF has root/usr/include and root/usr/lib64 of libbpf 1.5, LIBRARY is examples/out/libebpf.a. For objects/attached.c, and
the objects given, what BPF_PROG_LOAD gets has to be the same: of each program its type, attach type and flags, the id of what
it is attached to among the running kernel's types, and its slots, the descriptors of maps aside. bpf(2) is answered by
recording.c. Ends with 'N passed, M failed'.
"""
import os
import subprocess
import sys
import tempfile
from pathlib import Path

HERE = Path(__file__).resolve().parent
TOP = HERE.parents[1]
LOAD_IMM64, BY_DESCRIPTOR = 0x18, (1, 2)


def build(sources, flags, to):
    subprocess.run(["gcc", "-O1", "-w", *map(str, flags), "-o", to, *map(str, sources), HERE / "recording.c"], check=True)
    return to


def ours(library, folder):
    sources = [*sorted((TOP / "examples/loader").glob("*.c")), library]
    return build(sources, [f"-I{TOP / 'include'}"], folder / "ours")


def theirs(libbpf, folder):
    lib = libbpf / "root/usr/lib64"
    flags = ["-I", libbpf / "root/usr/include", "-L", lib, f"-Wl,-rpath,{lib}"]
    program = folder / "theirs"
    sources = [HERE / "libbpf_loads.c", HERE / "recording.c"]
    subprocess.run(["gcc", "-O1", "-w", *map(str, flags), "-o", program, *sources, "-lbpf", "-lelf"], check=True)
    return program


def without_descriptors(digits):
    """The slots, where descriptors of maps are zero."""
    slots = bytearray.fromhex(digits)
    for at in range(0, len(slots), 8):
        if slots[at] == LOAD_IMM64 and slots[at + 1] >> 4 in BY_DESCRIPTOR:
            slots[at + 4:at + 8] = bytes(4)
    return slots.hex()


def loaded(words, record):
    """What each program was handed over with, by its name, and what is said where that fails."""
    record.unlink(missing_ok=True)
    ran = subprocess.run(words, env={**os.environ, "RECORD": str(record)}, capture_output=True, text=True)
    lines = record.read_text().splitlines() if record.exists() else []
    rows = [line.split(" ") for line in lines]
    found = {row[0]: [*row[1:5], without_descriptors(row[5])] for row in rows if row[0]}
    return found, ran.stderr[-300:] if ran.returncode else None


def faults(path, first, our_program, libbpf_program, folder):
    """What differs of one object, a line each; and how many programs there are."""
    mine, why = loaded([our_program, path, first], folder / "ours.txt")
    other, why_not = loaded([libbpf_program, path], folder / "theirs.txt")
    names = [name for name in other if name in mine]
    if why or why_not or not names:
        return [f"{path.name}: {why or why_not or 'no program in common'}"], 0
    return [f"{path.name}: {name}: {mine[name]} and {other[name]}" for name in names if mine[name] != other[name]], len(names)


def main():
    libbpf, library, *given = [Path(word).resolve() for word in sys.argv[1:]]
    passed = failed = 0
    with tempfile.TemporaryDirectory() as name:
        folder = Path(name)
        attached = folder / "attached.o"
        flags = ["-target", "bpf", "-O2", "-g", "-c", HERE / "objects/attached.c", "-o", attached]
        subprocess.run(["clang", *map(str, flags)], check=True)
        programs = ours(library, folder), theirs(libbpf, folder)
        for path, first in [(attached, "enters"), *((path, path.stem) for path in given)]:
            found, count = faults(path, first, *programs, folder)
            for fault in found:
                print(f"FAILED {fault}")
            passed, failed = passed + max(count - len(found), 0), failed + len(found)
    print(f"{passed} passed, {failed} failed")
    return 1 if failed or not passed else 0


if __name__ == "__main__":
    sys.exit(main())

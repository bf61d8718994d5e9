#!/usr/bin/env python3
"""Whether objects of libbpf/chain_objects.py are clang's, byte for byte.

usage: check_chains.py [N..]

Compares the objects of chains of N functions (1, 2, 99 and 2,000, if none is said) with what clang and llvm-strip make
of the same sources. Needs these, of LLVM 14, and libbpf's headers.
"""
import subprocess
import sys
import tempfile
from pathlib import Path

from libbpf.chain_objects import chain_object
from libbpf.sources import chain, worked_chain

CLANG = "clang -target bpfel -O2 -g -w -fno-addrsig -I/usr/include/x86_64-linux-gnu -c".split()


def compiled(source):
    made = source.with_suffix(".o")
    subprocess.run([*CLANG, source, "-o", made], check=True)
    subprocess.run(["llvm-strip", "-g", made], check=True)
    return made.read_bytes()


def differs(folder, make, count):
    source = folder / f"{make.__name__}-{count}.c"
    source.write_text(make(count))
    return chain_object(make(count), source) != compiled(source)


def main():
    counts = [int(word) for word in sys.argv[1:]] or [1, 2, 99, 2000]
    asked = [(make, count) for make in (chain, worked_chain) for count in counts]
    with tempfile.TemporaryDirectory() as name:
        differ = [f"{make.__name__} {count}" for make, count in asked if differs(Path(name), make, count)]
    print(f"{len(asked)} objects, other than clang's:", ", ".join(differ) or "none")
    sys.exit(1 if differ else 0)


if __name__ == "__main__":
    main()

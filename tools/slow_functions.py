#!/usr/bin/env python3
"""Tells which functions of a crate take longest to prove. `rt check --jobs 1` writes a file for each module of a proof when
it is done, one after the other: the time from one file to the next is the module's. So what a check from nothing with one
job left is read, in a folder without out/ before it, and nothing else may be proved beside it.
usage: slow_functions.py [--most N] [--top FOLDER] [CRATE..]      of each crate that has been checked, if none is named
"""
import argparse
from collections import Counter
from pathlib import Path

TOP = Path(__file__).parents[1]


def modules(crate):
    """The modules' files in the order in which they were written, as times and names."""
    files = (crate / "out/incremental").glob("*/*.oantt")
    return sorted((file.stat().st_mtime, file.stem) for file in files)


def function_of(module):
    """The function that a module is of, or the file of proofs or definitions."""
    return module.split("-", 2)[-1].rpartition(".")[0] or module


def seconds(crate):
    """The seconds of each function."""
    times, found = modules(crate), Counter()
    for (before, _), (after, module) in zip(times, times[1:]):
        found[function_of(module)] += after - before
    return found


def main():
    parser = argparse.ArgumentParser(description=__doc__, formatter_class=argparse.RawDescriptionHelpFormatter)
    parser.add_argument("--most", type=int, default=20)
    parser.add_argument("--top", type=Path, default=TOP)
    parser.add_argument("crates", nargs="*")
    asked = parser.parse_args()
    rows = [
        (time, crate.name, function)
        for crate in sorted((asked.top / "crates").iterdir())
        if not asked.crates or crate.name in asked.crates
        for function, time in seconds(crate).items()
    ]
    for time, crate, function in sorted(rows, reverse=True)[: asked.most]:
        print(f"{time:8.1f} {crate} {function}")


if __name__ == "__main__":
    main()

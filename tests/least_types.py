#!/usr/bin/env python3
"""Compares what `ebpf btf` writes with the kernel's types that it is made of: each object has the same slots and refusals over both.

- The test cases of CO-RE (tests/rows/core_*.py), each with each of its kernels. In the least types of each no type that
  no other names, no member and no enumerator can be left out without another outcome; what can is listed. With --dump
  also libbpf's slots over both are compared, and with --bpftool those over bpftool's types; these differences are listed.
- With --selftests, the kernel's self-tests of CO-RE (least/selftests.py), by the same readers.
- With --kernels, objects of FILES (executables are searched for objects; without --files those of Debian's libbpf-tools) over
  the kernels of a folder, by `ebpf link --bytes`. With --dump also by libbpf (a program that prints the slots which libbpf
  makes of `OBJECT --btf TYPES`), with --bpftool beside the types that `bpftool gen min_core_btf` writes, and with --load by
  the kernel's BPF_BTF_LOAD. --table writes a table of sizes and times.

Prints what it skips. Ends with 'N passed, M failed', and with status 1 where one failed.

usage: least_types.py EBPF [--jobs N] [--dump PROGRAM].. [--bpftool] [--load] [--selftests FOLDER]
                     [--kernels FOLDER [--files FOLDER] [--table FILE]]
"""
import argparse
import sys
import tempfile
from collections import Counter
from concurrent.futures import ThreadPoolExecutor
from os import cpu_count
from pathlib import Path

from least import cases, libbpf, selftests, tools


def remarks_on(pairs, found):
    """Returns what is said of the test cases, without faults."""
    ids = sum(seen.needs_ids for seen, _, _ in found)
    written = sum(bool(seen.least) for seen, _, _ in found)
    spared = sum(bool(spare) for _, spare, _ in found)
    yield f"test cases: {len(found)}, of which {written} have least types and {ids} need the kernel's ids"
    yield f"least types of which nothing can be left out: those of {written - spared} test cases"
    for _, spare, _ in found:
        yield from (f"can be left out: {what}" for what in spare)
    beside = Counter(held for _, _, beside in found for held in beside.items())
    for (writer, outcome), count in sorted(beside.items()):
        yield f"libbpf over the types of {writer}: {outcome}: {count}"
    for pair, (_, _, beside) in zip(pairs, found):
        yield from (f"libbpf over the types of {writer}: {held}: {pair.name}" for writer, held in beside.items() if held != "same")


def over_cases(given):
    """Compares the test cases. Returns how many have the same outcome, the failures, and remarks."""

    def one(pair):
        with tempfile.TemporaryDirectory() as folder:
            seen = cases.compared(given.ebpf, pair, Path(folder))
            spare = list(cases.spare(given.ebpf, pair, Path(folder), seen))
            beside = dict(libbpf.over(given, pair, Path(folder), seen.least)) if given.dump else {}
            return seen, spare, beside

    pairs = cases.pairs()
    with ThreadPoolExecutor(given.jobs) as pool:
        found = list(pool.map(one, pairs))
    faults = [fault for seen, _, _ in found for fault in seen.faults]
    return len(found) - len(faults), faults, list(remarks_on(pairs, found))


def main():
    parser = argparse.ArgumentParser(add_help=False)
    parser.add_argument("ebpf", type=lambda word: Path(word).resolve())
    parser.add_argument("--jobs", type=int, default=cpu_count() or 1)
    parser.add_argument("--selftests", type=Path)
    parser.add_argument("--kernels", type=Path)
    parser.add_argument("--files", type=Path)
    parser.add_argument("--dump", type=Path, action="append", default=[])
    parser.add_argument("--bpftool", action="store_true")
    parser.add_argument("--load", action="store_true")
    parser.add_argument("--table", type=Path)
    parser.error = lambda _: sys.exit(__doc__[__doc__.index("usage:") :].rstrip())
    given = parser.parse_args()
    tools.put_skipped(given)
    passed, failures, remarks = over_cases(given)
    print("\n".join(remarks), flush=True)
    for is_given, name, compare in [
        (given.selftests, "the kernel's self-tests (--selftests)", selftests.compare),
        (given.kernels, "objects over kernels of a distribution (--kernels)", tools.compare),
    ]:
        if not is_given:
            print(f"skipped: {name}")
            continue
        more, found = compare(given)
        passed, failures = passed + more, failures + found
    print("\n".join([*failures, f"{passed} passed, {len(failures)} failed"]))
    return 1 if failures or not passed else 0


if __name__ == "__main__":
    sys.exit(main())

#!/usr/bin/env python3
"""Our time beside libbpf's, on the same inputs, in one run.

usage: beside_libbpf.py EBPF_BENCH [--runs N] [--table FILE] [WORD..]     WORD: only inputs whose name has it
       beside_libbpf.py EBPF_BENCH --objects FOLDER [--libbpf FOLDER] [--cold] [--table FILE] [WORD..]

EBPF_BENCH is bench_prepare, as build.sh builds it. Needs gcc, libbpf and its headers, and a kernel that shows its
types; for the first form clang with the bpf target and bpftool too. libbpf (libbpf/load_times.c) and `bench_prepare prepare`
run on each input in turn. Both begin with the file in the page cache, and count everything from opening the object, with
reading the kernel's types and symbols where the input needs them, to finished slots.

The first form makes the inputs by libbpf/sources.py and compiles them; of three times N (9) runs the least counts. The
second takes the objects of a folder, also those that executables hold (/usr/sbin with Debian's libbpf-tools, whose objects
relocate to the kernel's types): of each program 15 runs in five turns, of each turn a run before them that doesn't count,
or with --cold 15 processes of one run each; the least and the median of 15, and their sums over all objects. --libbpf is
the folder of another libbpf.so.1, which runs beside the machine's.

The last column is ours over libbpf's, of medians in the second form. With --table the times are also written as columns
between tabs, as plot.py reads those of the first form (docs/beside-libbpf.tsv).
"""
import argparse
import os
import re
import subprocess
import tempfile
from pathlib import Path
from statistics import median

from libbpf.kernel_types import VMLINUX
from libbpf.real_objects import real_objects
from libbpf.sources import INPUTS

HERE = Path(__file__).parent
CLANG = "clang -target bpfel -O2 -g -w".split()

# How often programs take turns at a real object, and how often each runs in a turn.
TURNS, EACH = 5, 3


def words():
    parser = argparse.ArgumentParser()
    parser.add_argument("bench")
    parser.add_argument("--runs", type=int, default=9)
    parser.add_argument("--table", type=Path)
    parser.add_argument("--objects", type=Path)
    parser.add_argument("--libbpf", type=Path)
    parser.add_argument("--cold", action="store_true")
    parser.add_argument("names", nargs="*")
    return parser.parse_intermixed_args()


class Program:
    """A program that is measured, by the words before and behind the object's path, and the folder of its libraries."""

    def __init__(self, title, before, behind=(), libraries=None):
        self.title, self.before, self.behind = title, before, behind
        self.environment = {**os.environ, "LD_LIBRARY_PATH": str(libraries)} if libraries else None

    def times(self, path, runs):
        """The times of so many runs in a process, in microseconds, in order; none where it refuses the object."""
        command = [str(word) for word in (*self.before, path, *self.behind, runs)]
        said = subprocess.run(command, capture_output=True, text=True, env=self.environment)
        found = re.search(r"^times((?: \d+)+) us$", said.stdout, re.MULTILINE)
        return [int(time) for time in found.group(1).split()] if found else []


def programs(asked, folder):
    """libbpf, another libbpf where one is asked for, and ours."""
    loading = folder / "load_times"
    subprocess.run(["gcc", "-O2", "-o", loading, HERE / "libbpf/load_times.c", "-lbpf"], check=True)
    symbols = folder / "kallsyms"
    symbols.write_bytes(Path("/proc/kallsyms").read_bytes())
    found = [Program("libbpf", [loading])]
    if asked.libbpf:
        found.append(Program("another", [loading], libraries=asked.libbpf.absolute()))
    found.append(Program("ours", [asked.bench, "prepare"], ["--btf", VMLINUX, "--kallsyms", symbols, "--runs"]))
    return found


def is_asked(asked, title):
    return not asked.names or any(word in title for word in asked.names)


def ratio(theirs, ours):
    return f"{ours / theirs:.2f}" if theirs and ours else "-"


def compiled(folder, make, count):
    source = folder / f"{make.__name__}-{count}.c"
    source.write_text(make(count))
    made = source.with_suffix(".o")
    include = [f"-I{folder}", "-I/usr/include/x86_64-linux-gnu"]
    subprocess.run([*CLANG, *include, "-c", source, "-o", made], check=True)
    return made


def least_of_each(asked, running, made):
    """The least time of each program, the first run of a process of libbpf aside: it asks the kernel what it can do."""
    theirs, ours = running
    times = [(theirs.times(made, asked.runs + 1)[1:], ours.times(made, asked.runs)) for _ in range(3)]
    return [min((time for part in column for time in part), default=None) for column in zip(*times)]


def compare_made(asked, folder):
    """A row for each input that is made."""
    running = programs(asked, folder)
    with open(folder / "vmlinux.h", "w") as header:
        subprocess.run(["bpftool", "btf", "dump", "file", VMLINUX, "format", "c"], stdout=header, check=True)
    print(f"{'input':16}{'KiB':>8}{'libbpf us':>12}{'ours us':>10}{'ratio':>8}", flush=True)
    table = ["input\tKiB\tlibbpf us\tours us"]
    for make, count in INPUTS:
        title = f"{make.__name__} {count}"
        if not is_asked(asked, title):
            continue
        made = compiled(folder, make, count)
        size = made.stat().st_size // 1024
        theirs, ours = least_of_each(asked, running, made)
        table.append(f"{title}\t{size}\t{theirs}\t{ours}")
        print(f"{title:16}{size:8}{theirs or '-':>12}{ours or '-':>10}{ratio(theirs, ours):>8}", flush=True)
    return table


def measured(asked, running, path):
    """The least and the median time of each program, in turn; none of those that refuse the object."""
    times = [[] for _ in running]
    turns, each, aside = (TURNS * EACH, 1, 0) if asked.cold else (TURNS, EACH, 1)
    for _ in range(turns):
        for program, found in zip(running, times):
            found += program.times(path, each + aside)[aside:]
    return [(min(found), int(median(found))) if len(found) == turns * each else None for found in times]


def sums(rows):
    """The sums of least and of median times, over the objects that no program refuses."""
    whole = [row for row in rows if None not in row]
    return [tuple(sum(numbers) for numbers in zip(*column)) for column in zip(*whole)]


def row(title, size, found):
    cells = "".join(f"{least:>11}{middle:>9}" for least, middle in (times or ("-", "-") for times in found))
    others = [times and times[1] for times in found]
    return f"{title:16}{size:>6}{cells}" + "".join(f"{ratio(theirs, others[-1]):>8}" for theirs in others[:-1])


def compare_real(asked, folder):
    """A row for each object of the folder, and one for all."""
    running = programs(asked, folder)
    titles = "".join(f"{program.title:>11}{'median':>9}" for program in running)
    ratios = f"{'ratio':>8}" * (len(running) - 1)
    print(f"{'object':16}{'KiB':>6}{titles}{ratios}", flush=True)
    table, rows, bytes_of_all = [], [], 0
    for title, data in real_objects(asked.objects):
        if not is_asked(asked, title):
            continue
        path = folder / "object.o"
        path.write_bytes(data)
        rows.append(measured(asked, running, path))
        bytes_of_all += len(data)
        print(row(title, len(data) // 1024, rows[-1]), flush=True)
        table.append("\t".join(str(cell) for cell in (title, len(data) // 1024, *(t for found in rows[-1] for t in found or ("-", "-")))))
    print(row(f"all {len(rows)}", bytes_of_all // 1024, sums(rows)), flush=True)
    return ["\t".join(["object", "KiB", *(f"{p.title} {word} us" for p in running for word in ("least", "median"))]), *table]


def main():
    asked = words()
    with tempfile.TemporaryDirectory() as name:
        compare = compare_real if asked.objects else compare_made
        table = compare(asked, Path(name))
    if asked.table:
        asked.table.write_text("\n".join(table) + "\n")


if __name__ == "__main__":
    main()

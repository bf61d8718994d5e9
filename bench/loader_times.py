#!/usr/bin/env python3
"""The processor time of examples/loader, and of libbpf, to load an object into the running kernel.

    loader_times.py LOADER LIBBPF_LOADS FOLDER [--runs N] [--table FILE] [WORD..]

LOADER is examples/loader, LIBBPF_LOADS tests/loader/libbpf_loads.c over libbpf. Both open, load and close each object (*.o) of
the folder; WORD: only those whose name has it. Needs root, and a kernel that allows bpf(2). Objects that one of them doesn't
load are listed with what it says, and not measured. Each of the others is loaded by both in turns, N (5) times each after one
that doesn't count; where a load takes more than a second, which is the kernel's verifier, by one turn. The time is that of
the process, user and system, as wait4 tells it; the least of the N counts.

Prints the sums, the median and worst ratio of ours to libbpf's, and how many programs each loads. --table: the times of each
object, in microseconds, in columns between tabs.
"""
import argparse
import os
import re
import signal
import sys
import tempfile
import threading
from collections import Counter
from dataclasses import dataclass
from pathlib import Path
from statistics import median

# A process that takes longer, in seconds, loads nothing. One turn is enough above so many microseconds.
LIMIT, LONG = 60, 1_000_000


@dataclass
class Run:
    """What a process printed, its status, and its processor time in microseconds."""

    status: int
    said: str
    micros: int


@dataclass
class Loader:
    """A program that loads an object, and how the programs that it has loaded are counted in what it prints."""

    words: list
    counted: str

    def run(self, path):
        with tempfile.TemporaryFile() as out:
            to = [(os.POSIX_SPAWN_DUP2, out.fileno(), stream) for stream in (1, 2)]
            child = os.posix_spawnp(self.words[0], [*self.words, str(path)], os.environ, file_actions=to)
            limit = threading.Timer(LIMIT, os.kill, (child, signal.SIGKILL))
            limit.start()
            _, status, usage = os.wait4(child, 0)
            limit.cancel()
            out.seek(0)
            said = out.read().decode("utf-8", "replace")
        return Run(os.waitstatus_to_exitcode(status), said, round((usage.ru_utime + usage.ru_stime) * 1e6))

    def programs(self, run):
        """How many programs a process has loaded."""
        found = re.findall(self.counted, run.said, re.MULTILINE)
        return int(found[0]) if found and found[0] else len(found)


def words():
    parser = argparse.ArgumentParser()
    parser.add_argument("loader")
    parser.add_argument("libbpf_loads")
    parser.add_argument("folder", type=Path)
    parser.add_argument("--runs", type=int, default=5)
    parser.add_argument("--table", type=Path)
    parser.add_argument("names", nargs="*")
    return parser.parse_intermixed_args()


def reason(run):
    """The last line that a process printed, without names and numbers."""
    lines = [line for line in run.said.splitlines() if line.strip()]
    return re.sub(r"\S*/\S*|\b\w*\d\w*\b", "_", lines[-1])[:90] if lines else f"status {run.status}"


def measured(pair, path, runs):
    """The least time of each of two programs, by turns."""
    times = [[program.run(path).micros for program in pair] for _ in range(runs)]
    return tuple(map(min, zip(*times)))


def print_sums(rows):
    """The sums, and the ratios of ours to libbpf's."""
    ours, theirs = (sum(row[at] for row in rows) for at in (1, 2))
    ratios = sorted((row[1] / row[2], row[0]) for row in rows)
    middle = [median(row[at] for row in rows) for at in (1, 2)]
    print(f"{len(rows)} objects, programs {sum(r[3] for r in rows)} and {sum(r[4] for r in rows)}")
    print(f"sum {ours / 1000:.0f} and {theirs / 1000:.0f} ms, ratio {ours / theirs:.2f}; medians {middle[0] / 1000:.2f} and {middle[1] / 1000:.2f} ms")
    print(f"ratios: median {median(ratio for ratio, _ in ratios):.2f}, least {ratios[0][0]:.2f} {ratios[0][1]}")
    print("worst: " + ", ".join(f"{name} {ratio:.2f}" for ratio, name in reversed(ratios[-8:])))
    print(f"slower than libbpf: {sum(ratio > 1 for ratio, _ in ratios)}")
    print("other numbers of programs: " + (", ".join(f"{r[0]} {r[3]} {r[4]}" for r in rows if r[3] != r[4]) or "none"))


def main():
    asked = words()
    pair = [Loader([asked.loader, "--load"], r"^program ()\S+ slots"), Loader([asked.libbpf_loads], r"^programs (\d+)$")]
    rows, only = [], Counter()
    for path in sorted(asked.folder.glob("*.o")):
        if asked.names and not any(word in path.name for word in asked.names):
            continue
        name = path.name.partition(".")[0]
        first = [program.run(path) for program in pair]
        loads = tuple(not run.status for run in first)
        only[loads] += 1
        if all(loads):
            turns = asked.runs if max(run.micros for run in first) <= LONG else 1
            rows.append((name, *measured(pair, path, turns), *(p.programs(run) for p, run in zip(pair, first))))
        elif loads[1]:
            print(f"ours doesn't load {name}: {reason(first[0])}", flush=True)
    print(f"both load {only[True, True]}, only ours {only[True, False]}, only libbpf {only[False, True]}, none {only[False, False]}")
    if rows:
        print_sums(rows)
    if asked.table:
        lines = ["object\tours us\tlibbpf us\tprograms\tlibbpf's programs", *("\t".join(map(str, row)) for row in rows)]
        asked.table.write_text("\n".join(lines) + "\n")
    return 0 if rows else 1


if __name__ == "__main__":
    sys.exit(main())

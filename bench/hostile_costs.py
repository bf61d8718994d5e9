#!/usr/bin/env python3
"""Measures ebpf-link on accepted files that are made to take long: seconds of a processor and memory have to grow as the file does.

usage: hostile_costs.py PROGRAM [--base BYTES] [--seconds N] [WORD..]     WORD: only shapes whose name has it
       hostile_costs.py EBPF --command COMMAND ..                         the same of a command of `ebpf`
       hostile_costs.py --make SHAPE BYTES FILE                           the files of one

Each shape of costs/shapes.py is made with about BYTES (262144), twice and four times as many; one that asks for the
kernel's types makes a second file. A row fails where the program ends otherwise than with status 0, where time grows by
more than 6 from the first size to the last (and is more than 0.1 s there), or where memory passes 64 bytes for each byte
of the files and 16 MiB; of shapes that are told the status alone counts. What the object itself has to own isn't among
the shapes, but for long names of sections, which are told: long names of many symbols, functions that overlap, a license
for each program, zeros of a data map. Ends with 'N passed, M failed'.
"""
import argparse
import os
import subprocess
import sys
import tempfile
from pathlib import Path

from costs.measure import TIMES, Measured, run


def make(name, size, path):
    """Makes files, in a process of its own: what is measured is never smaller than the process that starts it."""
    subprocess.run([sys.executable, "-B", __file__, "--make", name, str(size), path], check=True)


def write(made, path):
    """Writes a file; where there is a second, with the kernel's types, that stands beside it."""
    if isinstance(made, tuple):
        made, types = made
        Path(path + ".types").write_bytes(types)
    Path(path).write_bytes(made)


def shapes():
    """The shapes, each with whether its cost is told, and with the words that stand behind the file on the command
    line."""
    found = subprocess.run([sys.executable, "-B", __file__, "--list"], check=True, capture_output=True, text=True)
    return [line.split() for line in found.stdout.splitlines()]


def measure(program, name, is_told, words, asked, folder):
    """The shape at all sizes."""
    runs, base = [], asked.base
    front = [program, asked.command] if asked.command else [program]
    words = [] if asked.command == "list" else words
    for times in TIMES:
        path = os.path.join(folder, name)
        make(name, base * times, path)
        behind = [path + ".types" if word == "@types" else word for word in words]
        runs.append(run([*front, path, *behind], asked.seconds))
        if runs[-1].status != 0:
            break
    return Measured(name, runs, is_told == "told")


def measure_all(asked):
    passed = failed = 0
    print(f"{'shape':32}{'KiB':>6}" + "".join(f"{'s':>9}{'MiB':>7}" for _ in TIMES) + f"{'time x':>8}{'B/B':>7}")
    with tempfile.TemporaryDirectory() as folder:
        for name, is_told, *words in shapes():
            if asked.words and not any(word in name for word in asked.words):
                continue
            found = measure(os.path.abspath(asked.program), name, is_told, words, asked, folder)
            print(found.line(asked.base), flush=True)
            passed += not found.faults()
            failed += bool(found.faults())
    print(f"{passed} passed, {failed} failed")
    return 1 if failed or not passed else 0


def main(words):
    if words[:1] == ["--list"]:
        from costs.shapes import SHAPES, TOLD, WORDS

        for name in SHAPES:
            print(name, "told" if name in TOLD else "measured", *WORDS.get(name, []))
        return 0
    if words[:1] == ["--make"]:
        from costs.shapes import SHAPES

        write(SHAPES[words[1]](int(words[2])), words[3])
        return 0
    parser = argparse.ArgumentParser()
    parser.add_argument("program")
    parser.add_argument("words", nargs="*")
    parser.add_argument("--command", choices=["list", "inspect", "link"])
    parser.add_argument("--base", type=int, default=262144)
    parser.add_argument("--seconds", type=int, default=60)
    return measure_all(parser.parse_intermixed_args(words))


if __name__ == "__main__":
    sys.exit(main(sys.argv[1:]))

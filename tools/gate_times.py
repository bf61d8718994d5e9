#!/usr/bin/env python3
"""Runs a command, by default .ci/run, and tells where its time goes: the processor seconds and the most memory of each crate
by phase, and the processor seconds of each part of the command. It looks at the prover's processes as they run, so that
what it tells is what the gate itself does, to some tenths of a second for each process.

The phases: with --reading, reading libraries (a check of an empty crate over the same libraries, run behind the command,
which is part of each other column); the proof, the tests (their proof, and compiling them), the mutants (the functions that they turn and
what these call), the library for C, the program as LLVM and as Rattle's own compiler build it.
usage: gate_times.py [--out FILE] [--reading] [COMMAND ..]
"""
import argparse
import os
import re
import resource
import subprocess
import sys
import tempfile
import time
from collections import defaultdict
from dataclasses import dataclass
from pathlib import Path

TOP = Path(__file__).parents[1]
CRATES = TOP / "crates"
TICKS = os.sysconf("SC_CLK_TCK")
PAGE = os.sysconf("SC_PAGE_SIZE")
PAUSE = 0.15
PHASES = ("reading", "proof", "tests", "mutants", "library for C", "LLVM", "Rattle")


@dataclass
class Seen:
    """A process of the prover, or a part of the command."""

    words: list
    folder: str
    began: float
    ended: float = 0.0
    seconds: float = 0.0
    most: int = 0

    def after(self, word):
        return self.words[self.words.index(word) + 1] if word in self.words[:-1] else ""


def stat_of(process):
    """The fields of a process's line behind its name."""
    text = Path(f"/proc/{process}/stat").read_text()
    return text[text.rindex(")") + 2 :].split()


def words_of(process):
    return Path(f"/proc/{process}/cmdline").read_text().split("\0")[:-1]


def is_below(process, command):
    """Whether the command began a process, or one that began it."""
    while process > 1 and process != command:
        process = int(stat_of(process)[1])
    return process == command


def look(seen, parts, command):
    """Notes what each process of the prover that the command began, and each direct child of it, has taken so far."""
    for process in filter(str.isdigit, os.listdir("/proc")):
        try:
            stat = stat_of(process)
            key = (process, stat[19])
            is_part = int(stat[1]) == command
            if key not in seen:
                words = words_of(process)
                if words and os.path.basename(words[0]) == "rattle" and words[1:2] in (["check"], ["build"]) and is_below(int(process), command):
                    seen[key] = Seen(words, os.readlink(f"/proc/{process}/cwd"), time.time())
                if is_part and key not in parts:
                    parts[key] = Seen(words, "", time.time())
            own, waited = (int(stat[11]) + int(stat[12])) / TICKS, (int(stat[13]) + int(stat[14])) / TICKS
            if key in seen:
                it = seen[key]
                it.seconds, it.most, it.ended = own, max(it.most, int(stat[21]) * PAGE), time.time()
            if key in parts:
                it = parts[key]
                # its words change where a shell becomes what it was asked to run
                it.words, it.seconds, it.ended = words_of(process) or it.words, own + waited, time.time()
        except (OSError, ValueError, IndexError):
            continue


def phase_of(it):
    """The phase that a process of the prover belongs to."""
    if f"/{it.after('--crate-name')}-mutants-" in it.folder:
        return "mutants"
    if "--test" in it.words:
        return "tests"
    if it.after("--crate-type") == "staticlib" and it.after("-o") and not it.words[-1].endswith(".rlib"):
        return "library for C"
    if it.words[1] == "build" and "--crate-checked" in it.words:
        return "Rattle" if it.after("--backend") == "rattle" else "LLVM"
    return "proof"


def by_crate(seen):
    """Seconds and most memory by crate and phase, and when its proof began and ended."""
    seconds, most, spans = defaultdict(lambda: defaultdict(float)), defaultdict(lambda: defaultdict(int)), {}
    for it in sorted(seen.values(), key=lambda it: it.began):
        # The quick tests have the sources of libraries read, and prove nothing.
        if "--lib" in it.words:
            continue
        name, phase = it.after("--crate-name"), phase_of(it)
        most[name][phase] = max(most[name][phase], it.most)
        seconds[name][phase] += it.seconds
        if phase == "proof":
            began, ended = spans.get(name, (it.began, it.ended))
            spans[name] = (min(began, it.began), max(ended, it.ended))
    return seconds, most, spans


def libraries_of():
    """The libraries of each crate, as crates.txt has them."""
    lines = (line.partition("#")[0] for line in (TOP / "crates.txt").read_text().splitlines())
    pairs = (line.partition(":") for line in lines if line.strip())
    return {name.split()[0]: libraries.split() for name, _, libraries in pairs}


def reading_seconds(seen):
    """What a check of an empty crate takes over the libraries of each crate."""
    found = {}
    for it in seen.values():
        name = it.after("--crate-name")
        if name in found or "--lib" in it.words or phase_of(it) != "proof":
            continue
        with tempfile.TemporaryDirectory() as room:
            (Path(room) / "src").mkdir()
            (Path(room) / "src/lib.rt").write_text("//! Nothing.\n#![tactic(auto)]\n")
            words = [str(CRATES / name / word) if word.startswith("../") else word for word in it.words]
            words = [re.sub(r"^src/\w+\.rt$", "src/lib.rt", word) for word in words]
            words[1] = "check"
            for flag in ("-o", "--jobs", "--crate-type"):
                if flag in words:
                    at = words.index(flag)
                    del words[at : at + 2]
            words = [word for word in words if word != "--statements"]
            before = resource.getrusage(resource.RUSAGE_CHILDREN)
            subprocess.run(words, cwd=room, stdin=subprocess.DEVNULL, capture_output=True, check=False)
            after = resource.getrusage(resource.RUSAGE_CHILDREN)
        found[name] = after.ru_utime + after.ru_stime - before.ru_utime - before.ru_stime
    return found


def chain(spans, libraries):
    """The crates that wait for each other longest, with the seconds that each one's proof took by the clock."""
    longest = {}

    def up_to(name):
        if name not in longest:
            chains = [up_to(it) for it in libraries[name] if it in libraries]
            below = max(chains, key=lambda chain: chain[0], default=(0, []))
            took = spans[name][1] - spans[name][0] if name in spans else 0
            longest[name] = (below[0] + took, [*below[1], (name, took)])
        return longest[name]

    return max((up_to(name) for name in libraries), key=lambda chain: chain[0])


def table(seconds, reading):
    """The lines of the table of seconds."""
    for name, took in reading.items():
        seconds[name]["reading"] = took
    yield "| crate | " + " | ".join(PHASES) + " | sum |"
    yield "|---" * (len(PHASES) + 2) + "|"
    total = defaultdict(float)
    for name in sorted(seconds, key=lambda it: -sum(took for phase, took in seconds[it].items() if phase != "reading")):
        row = [seconds[name][phase] for phase in PHASES]
        for phase, took in zip(PHASES, row):
            total[phase] += took
        yield f"| `{name}` | " + " | ".join(f"{took:.0f}" if took else "" for took in row) + f" | {sum(row[1:]):.0f} |"
    row = [total[phase] for phase in PHASES]
    yield "| all | " + " | ".join(f"{took:.0f}" for took in row) + f" | {sum(row[1:]):.0f} |"


def memory_table(most):
    """The lines of the table of memory."""
    phases = [phase for phase in PHASES if phase != "reading"]
    yield "| crate, MB | " + " | ".join(phases) + " |"
    yield "|---" * (len(phases) + 1) + "|"
    for name in sorted(most, key=lambda it: -max(most[it].values())):
        yield f"| `{name}` | " + " | ".join(f"{most[name][phase] // 1_000_000}" if most[name][phase] else "" for phase in phases) + " |"


def report(seen, parts, whole, reading):
    """The lines of the report: crates, parts, the longest chain. `reading` has the seconds of that phase. The whole is the command's line of the table of parts."""
    seconds, most, spans = by_crate(seen)
    yield from table(seconds, reading)
    yield ""
    yield from memory_table(most)
    yield ""
    yield "| part | processor minutes | minutes |"
    yield "|---|---|---|"
    for it in sorted(parts.values(), key=lambda it: it.began):
        if it.ended - it.began > 1:
            yield f"| `{' '.join(os.path.basename(word) for word in it.words[:4])}` | {it.seconds / 60:.1f} | {(it.ended - it.began) / 60:.1f} |"
    yield whole
    took, crates = chain(spans, libraries_of())
    yield ""
    yield f"The longest chain of proofs: {took / 60:.1f} minutes: " + ", ".join(f"{name} {each:.0f}" for name, each in crates) + " (seconds by the clock)."


def main():
    words = argparse.ArgumentParser(usage=__doc__.rpartition("usage: ")[2])
    words.add_argument("--out")
    words.add_argument("--reading", action="store_true")
    words.add_argument("command", nargs=argparse.REMAINDER)
    given = words.parse_args()
    seen, parts, began = {}, {}, time.time()
    running = subprocess.Popen(given.command or ["bash", ".ci/run"], cwd=TOP, stdin=subprocess.DEVNULL)
    while running.poll() is None:
        look(seen, parts, running.pid)
        time.sleep(PAUSE)
    used, status = resource.getrusage(resource.RUSAGE_CHILDREN), running.returncode
    whole = f"| all, status {status} | {(used.ru_utime + used.ru_stime) / 60:.1f} | {(time.time() - began) / 60:.1f} |"
    text = "\n".join(report(seen, parts, whole, reading_seconds(seen) if given.reading else {})) + "\n"
    if given.out:
        Path(given.out).write_text(text)
    print(text, end="")
    return status


if __name__ == "__main__":
    sys.exit(main())

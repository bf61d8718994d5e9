#!/usr/bin/env python3
"""Runs programs, and the library for C, on objects that are made from parts and on real ones that are damaged, and reports
what they must not do.

usage: fuzz.py [--inputs N] [--seed N] [--from N] [--jobs N] [--keep FOLDER] [--memory MIB] [--library FILE] [PROGRAM..]

PROGRAM is a built ebpf-link (crates/ebpf_link/out/ebpf_link) or ebpf-inspect, FILE a libebpf.a, which a program in C
(fuzzing/passes.c, built by cc with its sanitizers) opens objects by as lenient parsing does, and runs the passes over them.
Input number K of a seed is the same each time. Those with even numbers are made from parts: types, records of CO-RE, externs
of the kernel and of its configuration, maps, programs in sections of each name, and a kernel's types and symbols to match;
fields are set to their limits, or near them. Those with odd numbers are objects of clang and of rows/ with bytes, words,
fields, names, sections and slots changed. No file is longer than 64 KiB.

A find is a run that ends with another status than 0, 1 and 2 or by a signal, or runs past 10 s; one that writes to standard
error with status 0, or with status 1 or 2 anything but one of the lines that docs/CLI.md states, or that writes output
beside a refusal; output of another form; two programs that don't refuse alike. Of the program in C it is a signal, a report
of a sanitizer, a run past 10 s, a byte that isn't freed, a number that a call may not answer, another object behind a
refusal, or a broad reading that isn't the stated one of what that takes.

N is 2,000 inputs of the seed 1 from 0 on, on all processors, where nothing else is said. The files of each find are kept in
FOLDER (out/fuzz-kept), which is named at the end. Each run of a program has 1 GiB of memory, or MIB (0: no limit). The last
line is 'N passed, M failed', of inputs; the status is 1 where one failed.
"""
import argparse
import collections
import json
import os
import sys
import tempfile
import traceback

from fuzzing.driver import Driver, built
from fuzzing.inputs import Files, case_of
from fuzzing.judge import difference, fault
from fuzzing.runs import Runs, limit_memory

# How many finds are printed.
SHOWN = 100


def words():
    parser = argparse.ArgumentParser()
    parser.add_argument("--inputs", type=int, default=2000)
    parser.add_argument("--seed", type=int, default=1)
    parser.add_argument("--from", type=int, default=0, dest="start")
    parser.add_argument("--jobs", type=int, default=len(os.sched_getaffinity(0)))
    parser.add_argument("--keep", default="out/fuzz-kept")
    parser.add_argument("--memory", type=int, default=1024)
    parser.add_argument("--library")
    parser.add_argument("programs", nargs="*")
    asked = parser.parse_args()
    if not asked.programs and not asked.library:
        parser.error("no program and no library")
    return asked


def name_of(program):
    """What a program calls itself."""
    return os.path.basename(program).removesuffix("_program").replace("cli_", "ebpf_").replace("_", "-")


class Worker:
    """Runs the inputs of a job. Writes a line for each find, and one on all that was seen."""

    def __init__(self, asked, files, driver, folder, out):
        self.asked, self.files, self.folder, self.out = asked, files, folder, out
        self.seen = collections.Counter()
        self.failed = set()
        self.runs = Runs()
        self.driver = Driver(driver, folder) if driver else None

    def find(self, number, case, wrong):
        """Keeps the files of an input, and tells of it."""
        kept = os.path.join(self.asked.keep, f"{self.asked.seed}-{number}")
        os.makedirs(kept, exist_ok=True)
        case.write(kept)
        self.failed.add(number)
        said = f"input {number} of seed {self.asked.seed}: {wrong}; {' '.join(map(repr, case.words(kept)))}"
        self.out.write(json.dumps({"find": said}) + "\n")
        self.out.flush()

    def programs(self, number, case):
        """Runs the programs on an input."""
        case.write(self.folder)
        runs = []
        for program in self.asked.programs:
            run = self.runs.run([program, *case.words(self.folder)])
            self.seen[f"{case.kind}: {name_of(program)}: {run.summary()}"] += 1
            wrong = fault(name_of(program), run)
            runs.append(run)
            if wrong:
                self.find(number, case, f"{name_of(program)}: {wrong}")
        if len(runs) == 2 and number not in self.failed and (wrong := difference(*runs)):
            self.find(number, case, wrong)

    def library(self, batch):
        """Has the program in C open the objects of a batch."""
        for (number, case), answer in zip(batch, self.driver.answers([case for _, case in batch])):
            self.seen[f"{case.kind}: library: {answer.summary}"] += 1
            if answer.wrong:
                self.find(number, case, f"the library for C: {answer.wrong}")

    def work(self, job):
        asked, batch = self.asked, []
        for number in range(asked.start + job, asked.start + asked.inputs, asked.jobs):
            case = case_of(self.files, asked.seed, number)
            if asked.programs:
                self.programs(number, case)
            batch.append((number, case))
            if self.driver and len(batch) == Driver.MOST:
                self.library(batch)
            batch = batch if self.driver and len(batch) < Driver.MOST else []
        if batch:
            self.library(batch)
        self.out.write(json.dumps({"seen": self.seen, "failed": len(self.failed)}) + "\n")


def start(asked, files, driver, job):
    """Starts a job; what it writes."""
    read, write = os.pipe()
    if os.fork() == 0:
        os.close(read)
        shared = "/dev/shm" if os.path.isdir("/dev/shm") else None
        status = 1
        try:
            with os.fdopen(write, "w") as out, tempfile.TemporaryDirectory(dir=shared) as folder:
                limit_memory(asked.memory << 20)
                Worker(asked, files, driver, folder, out).work(job)
            status = 0
        except BaseException:
            traceback.print_exc()
        os._exit(status)
    os.close(write)
    return os.fdopen(read)


def told(jobs):
    """Prints what the jobs write. How many inputs failed, and what was seen."""
    failed, finds, seen = 0, 0, collections.Counter()
    for lines in jobs:
        for line in lines:
            said = json.loads(line)
            seen.update(said.get("seen", {}))
            failed += said.get("failed", 0)
            if "find" in said and (finds := finds + 1) <= SHOWN:
                print(said["find"], flush=True)
    return failed, seen


def main():
    asked = words()
    files = Files()
    with tempfile.TemporaryDirectory() as folder:
        driver = built(asked.library, folder) if asked.library else None
        failed, seen = told([start(asked, files, driver, job) for job in range(asked.jobs)])
        broken = sum(os.wait()[1] != 0 for _ in range(asked.jobs))
    for text, count in sorted(seen.items()):
        print(f"{count:8} {text}")
    if failed:
        print(f"the files of what failed are kept in {os.path.abspath(asked.keep)}")
    if broken:
        print(f"{broken} of {asked.jobs} jobs ended before their last input")
    print(f"{asked.inputs - failed - broken} passed, {failed + broken} failed")
    return 1 if failed or broken else 0


if __name__ == "__main__":
    sys.exit(main())

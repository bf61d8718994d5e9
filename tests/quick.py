"""Runs every test case without a proof, by `rt try`, which stops at an index out of range, a sum that wraps or a failed unwrap:

- the tests of each driver and crate, and each program that has a file stdout, whose output is compared with that file test
  case by test case; programs are built together where that is quicker (together.py);
- one row of the driver of allocation failures;
- what objects hold in memory, compared with what is counted of their files (limits/live_bytes.py).

It also checks, without running anything:

- whether each mutant applies, each row of tests/mutants.tsv names one, and their checksums change where they have to;
- whether docs/API.md and docs/DEFINITIONS.md are those of the sources, and docs/ERRORS.md the output of test_errors;
- whether the documents have their form, and the code of docs/LIBRARY.md and README.md is that of the crates that run it.

Ends with 'N passed, M failed', and with status 1 where one failed.
"""
import argparse
import os
import re
import sys
import tempfile
import time
from concurrent.futures import ThreadPoolExecutor
from dataclasses import dataclass, field
from itertools import zip_longest
from pathlib import Path

TOP = Path(__file__).parents[1]
sys.path += [str(TOP / "tools"), str(TOP / "tests/limits")]

import api_page  # noqa: E402
import definitions  # noqa: E402
import documents  # noqa: E402
import errors_page  # noqa: E402
import library_page  # noqa: E402
import live_bytes  # noqa: E402
import mutants  # noqa: E402
import mutants_test  # noqa: E402
from driver_crates import listed  # noqa: E402
from growths import calls  # noqa: E402
from growths import driver as alloc_failures  # noqa: E402
from together import one_crate  # noqa: E402
from unproved import rt_try  # noqa: E402

CRATES = listed()
# Programs whose rows take as long as building them does: each of their words is run by itself, these beside all others.
LONG = {"test_rows": ["core_relo.txt"], "test_btf_rows": ["most_pairs.txt", "too_many_pairs.txt", "cases.txt"]}
# What is looked at once for the whole repository: what is counted, and what gives the count and the failures.
CHECKS = {
    "mutants that apply": mutants.misfits,
    "tests/mutants.tsv in order": mutants.row_misfits,
    "tests of the mutants' checksums": mutants_test.run_cases,
    "items of docs/API.md as the sources have them": api_page.misfits,
    "rows of docs/DEFINITIONS.md as the sources have them": definitions.misfits,
    "documents in form": documents.misfits,
    "errors that docs/ERRORS.md has as they are printed": errors_page.faults,
    "pieces of docs/LIBRARY.md and README.md that stand": library_page.misfits,
}


@dataclass
class Outcome:
    """What was run of a crate, by name, and why what failed did."""

    passed: int = 0
    failures: list = field(default_factory=list)


def run_tests(crates):
    """The tests of these crates, which are built together."""
    with tempfile.TemporaryDirectory() as made:
        tried = rt_try(one_crate(Path(made) / "repository", "quick_tests", crates), "--test")
    results = re.findall(r"^test (\S+) \.\.\. (\w+)", tried.printed + tried.said, re.MULTILINE)
    outcomes = {}
    for crate in crates:
        own = [(name, result) for name, result in results if name.split("::")[0] == crate]
        outcome = outcomes[crate] = Outcome(sum(result == "ok" for _, result in own))
        outcome.failures = [f"{crate}: test {name}: {result}" for name, result in own if result != "ok"]
        if not own or (tried.status and not outcome.failures):
            outcome.failures.append(f"{crate}: its tests ended with status {tried.status}:\n{tried.last_lines}")
    return outcomes


def run_alloc_failures(names):
    """One row of the driver of allocation failures, which has a stored output; refused_growths.sh runs all."""
    rows = [row for row in calls.rows() if row.name == alloc_failures.STORED_ROW]
    driver = alloc_failures.Driver(rows)
    tallies = [alloc_failures.stored_output(driver, rows), *(row.judge(driver) for row in rows)]
    outcome = Outcome(sum(it.passed for it in tallies), [fault for it in tallies for fault in it.faults])
    return dict.fromkeys(names, outcome)


def run_live_bytes(names):
    """The files of which it is counted what their objects hold."""
    count, faults = live_bytes.judged(live_bytes.all_files())
    return dict.fromkeys(names, Outcome(count - len(faults), faults))


def rows_of(text):
    """The rows of what a program prints. Where it prints cases, a row is an action, behind one space, with its lines, behind
    two, and with the case's name where it is the first; else each line is one."""
    lines = [line for line in text.split("\n") if line]
    if not any(re.match(r" \S", line) for line in lines):
        return lines
    rows, name = [], []
    for line in lines:
        if re.match(r" \S", line):
            rows.append("\n".join([*name, line]))
            name = []
        elif line.startswith("  ") and rows and not name:
            rows[-1] += "\n" + line
        else:
            name.append(line)
    return rows + name


def words_of(crate):
    """The words that a program is run with."""
    args = CRATES[crate].folder / "args"
    return args.read_text().split("\n")[:-1] if args.exists() else []


def runs_of(crate):
    """The runs of a program, each by its words, in the order of what they print."""
    words = words_of(crate)
    return [[word] for word in words] if crate in LONG else [words]


@dataclass
class Run:
    """A run of a program, and what it gave."""

    crate: str
    words: list
    status: int = -1
    printed: str = ""
    said: str = ""


def put_cases(folder, runs):
    """Writes what is to be run for `rt try --cases`; gives the flags that lend the files that words name."""
    data = {}
    for number, run in enumerate(runs):
        (folder / f"{number}").write_text(run.crate)
        (folder / f"{number}.args").write_text("".join(f"{word}\n" for word in run.words))
        for word in run.words:
            file = CRATES[run.crate].folder / "data" / word
            if file.is_file():
                data[word] = file
    return [flag for word, file in data.items() for flag in ("--data", f"{word}={file}")]


def run_programs(runs):
    """Does these runs, one after the other, of programs that are built together."""
    with tempfile.TemporaryDirectory() as made:
        made = Path(made)
        crate = one_crate(made / "repository", "quick_programs", sorted({run.crate for run in runs}))
        (made / "cases").mkdir()
        flags = put_cases(made / "cases", runs)
        tried = rt_try(crate, "--cases", str(made / "cases"), *flags)
    printed = dict(re.findall(r"^== (\d+)\n((?:(?!== \d+\n).*\n?)*)", tried.printed, re.MULTILINE))
    statuses = dict(re.findall(r"^case=(\d+) run=ended status=(\d+)", tried.said, re.MULTILINE))
    for number, run in enumerate(runs):
        run.printed = printed.get(str(number), "")
        run.status = int(statuses.get(str(number), -1))
        run.said = tried.last_lines
    return runs


def compared(crate, runs):
    """What a program printed in its runs beside its file stdout."""
    folder = CRATES[crate].folder
    stdout, printed = (folder / "stdout").read_text(), "".join(run.printed for run in runs)
    outcome = Outcome()
    for number, (want, gave) in enumerate(zip_longest(rows_of(stdout), rows_of(printed)), 1):
        if want == gave:
            outcome.passed += 1
        else:
            outcome.failures.append(f"{crate}: row {number}:\n  wanted: {want}\n  given:  {gave}")
    if not outcome.failures and printed != stdout:
        outcome.failures.append(f"{crate}: blank lines differ")
    status = int((folder / "status").read_text()) if (folder / "status").exists() else 0
    for run in runs:
        if run.status != status:
            outcome.failures.append(f"{crate}: its program ended with status {run.status}, not {status}:\n{run.said}")
    return outcome


def tasks(names):
    """What is to be run, in parts that are run beside each other, what takes longest first; each part gives runs of programs,
    or outcomes of tests."""
    crates = [crate for name, crate in sorted(CRATES.items()) if not names or name in names]
    runs = [Run(crate.name, words) for crate in crates if (crate.folder / "stdout").exists() for words in runs_of(crate.name)]
    long = [run for run in runs if set(run.words) & set(LONG.get(run.crate, []))]
    others = [run for run in runs if run not in long]
    # Drivers and the programs of crates are built apart: one build of both would be the longest part.
    drivers = [run for run in others if CRATES[run.crate].is_driver]
    programs = [run for run in others if run not in drivers]
    parts = [(run_programs, held) for held in [drivers, *([run] for run in long), programs] if held]
    tests = [crate.name for crate in crates if crate.has_tests()]
    driver = [crate.name for crate in crates if crate.name == alloc_failures.NAME]
    owned = [crate.name for crate in crates if crate.name == live_bytes.NAME]
    others = [(run_tests, tests), (run_alloc_failures, driver), (run_live_bytes, owned)]
    return runs, parts + [part for part in others if part[1]]


def timed(part):
    """What a part gives, and the seconds that it took."""
    began = time.monotonic()
    return part[0](part[1]), time.monotonic() - began


def title(what):
    """The programs or the tests of a part, in short."""
    names = sorted({it.crate if isinstance(it, Run) else it for it in what})
    words = what[0].words if len(what) == 1 and isinstance(what[0], Run) else []
    return " ".join([*names[:1], *words]) + (f" and {len(names) - 1} more" if len(names) > 1 else "")


def ran(names, jobs):
    """The outcomes of the crates, by name; so many parts run at once."""
    runs, parts = tasks(names)
    outcomes = {}
    with ThreadPoolExecutor(jobs) as pool:
        for (work, what), (done, took) in zip(parts, pool.map(timed, parts)):
            outcomes.update({} if work is run_programs else done)
            print(f"{took:.0f} s: {title(what)}", flush=True)
    for crate in sorted({run.crate for run in runs}):
        outcomes[crate] = compared(crate, [run for run in runs if run.crate == crate])
    return outcomes


def main():
    words = argparse.ArgumentParser(prog="quick.sh", description="Runs every test case without a proof.")
    words.add_argument("--jobs", type=int, default=len(os.sched_getaffinity(0)), help="parts that run at once (one for each processor)")
    words.add_argument("names", metavar="CRATE", nargs="*", help="only the test cases of these crates and drivers")
    given = words.parse_args()
    unknown = [name for name in given.names if name not in CRATES]
    if unknown:
        words.error(f"no crate or driver {unknown[0]}")
    passed = failed = 0
    for name, outcome in ran(given.names, given.jobs).items():
        passed += outcome.passed
        failed += len(outcome.failures)
        print(f"{name}: {outcome.passed} passed, {len(outcome.failures)} failed", flush=True)
        for failure in outcome.failures[:5]:
            print(failure, flush=True)
    if not given.names:
        for what, check in CHECKS.items():
            count, failures = check()
            failures = failures if count else [f"{what}: nothing was looked at"]
            right = max(count - len(failures), 0)
            passed, failed = passed + right, failed + len(failures)
            print("\n".join([*failures, f"{what}: {right}"]), flush=True)
    print(f"{passed} passed, {failed} failed")
    return 1 if failed or not passed else 0


if __name__ == "__main__":
    sys.exit(main())

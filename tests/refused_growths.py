"""Runs the rows of growths/ with each allocation failing in turn; refused_growths.sh says how it is called."""
import itertools
import multiprocessing
import os
import sys
from pathlib import Path

from growths import calls, commands, linking, loader, rows_of_files, still
from growths.driver import Driver, DriverRow, stored_output
from growths.run import Runner

# How many faults are printed.
SHOWN = 50

RUNNERS = {}


def all_rows(words):
    rows = [*calls.rows(), *loader.rows(), *still.rows(), *linking.rows(), *commands.rows(), *rows_of_files.rows()]
    return [row for row in rows if not words or any(word in row.name for word in words)]


def begin(folder):
    """Each process has a runner of its own."""
    RUNNERS["own"] = Runner(folder)


def judge(row):
    return row.judge(RUNNERS["own"])


def judged_by_driver(rows, is_whole):
    """The tallies of the rows of the driver; `is_whole` where these are all rows."""
    if rows:
        driver = Driver(rows)
        stored = stored_output(driver, rows)
        if is_whole and not stored.passed and not stored.faults:
            stored.count("the row", "there is none of this name")
        yield stored
        yield from (row.judge(driver) for row in rows)


def main(folder, words):
    talks = "-v" in words
    rows = all_rows([word for word in words if word != "-v"])
    passed, faults = 0, []
    of_driver = [row for row in rows if isinstance(row, DriverRow)]
    of_programs = [row for row in rows if not isinstance(row, DriverRow)]
    with multiprocessing.Pool(os.cpu_count(), begin, [Path(folder)]) as pool:
        of_both = [pool.imap(judge, of_programs), judged_by_driver(of_driver, not set(words) - {"-v"})]
        for tally in itertools.chain(*of_both):
            passed += tally.passed
            faults += tally.faults
            for fault in tally.faults[: max(0, SHOWN - len(faults) + len(tally.faults))]:
                print(f"FAILED {fault}", flush=True)
            if talks:
                print(f"{tally.row}: {tally.passed} passed, {len(tally.faults)} failed", flush=True)
    print(f"{passed} passed, {len(faults)} failed")
    return 1 if faults or not passed else 0


if __name__ == "__main__":
    sys.exit(main(sys.argv[1], sys.argv[2:]))

"""Runs the driver test_alloc_failures on all rows, without a proof. It forks a process for each row, which makes the row's call
once for each allocation that fails (c/alloc_failures.c of test_marked_calls): it is built once and starts once."""
import os
import re
import tempfile
from pathlib import Path

from driver_crates import TOP, make_repository
from growths.run import Output, Row, Tally
from unproved import rt_try

NAME = "test_alloc_failures"

# The whole output of one row with memory, as the driver has to print it.
STORED = TOP / "tests/drivers" / NAME / "relocate_calls.txt"
STORED_ROW = "relocate_calls, the small object"

BEGIN = b"== begin\n"
RUN = re.compile(rb"== run (\d+-?) (\d+) (\d+) (-?\d+) (\d+) (\d+) (\d+)\n")


class DriverRow(Row):
    """A call on three files. Its words are the sizes of the files, the subject and the calls."""

    def __init__(self, name, files, *calls):
        super().__init__(name, *calls)
        self.files = [file.read_bytes() if isinstance(file, Path) else bytes(file) for file in files]

    def words(self, _runner):
        return [str(len(self.endings)), *(str(len(file)) for file in self.files), *self.given]

    def missing(self, runner, _words):
        return runner.missing(self)

    def judge(self, runner):
        runner.row = self
        return super().judge(runner)


def runs_of(printed):
    """What a row's process printed with memory, and the output of each child by the number of its failing allocation."""
    front, has_begun, rest = printed.partition(BEGIN)
    front += has_begun
    children, texts, at = {}, {}, 0
    while found := RUN.match(rest, at):
        number, met, failed, status, text, out, err = found.groups()
        at = found.end()
        if text not in texts:
            middle, end = at + int(out), at + int(out) + int(err)
            texts[text], at = (rest[at:middle], rest[middle:end]), end
        printed_out, printed_err = texts[text]
        children[number.decode()] = Output(int(status), front + printed_out, printed_err, (int(met), int(failed)))
    return front + rest[at:], children


class Driver:
    """The runs of all rows of the driver."""

    def __init__(self, rows):
        self.rows = {id(row): number for number, row in enumerate(rows)}
        self.row = None
        with tempfile.TemporaryDirectory() as made:
            self.ran, self.status, self.said = run_all(Path(made), rows)
        self.held = (None, None)

    def missing(self, row):
        """Why there are no runs of a row, or None."""
        ran = self.ran[self.rows[id(row)]]
        if ran is None or self.status:
            return f"{NAME} did not run it, or ended with status {self.status}: {self.said}"
        self.row = row
        return None if "0" in self.runs()[1] else f"no allocation was counted: {ran.out[-300:]!r} {ran.err[-300:]!r}"

    def runs(self):
        if self.held[0] is not self.row:
            self.held = (self.row, runs_of(self.ran[self.rows[id(self.row)]].out))
        return self.held[1]

    def run(self, _words, refused=None, _is_marked=True):
        """The run with the failing allocation of this number; None: with memory, and nothing counts allocations."""
        ample, children = self.runs()
        if refused is None:
            ran = self.ran[self.rows[id(self.row)]]
            return Output(ran.status, ample, ran.err)
        return children.get(str(refused), Output(-1, b"", b"no such run"))


def stored_output(driver, rows):
    """The tally of the row whose output is stored, line by line."""
    tally = Tally(f"{STORED_ROW}: output")
    for row in rows:
        if row.name == STORED_ROW:
            driver.row = row
            given = driver.run(None).out.decode("utf-8", "replace").splitlines()
            wanted = STORED.read_text().splitlines()
            for number, line in enumerate(wanted):
                other = given[number : number + 1]
                tally.count(f"line {number + 1}", None if other == [line] else f"{other}")
            if len(given) != len(wanted):
                tally.count("lines", f"{len(given)} in place of {len(wanted)}")
    return tally


def outcome(folder, number):
    """What the process of a row left, or None where it did not end."""
    status = folder / f"{number}.status"
    if not status.exists():
        return None
    return Output(int(status.read_text()), (folder / f"{number}.out").read_bytes(), (folder / f"{number}.err").read_bytes())


def run_all(folder, rows):
    """Builds the driver in a temporary repository, and runs it on the files and words of all rows: what the process of each
    left, the status of all, and the last lines of the output."""
    repository, held = folder / "repository", folder / "rows"
    repository.mkdir()
    held.mkdir()
    make_repository(repository, [NAME])
    for number, row in enumerate(rows):
        (held / f"{number}.in").write_bytes(b"".join(row.files))
        (held / f"{number}.args").write_text("".join(f"{word}\n" for word in row.words(None)))
    # As a case it is built once, where a plain run is also built to look for races.
    cases = folder / "cases"
    cases.mkdir()
    (cases / "rows").touch()
    (cases / "rows.args").write_text(f"{held}\n{len(rows)}\n{os.cpu_count()}\n")
    tried = rt_try(repository / "crates" / NAME, "--cases", str(cases), RT_ALLOW_C="test_marked_calls")
    return [outcome(held, number) for number in range(len(rows))], tried.status, tried.last_lines

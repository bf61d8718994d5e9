#!/usr/bin/env python3
"""Tests which mutants' checksums a change changes, and what the table keeps, in a copy of crates.txt and crates/.
Proves nothing. Ends with 'N passed, M failed', and with status 1 where one failed.
usage: mutants_test.py
"""
import shutil
import sys
import tempfile
from dataclasses import replace
from pathlib import Path

TOP = Path(__file__).parents[1]
sys.path.append(str(TOP / "tools"))

from mutant_checksums import HEADER, TABLE, Checksums, Mutant, mutants_of, record, refusals, table_faults  # noqa: E402

CRATE = "ebpf_linker"
# The folders of a crate that the checksums, or the list of mutants, read.
PARTS = ("src", "specs", "proofs", "gate-edits", "more-edits")
LOGIC = "0123456789abcdef"


def crates_above(top, wanted):
    """A crate and the crates that name it, or that name one of these. Reads crates.txt apart from the tool."""
    lines = [line.split("#")[0].replace(":", " ").split() for line in (top / "crates.txt").read_text().splitlines()]
    above, before = {wanted}, set()
    while above != before:
        before = set(above)
        above |= {words[0] for words in lines if words and above & set(words[1:])}
    return above


def all_checksums(top, logic=LOGIC):
    checksums = Checksums(top, logic)
    return {it: checksums.of(it) for it in mutants_of(top)}


def changed_by(top, change, logic=LOGIC):
    """The mutants whose checksum changes with a change of the copy."""
    before = all_checksums(top)
    change()
    after = all_checksums(top, logic)
    return {it for it in before if before[it] != after[it]}


def change_first_line(file):
    """Changes one line of a file."""
    first, rest = file.read_text().split("\n", 1)
    file.write_text(f"{first} \n{rest}")


def own_and_above(top):
    """The mutants of the crate and of each crate above it."""
    return {it for it in mutants_of(top) if it.crate in crates_above(top, CRATE)}


def one_line(top, part):
    """Whether a changed line of the crate changes the checksums of its mutants and those above, and no other."""
    file = sorted(it for it in (top / "crates" / CRATE / part).rglob("*") if it.is_file())[0]
    changed = changed_by(top, lambda: change_first_line(file))
    return changed == own_and_above(top) and {CRATE} < {it.crate for it in changed} and changed < set(mutants_of(top))


def line_in_src(top):
    return one_line(top, "src")


def line_in_specs(top):
    return one_line(top, "specs")


def line_in_proofs(top):
    return one_line(top, "proofs")


def renamed_file(top):
    file = sorted((top / "crates" / CRATE / "specs").glob("*.antt"))[0]
    return changed_by(top, lambda: file.rename(file.with_name(f"Renamed{file.name}"))) == own_and_above(top)


def line_of_crates(top):
    """The crate's line of crates.txt counts, and no comment does."""
    file = top / "crates.txt"
    text = file.read_text()
    comment = changed_by(top, lambda: file.write_text(f"# a comment\n{text}"))
    changed = changed_by(top, lambda: file.write_text(text.replace(f"\n{CRATE}:", f"\n{CRATE}: thiserror")))
    return not comment and changed == own_and_above(top)


def other_files(top):
    """What a program prints decides no refusal."""
    return not changed_by(top, lambda: (top / "crates" / CRATE / "stdout").write_text("a line\n"))


def own_file(top):
    mutant = next(it for it in mutants_of(top) if it.crate == CRATE)
    return changed_by(top, lambda: change_first_line(mutant.file(top))) == {mutant}


def other_logic(top):
    return changed_by(top, lambda: None, LOGIC[::-1]) == set(mutants_of(top))


def kept_rows(top):
    """Of the tried mutants those that were refused have a row, another mutant's row stays, and that of none goes."""
    refused, failed, other = mutants_of(top)[2::-1]
    gone = replace(other, name="gone")
    record(top, [failed, other, gone], {failed: "1" * 16, other: "2" * 16})
    with (top / TABLE).open("a") as table:
        table.write("\t".join([gone.crate, gone.kind, gone.name, "3" * 16]) + "\n")
    faults = table_faults(top)
    record(top, [refused, failed], {refused: "4" * 16})
    is_kept = refusals(top) == {other: "2" * 16, refused: "4" * 16}
    return len(faults) >= 1 and gone.name in faults[0] and is_kept and not table_faults(top)


def bad_tables(top):
    """A table without its header, one with a line of other columns, one that is not sorted."""
    first, second = (f"{it.crate}\t{it.kind}\t{it.name}\t{'5' * 16}" for it in mutants_of(top)[:2])
    faults = []
    for lines in ([first, second], [HEADER, "<<<<<<<", first], [HEADER, second, first], [HEADER, first, first]):
        (top / TABLE).write_text("".join(f"{line}\n" for line in lines))
        faults.append(table_faults(top))
    return all(faults) and set(refusals(top)) == {Mutant(*first.split("\t")[:3])}


CASES = [
    *[line_in_src, line_in_specs, line_in_proofs, renamed_file, line_of_crates, other_files],
    *[own_file, other_logic, kept_rows, bad_tables],
]


def run_cases():
    """How many cases there are, and which failed. One copy is enough: each compares before and after its change."""
    with tempfile.TemporaryDirectory() as made:
        copy = Path(made)
        for folder in (it for part in PARTS for it in TOP.glob(f"crates/*/{part}")):
            shutil.copytree(folder, copy / folder.relative_to(TOP))
        shutil.copy(TOP / "crates.txt", copy)
        (copy / "tests").mkdir()
        failures = [f"tests/mutants_test.py: {case.__name__} failed" for case in CASES if not case(copy)]
    return len(CASES), failures


if __name__ == "__main__":
    count, failures = run_cases()
    print("\n".join([*failures, f"{count - len(failures)} passed, {len(failures)} failed"]))
    sys.exit(1 if failures else 0)

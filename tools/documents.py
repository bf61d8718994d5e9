#!/usr/bin/env python3
"""Checks the form of the documents: no line above 120 columns and no paragraph above 6 lines, tables and code aside, and no
commit id; no date outside the tables of measurements. Compares the numbers of test cases and mutants in docs/TESTING.md with
the files. Looks for each law in docs/PROOFS.md, and for each section that a page names. Ends with 'N passed, M failed', and
with status 1 where one failed.

usage: documents.py [FILE ..]      FILE: only these; none: those at the top, and the pages of docs/, tests/, bench/
"""
import re
import sys
from pathlib import Path

TOP = Path(__file__).parents[1]
sys.path.append(str(TOP / "tests"))
COLUMNS, LINES = 120, 6
# Pages that tools write.
EXCEPTIONS = {"docs/API.md", "docs/DEFINITIONS.md"}
# Pages with tables of measurements, each of which has its date, and the list of releases.
DATED = {"docs/PERFORMANCE.md", "docs/TESTING.md", "CHANGELOG.md"}

DATE = re.compile(r"\b20\d\d-\d\d-\d\d\b")
COMMIT = re.compile(r"\b(?=[0-9a-f]*\d)(?=[0-9a-f]*[a-f])[0-9a-f]{7,12}\b")


def pages():
    """The documents, by their paths from the top."""
    found = [TOP / "README.md", TOP / "CONTRIBUTING.md", TOP / "CHANGELOG.md"]
    found += sorted(it for folder in ("docs", "tests", "bench") for it in (TOP / folder).glob("*.md"))
    return [it for it in found if str(it.relative_to(TOP)) not in EXCEPTIONS]


def prose_of(text):
    """The lines outside code and tables, each with its number; None where a paragraph ends."""
    is_code = False
    for number, line in enumerate(text.split("\n"), 1):
        if line.startswith("```"):
            is_code = not is_code
            yield None
        elif is_code or line.startswith(("    ", "|", "#")) or not line.strip():
            yield None
        else:
            yield number, line


def paragraphs(lines):
    """The lengths of paragraphs, each with the number of its first line; a list's item begins one."""
    first, length = 0, 0
    for line in [*lines, None]:
        begins = line and re.match(r"\s*(?:[-*]|\d+\.) ", line[1])
        if length and (line is None or begins):
            yield first, length
            length = 0
        if line:
            first, length = (line[0], 1) if not length else (first, length + 1)


def faults(name, text):
    """What is wrong with a document, line by line."""
    lines = list(prose_of(text))
    for line in filter(None, lines):
        if len(line[1]) > COLUMNS:
            yield f"{name}:{line[0]}: {len(line[1])} columns"
        if COMMIT.search(line[1]):
            yield f"{name}:{line[0]}: the commit id {COMMIT.search(line[1])[0]}"
        if name not in DATED and DATE.search(line[1]):
            yield f"{name}:{line[0]}: the date {DATE.search(line[1])[0]}"
    for first, length in paragraphs(lines):
        if length > LINES:
            yield f"{name}:{first}: a paragraph of {length} lines"


def cases_of(folder):
    """The number of test cases of a driver: its rows in stdout, or its tests."""
    if (folder / "stdout").exists():
        from quick import rows_of  # tests/quick.py, which imports this module

        return len(rows_of((folder / "stdout").read_text()))
    return sum(file.read_text().count("#[test]") for file in folder.rglob("*.rs"))


def wrong_numbers(text):
    """The numbers of docs/TESTING.md that are not those of the files."""
    stated = {name: count for name, count in re.findall(r"^\| `(\w+)` \| ([\d,]+) \|", text, re.MULTILINE)}
    wanted = {name: cases_of(folder) for folder in (TOP / "tests/drivers").iterdir() if (name := folder.name) in stated}
    wanted |= {name: cases_of(TOP / "bench/drivers" / name) for name in stated if (TOP / "bench/drivers" / name).is_dir()}
    for kind in ("gate-edits", "more-edits"):
        stated[kind] = "".join(re.findall(rf"{kind}` has (\d+)", text))
        wanted[kind] = len(list(TOP.glob(f"crates/*/{kind}/*.edit")))
    for name, count in stated.items():
        if count != f"{wanted.get(name, 0):,}":
            yield f"docs/TESTING.md: {name} has {wanted.get(name, 0)}, not {count}"


def missing_laws(text):
    """The laws that docs/PROOFS.md doesn't name."""
    for file in sorted(TOP.glob("crates/*/src/*laws.rt")):
        for name in re.findall(r"^pub fn (\w+)", file.read_text(), re.MULTILINE):
            if not re.search(rf"\b{name}\b", text):
                yield f"docs/PROOFS.md: no {name} of {file.relative_to(TOP)}"


def missing_sections(pages):
    """The sections that a page names, as in: docs/CLI.md, 'Status', and that the other page lacks."""
    heads = {it.name: re.findall(r"^#+ (.*)", it.read_text(), re.MULTILINE) for it in (TOP / "docs").glob("*.md")}
    for it in pages:
        text = re.sub(r"\s*\n\s*", " ", it.read_text())
        for name, section in re.findall(r"docs/(\w+\.md), '([^']+)'", text):
            if not any(section in head for head in heads.get(name, [])):
                yield f"{it.relative_to(TOP)}: docs/{name} has no section '{section}'"


def self_test():
    """Whether a bad line of each kind is found."""
    long, many = "word " * 30, "\n".join(["a line of a paragraph"] * 7)
    bad = [long, many, "as of aaeb28ae", "on 2026-11-30"]
    good = [f"    {long}", f"```\n{many}\n```", f"| {long} |"]
    return [f"documents.py finds nothing in: {it[:40]}" for it in bad if not list(faults("page.md", it))] + [
        f"documents.py finds a fault in: {it[:40]}" for it in good if list(faults("page.md", it))
    ]


def misfits():
    """How many documents there are, and what is wrong with them."""
    found = pages()
    wrong = [fault for it in found for fault in faults(str(it.relative_to(TOP)), it.read_text())]
    wrong += wrong_numbers((TOP / "docs/TESTING.md").read_text())
    wrong += missing_sections(found)
    wrong += missing_laws((TOP / "docs/PROOFS.md").read_text())
    return len(found), [*self_test(), *wrong]


def main():
    if sys.argv[1:]:
        wrong = [fault for it in sys.argv[1:] for fault in faults(it, Path(it).read_text())]
        print("\n".join([*wrong, f"{len(sys.argv) - 1} passed, {len(wrong)} failed"]))
        return 1 if wrong else 0
    count, wrong = misfits()
    print("\n".join([*wrong, f"{max(count - len(wrong), 0)} passed, {len(wrong)} failed"]))
    return 1 if wrong else 0


if __name__ == "__main__":
    sys.exit(main())

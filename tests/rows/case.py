"""A case: files by name, and for each action on them the lines that it has to give."""
import re
import textwrap

WIDTH = 48

# How many zeros get a line of their own, where they do.
ZEROS = 10


class Case:
    """`files` is the bytes of the file `object`, or a dict from names of files to bytes. `gives` is a dict from an
    action with its words to what it gives, as a text of lines; the indent of the first line is taken off."""

    def __init__(self, name, files, gives):
        self.name = name
        self.files = files if isinstance(files, dict) else {"object": files}
        self.gives = gives


def plain_lines(data):
    """The lines of bytes. Lines that follow each other and are the same are written once."""
    digits = [data[at : at + WIDTH].hex() for at in range(0, len(data), WIDTH)]
    at = 0
    while at < len(digits):
        times = 1
        while at + times < len(digits) and digits[at + times] == digits[at]:
            times += 1
        yield f"hex {digits[at]}" if times == 1 else f"times {times} {digits[at]}"
        at += times


def short_lines(data):
    """The same, where many zeros have a line of their own."""
    at = 0
    for zeros in re.finditer(rb"\0{%d,}" % ZEROS, data):
        yield from plain_lines(data[at : zeros.start()])
        yield f"times {zeros.end() - zeros.start()} 00"
        at = zeros.end()
    yield from plain_lines(data[at:])


def rising(data, at):
    """How many rows of 24 bytes from a place on are the same but for the number of eight bytes behind the first eight,
    and by how much that grows from row to row: symbols of functions that lie in a row."""
    rows = 1
    step = None
    while True:
        here, there = (data[at + 24 * row : at + 24 * row + 24] for row in (rows - 1, rows))
        if len(there) < 24 or here[:8] != there[:8] or here[16:] != there[16:]:
            return rows, step
        growth = int.from_bytes(there[8:16], "little") - int.from_bytes(here[8:16], "little")
        if growth < 1 or step not in (None, growth):
            return rows, step
        rows, step = rows + 1, growth


def file_lines(name, data):
    """The lines of a file."""
    yield f"file {name}"
    start = at = 0
    while at < len(data):
        rows, step = rising(data, at)
        if rows < 8:
            at += 8
            continue
        yield from plain_lines(data[start:at])
        yield f"rising {rows} 8 {step} {data[at:at + 24].hex()}"
        start = at = at + 24 * rows
    yield from plain_lines(data[start:])


def outcome_lines(text):
    text = textwrap.dedent(text).strip("\n")
    return text.split("\n") if text else []


def case_lines(case):
    """The case as the programs read it."""
    yield f"case {case.name}"
    for name, data in case.files.items():
        yield from file_lines(name, data)
    for action in case.gives:
        yield f"do {action}"


def short_case_lines(case):
    """The same, for many small files that are mostly zeros."""
    yield f"case {case.name}"
    for name, data in case.files.items():
        yield f"file {name}"
        yield from short_lines(data)
    for action in case.gives:
        yield f"do {action}"


def expected_lines(case):
    """What the programs have to print of the case."""
    yield case.name
    for action, text in case.gives.items():
        yield f" {action}"
        for line in outcome_lines(text):
            yield f"  {line}"


def write_lines(path, cases, lines_of):
    with open(path, "w", encoding="utf-8", newline="\n") as out:
        for case in cases:
            out.writelines(line + "\n" for line in lines_of(case))


def write_cases(folder, cases, **others):
    """Writes the cases of a program beside it, and what it has to print of them. Others, by the name of a file of their
    own, come before them, and short."""
    every = [case for held in others.values() for case in held] + cases
    names = set()
    for case in every:
        assert case.name not in names, f"two cases with the name {case.name}"
        names.add(case.name)
    for name, held in others.items():
        write_lines(folder / f"data/{name}.txt", held, short_case_lines)
    write_lines(folder / "data/cases.txt", cases, case_lines)
    write_lines(folder / "stdout", every, expected_lines)
    (folder / "args").write_text("".join(f"{name}.txt\n" for name in [*others, "cases"]))

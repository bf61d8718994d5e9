#!/usr/bin/env python3
"""Whether each piece of code of docs/LIBRARY.md stands in the sources of crates/example_library, line by line, each answer
in its proofs, and each piece of output in what it has to print; and whether each paragraph of README.md's code of crates/example_prepare stands
there. Ends with 'N passed, M failed', and with status 1 where one failed.
usage: library_page.py
"""
import re
import sys
from pathlib import Path

TOP = Path(__file__).parents[1]
PAGE = TOP / "docs/LIBRARY.md"
CRATE = TOP / "crates/example_library"
README = TOP / "README.md"
PROGRAM = TOP / "crates/example_prepare/src/main.rt"


def blocks(kind):
    """The fenced blocks of a kind, each as its lines."""
    return [block.split("\n")[:-1] for block in re.findall(rf"^```{kind}\n(.*?)^```$", PAGE.read_text(), re.DOTALL | re.MULTILINE)]


def paragraphs():
    """The paragraphs of README.md's indented code behind the words that name the program's crate, each as its lines."""
    code = re.search(r"`crates/example_prepare`.*\n((?:\n|    .*\n)+)", README.read_text())
    return [re.sub(r"^    ", "", part, flags=re.MULTILINE).split("\n") for part in code.group(1).strip("\n").split("\n\n")] if code else []


def stands(block, text):
    return "\n" + "\n".join(block) + "\n" in "\n" + text


def misfits():
    """How many pieces there are, and the first line of each that stands nowhere."""
    sources = [file.read_text() for file in sorted(CRATE.glob("src/*.rt"))]
    page, readme = "docs/LIBRARY.md: not in crates/example_library", "README.md: not in crates/example_prepare"
    held = [(page, block, sources) for block in blocks("rust")]
    held += [(page, block, [file.read_text() for file in sorted(CRATE.glob("proofs/**/*.antt"))]) for block in blocks("antt")]
    held += [(page, block, [(CRATE / "stdout").read_text()]) for block in blocks("text")]
    held += [(readme, block, [PROGRAM.read_text()]) for block in paragraphs()]
    failures = [f"{where}: {block[0].strip()}" for where, block, texts in held if not any(stands(block, text) for text in texts)]
    if not paragraphs():
        failures.append("README.md: no code of crates/example_prepare")
    return len(held), failures


if __name__ == "__main__":
    count, failures = misfits()
    print("\n".join([*failures, f"{max(count - len(failures), 0)} passed, {len(failures)} failed"]))
    sys.exit(1 if failures or not count else 0)

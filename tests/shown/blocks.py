"""The code blocks of a page: those between fences, and the indented ones."""
import re
from dataclasses import dataclass
from itertools import takewhile
from pathlib import Path

TOP = Path(__file__).parents[2]


@dataclass(frozen=True)
class Block:
    """A code block: its page, the number of its first line, the language of its fence (an indented block has none), the
    last line of text above it, and its own lines without their indentation."""

    page: str
    number: int
    language: str
    above: str
    lines: tuple

    @property
    def name(self):
        return f"{self.page}:{self.number}"

    def begins(self, page, text):
        """Returns whether the block is on a page and its first line begins with a text."""
        return self.page == page and self.lines[0].startswith(text)


def indented(lines):
    """Returns the indented block that lines begin with, without the empty lines at its end."""
    held = list(takewhile(lambda line: line.startswith("    ") or not line.strip(), lines))
    while not held[-1].strip():
        held.pop()
    return held


def blocks_of(page):
    """Returns the code blocks of a page in their order. An indented block begins behind an empty line."""
    lines = (TOP / page).read_text().split("\n")
    found, above, at = [], "", 0
    while at < len(lines):
        fence = re.fullmatch(r"```(\w*)", lines[at])
        if fence:
            end = lines.index("```", at + 1)
            found.append(Block(page, at + 2, fence[1], above, tuple(lines[at + 1 : end])))
            at = end + 1
        elif lines[at].startswith("    ") and not lines[at - 1].strip():
            held = indented(lines[at:])
            found.append(Block(page, at + 1, "", above, tuple(line[4:] for line in held)))
            at += len(held)
        else:
            above = lines[at] or above
            at += 1
    return found

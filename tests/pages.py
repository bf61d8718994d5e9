#!/usr/bin/env python3
"""Runs the code blocks of README.md, docs/LIBRARY.md, docs/C.md, docs/CLI.md and compares their output with the pages.

- A block that begins with `$ ` has commands. They run at the repository's top, or in the folder that the line above it
  names.
- The tables below name the blocks of other kinds, and what tests them.
- A block that nothing tests is a failure, and so is an entry of a table without its block.

Ends with 'N passed, M failed', and with status 1 where one failed.

usage: pages.py EBPF LINK INSPECT      EBPF, LINK, INSPECT: the built programs `ebpf`, `ebpf-link` and `ebpf-inspect`
       pages.py --list                 prints where each block is, its first line and what tests it; runs nothing
"""
import sys
import tempfile
from collections import Counter
from pathlib import Path

from checked.arena import object_of_arena
from checked.embedded import executable
from checked.listing import FINE
from checked.objects import Code, function, object_of
from checked.ops import OPS
from rows.elf import EXIT
from shown import commands, forms
from shown.blocks import blocks_of

PAGES = ["README.md", "docs/LIBRARY.md", "docs/C.md", "docs/CLI.md"]

# Blocks that are not run here: the page, the beginning of the first line, and what tests it instead and why.
OTHERS = [
    ("README.md", "/// Returns the object of a file", "tests/library_page.py: code of crates/example_prepare"),
    ("docs/C.md", "tests/c_interface.sh --build", "tests/c_interface.sh: builds with the library for C"),
    ("docs/C.md", "$ clang -target bpf", "tests/c_interface.sh: loads into the running kernel, where that is allowed"),
    ("docs/C.md", "export EBPF_LIB_DIR=$PWD/examples/out", "tests/c_interface.sh: builds with cargo, where it is installed"),
]

# The same by the page and the language of a fence.
LANGUAGES = {
    ("README.md", "c"): "tests/c_interface.sh: C on the library",
    ("docs/LIBRARY.md", "rust"): "tests/library_page.py: code of crates/example_library",
    ("docs/LIBRARY.md", "antt"): "tests/library_page.py: an answer of crates/example_library",
    ("docs/LIBRARY.md", "text"): "tests/library_page.py: what crates/example_library prints",
    ("docs/C.md", "c"): "tests/c_interface.sh: C on the library",
    ("docs/C.md", "python"): "tests/c_interface.sh: Python on the library",
}

# Objects that together have each kind of finding that `ebpf check` prints.
CHECKED = ["examples/check/memdrop.o", "targets.o"]

# Objects that together have each part that `ebpf list` lists.
COUNTER = "tests/drivers/test_rows/data/counter.o"
LISTED = [COUNTER, "tests/objects/kernel_parts_19.o", "unreached.o", "arena.o", "ops.o"]

# An object that needs an id of a kernel's type, and the kernels of an example.
CUT = "btf examples/check/memdrop.o --btf examples/check/btf --output least --allow-ids"

# Blocks that show a form: the page, the beginning of the first line, and the test.
FORMS = [
    ("README.md", "(cd crates/ebpf && rt try", forms.trial),
    ("docs/LIBRARY.md", "tools/vendor.sh DEST", forms.usage_in("tools/vendor.sh")),
    ("docs/C.md", "loader [--config FILE]", forms.usage_in("examples/loader/main.c")),
    ("docs/CLI.md", "ebpf btf | check", forms.synopsis),
    ("docs/CLI.md", '{"version"', forms.refusal),
    ("docs/CLI.md", "byte_off byte_sz", forms.kinds),
    ("docs/CLI.md", "kernels [name output", forms.json_of(CUT, first="files")),
    ("docs/CLI.md", "status", forms.json_of(*(f"check {file} examples/check/btf" for file in CHECKED))),
    ("docs/CLI.md", "byte_order license", forms.json_of(*(f"list {file}" for file in LISTED))),
    ("docs/CLI.md", "check:", forms.job),
    ("docs/CLI.md", "limits", forms.json_of(f"inspect {COUNTER}")),
    ("docs/CLI.md", "ebpf-link FILE", forms.plain_usage),
]


def files():
    """Returns the files that commands name and the repository lacks: an executable with two objects, an object with a
    function that no program reaches, one with an arena, one with maps of struct_ops, and one whose program has a target
    that no kernel has."""
    return {
        "tool": executable(object_of([FINE]), object_of([FINE, FINE])),
        "unreached.o": object_of([FINE, function("f", EXIT)]),
        "arena.o": object_of_arena(),
        "ops.o": OPS,
        "targets.o": object_of([Code("fentry/no_such_function", "p", [EXIT])]),
    }


def test_of(block):
    """Returns what tests a block, in words, and the test if this script has it. Without a test there are no words."""
    for page, text, words in OTHERS:
        if block.begins(page, text):
            return words, None
    for page, text, test in FORMS:
        if block.begins(page, text):
            return "compared here", test
    if (block.page, block.language) in LANGUAGES:
        return LANGUAGES[block.page, block.language], None
    if block.lines[0].startswith("$ "):
        return "run here", commands.faults
    return "", None


def table_faults(blocks):
    """Yields the entries of tables that have no block or several, and the blocks that nothing tests."""
    for page, text, *_ in [*OTHERS, *FORMS]:
        count = sum(block.begins(page, text) for block in blocks)
        if count != 1:
            yield f"{page}: {count} blocks begin with {text}"
    for page, language in LANGUAGES:
        if not any((block.page, block.language) == (page, language) for block in blocks):
            yield f"{page}: no block of {language}"
    for block in blocks:
        if not test_of(block)[0]:
            yield f"{block.name}: nothing tests the block that begins with {block.lines[0]}"


def faults_of(block, room):
    """Returns what is wrong with a block, or None where another test has it."""
    test = test_of(block)[1]
    if test is None:
        return None
    try:
        return [f"{block.name}: {fault}" for fault in test(block, room)]
    except Exception as error:
        return [f"{block.name}: {error!r}"]


def run(blocks, programs):
    """Returns how many blocks are as they are shown, and the faults of the others."""
    with tempfile.TemporaryDirectory() as folder:
        room = commands.Room(Path(folder), programs, files())
        found = [faults for block in blocks if (faults := faults_of(block, room)) is not None]
    return sum(not faults for faults in found), [fault for faults in found for fault in faults]


def put_list(blocks):
    """Prints each block with what tests it, and the number of blocks by page and test."""
    for block in blocks:
        print(f"{block.name}: {block.lines[0].strip()}\n    {test_of(block)[0] or 'nothing'}")
    counts = Counter((block.page, test_of(block)[0] or "nothing") for block in blocks)
    for (page, test), count in counts.items():
        print(f"{count:2} of {page}: {test}")


def main():
    blocks = [block for page in PAGES for block in blocks_of(page)]
    failures = list(table_faults(blocks))
    if sys.argv[1:] == ["--list"]:
        put_list(blocks)
        for failure in failures:
            print(failure)
        return 1 if failures else 0
    if len(sys.argv) != 4:
        sys.exit(__doc__[__doc__.index("usage:") :].rstrip())
    programs = [Path(word).resolve() for word in sys.argv[1:]]
    passed, found = run(blocks, dict(zip(["ebpf", "ebpf-link", "ebpf-inspect"], programs)))
    failures += found
    print("\n".join([*failures, f"{passed} passed, {len(failures)} failed"]))
    return 1 if failures or not passed else 0


if __name__ == "__main__":
    sys.exit(main())

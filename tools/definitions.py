#!/usr/bin/env python3
"""Writes docs/DEFINITIONS.md: the files of definitions by crate, each with the sentence at its head and with the definitions
that contracts and other crates name. Compares the page with what it would write, and ends with 'N passed, M failed'.

usage: definitions.py [--write]      --write: writes the page
"""
import re
import sys
from functools import cache
from itertools import zip_longest

from api_page import CRATES, TOP, Library

PAGE = TOP / "docs/DEFINITIONS.md"
# How many names a row has at most: the page has 29 KB without names, 32 KB with two, and 38 KB with eight.
MOST_NAMES = 2

HEAD = """# Definitions

The files of the definitions that contracts name, by crate. `tools/definitions.py` writes this page from these files.

- *Defines* is the first sentence of the file, with the public text that it follows. Definitions further down may follow
  other public texts, which their comments name.
- *Names* has the first definitions that contracts of public functions name, then those that other crates name, and the
  number of the rest. `grep -rnE 'pub (data |record )?NAME' crates/*/specs` finds any definition.
- Files whose definitions only private contracts and proofs name are left out. `Lib.antt` or their first line says so.
- `btf.rst` and `llvm_reloc.rst` are in the kernel's `Documentation/bpf`, `libbpf.c` and `relo_core.c` in its
  `tools/lib/bpf`, `bpf.h` in its `include/uapi/linux`.
"""

# What is left out of a sentence, since the head of the page says it.
FOLDERS = re.compile(r"(?:the kernel's |in )?(?:Documentation/bpf|tools/lib/bpf|include/uapi/linux)/")
# What names a public text.
SOURCE = re.compile(r"RFC \d|gABI|\.rst\b|libbpf|relo_core|\bbpf\.h\b")
# What is between two sentences: a space behind a full stop that is in no parentheses.
BETWEEN = re.compile(r"(?<=\.)\s+(?![^()]*\))")
# The comment over the files of a Lib.antt that are left out, or at the head of such a file.
PRIVATE = re.compile(r"-- What (?:only private contracts|private contracts|contracts of private functions)\b")

# A public definition; one of a module has a keyword, and what else is indented is a field.
DEFINITION = re.compile(r"^(?: *(?:abbrev|unfoldable) pub (?:data |record )?| *pub (?:data|record) |pub )(?!use\b|mod\b)(\w+)")
IMPORT = re.compile(r"^ *(?:\w+ )*use Rattle\.(\w+)\.specs\.([\w.]+)\.\{([^}]*)\}", re.MULTILINE)


def crates():
    """The crates in the order of crates.txt, each with the line of comment above it."""
    found, comment = {}, ""
    for line in (TOP / "crates.txt").read_text().split("\n"):
        if ":" in line and not line.startswith("#"):
            found[re.split("[ :]", line)[0]] = comment
        comment = line.removeprefix("# ") if line.startswith("# ") else ""
    return found


@cache
def lib_of(crate):
    """What is in the Lib.antt of a crate; nothing where it has no definitions."""
    file = CRATES / crate / "specs/Lib.antt"
    return file.read_text() if file.is_file() else ""


def files_of(crate):
    """The files of a crate's definitions in the order of its Lib.antt, without those that are left out."""
    shown = PRIVATE.split(lib_of(crate))[0]
    files = [CRATES / crate / "specs" / f"{name}.antt" for name in re.findall(r"(?m)^pub mod (\w+)", shown)]
    return [file for file in files if not PRIVATE.match(file.read_text())]


def sentence_of(file):
    """The first sentence at the head of a file, and those of its paragraph that name a public text; empty without a head."""
    paragraph = re.match(r"(?:--.*\n)*", file.read_text())[0].split("\n--\n")[0]
    first, *others = BETWEEN.split(" ".join(line.lstrip("- ") for line in paragraph.split("\n")).strip())
    sentences = " ".join([first, *(it for it in others if SOURCE.search(it))])
    return FOLDERS.sub("", sentences).rstrip(".:").replace("|", "\\|")


@cache
def imports_of(file):
    """The definitions that a file brings in, by the names that they have there: the file of each, and its name."""
    found = {}
    for crate, module, names in IMPORT.findall(file.read_text()):
        passed_on = re.search(rf"(?m)^pub use Rattle\.(\w+)\.specs\.{re.escape(module)}$", lib_of(crate))
        home = CRATES / (passed_on[1] if passed_on else crate) / "specs" / f"{module.replace('.', '/')}.antt"
        for name, _, other in (it.strip().partition(" as ") for it in names.split(",")):
            found[other or name] = home, name
    return found


def public_items(library, crate):
    """What users of a crate can call: what its modules have, its laws, and the functions for C."""
    home = library.crates[crate]
    tops = [item for _, _, items in library.modules(crate) for item in items]
    laws = home.file_of(["laws"])
    own = [item for item in home.items if item.file == laws or 'extern "C"' in item.head[0]]
    return [*tops, *(method for item in tops for method in item.methods), *own]


def named_by_contracts():
    """The definitions that contracts of public functions name, each by its file and its name."""
    library, found = Library(), set()
    for item in (it for crate in library.crates for it in public_items(library, crate)):
        given = imports_of(item.file)
        found |= {given[word] for word in re.findall(r"\w+", " ".join(item.clauses)) if word in given}
    return found


def named_by_crates():
    """The definitions that code and definitions of other crates name, each by its file and its name."""
    found = set()
    for file in [*CRATES.glob("*/src/**/*.rt"), *CRATES.glob("*/specs/**/*.antt")]:
        own = CRATES / file.relative_to(CRATES).parts[0]
        found |= {(home, name) for home, name in imports_of(file).values() if not home.is_relative_to(own)}
    return found


def row_of(file, groups):
    """The row of a file: a link to it, its sentence, and the first names of those that the groups have, group by group."""
    defined = [found[1] for found in map(DEFINITION.match, file.read_text().split("\n")) if found]
    names = list(dict.fromkeys(name for group in groups for name in defined if (file, name) in group))
    shown = ", ".join(f"`{name}`" for name in names[:MOST_NAMES])
    rest = f" + {len(names) - MOST_NAMES}" if len(names) > MOST_NAMES else ""
    return f"| [{file.stem}](../{file.relative_to(TOP)}) | {sentence_of(file)} | {shown}{rest} |"


def page():
    """The page, which has a crate only where it has rows."""
    lines, groups = [HEAD], (named_by_contracts(), named_by_crates())
    for crate, comment in crates().items():
        rows = [row_of(file, groups) for file in files_of(crate)]
        if rows:
            lines += [f"## `{crate}`", "", f"{comment}.", "", "| File | Defines | Names |", "|---|---|---|", *rows, ""]
    return "\n".join(lines).rstrip("\n") + "\n"


def misfits():
    """The number of rows of the page, and the first line that is another one than the files give."""
    wanted, given = page(), PAGE.read_text() if PAGE.exists() else ""
    pairs = zip_longest(wanted.split("\n"), given.split("\n"))
    wrong = [number for number, (want, gave) in enumerate(pairs, 1) if want != gave][:1]
    count = len(re.findall(r"(?m)^\| \[", wanted))
    return count, [f"docs/DEFINITIONS.md:{it}: not that of the specs files: tools/definitions.py --write" for it in wrong]


def main():
    if sys.argv[1:] == ["--write"]:
        PAGE.write_text(page())
    elif sys.argv[1:]:
        sys.exit(__doc__)
    count, failures = misfits()
    print("\n".join([*failures, f"{count - len(failures)} passed, {len(failures)} failed"]))
    return 1 if failures else 0


if __name__ == "__main__":
    sys.exit(main())

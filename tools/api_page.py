#!/usr/bin/env python3
"""Writes docs/API.md: the public types and functions of the library, by the modules in which users find them, each with its
signature, its docstring and its clauses. Compares the page with what it would write, and ends with 'N passed, M failed'.

usage: api_page.py [--write]      --write: writes the page
"""
import re
import sys
from dataclasses import dataclass, field
from pathlib import Path

TOP = Path(__file__).parents[1]
CRATES = TOP / "crates"
PAGE = TOP / "docs/API.md"

# The crates whose modules users name, in the order of the page.
SHOWN = ["ebpf_object", "ebpf_limits", "ebpf_chosen_programs", "ebpf_kconfig", "ebpf_btf_maps", "ebpf_exceptions", "ebpf_initial_slots", "ebpf_struct_ops", "ebpf_btf_load", "ebpf_load_info", "ebpf_least_types", "ebpf_outcomes", "ebpf_verdict", "ebpf_inspect"]

HEAD = """# The API of the library

Every public type and function, with its signature and docstring, by the module in which it is found. `tools/api_page.py`
writes this page from the sources. *Contract* has the clauses that the prover checks; the definitions that they name are
linked to their files.
"""

ITEM = re.compile(r'^( *)pub (?:const |unsafe |extern "C" )*(fn|struct|enum|trait|type|const|static) (\w+)')
IMPL = re.compile(r"^impl\b(.*)\{$")
USE = re.compile(r"^pub use ([^;]+);", re.MULTILINE)


@dataclass
class Item:
    """A public item: its kind and name, the type whose method it is, its docstring, its signature and its clauses."""

    kind: str
    name: str
    owner: str
    doc: list
    head: list
    clauses: list
    file: Path
    methods: list = field(default_factory=list)


def bare_owner(text):
    """The name of the type that an `impl` is for; empty for the `impl` of a trait."""
    text = re.sub(r"^<[^{]*?>(?= )", "", text).strip()
    if " for " in text:
        return ""
    return re.match(r"\s*(\w+)", text)[1] if re.match(r"\s*(\w+)", text) else ""


def doc_before(lines, at):
    """The lines of the docstring above a line and its attributes."""
    while at and lines[at - 1].strip().startswith("#["):
        at -= 1
    doc = []
    while at and lines[at - 1].strip().startswith("///"):
        at -= 1
        doc.insert(0, lines[at].strip()[3:].removeprefix(" "))
    return doc


def head_and_clauses(lines, at, indent):
    """The signature of a function from its first line on, and its clauses."""
    head, clauses = [], []
    for line in lines[at:]:
        text = line[len(indent) :]
        if text.startswith("{") or text.rstrip() == "{":
            break
        if re.match(r"\s+(requires|ensures)\b", text) or clauses:
            clauses.append(text.strip())
        else:
            head.append(text.rstrip().removesuffix("{").rstrip())
        if not clauses and (text.rstrip().endswith("{") or text.rstrip().endswith(";")):
            break
    return head, clauses


def body_of(lines, at, indent):
    """The lines of a type: its public fields or its variants, with their docstrings."""
    found = []
    for line in lines[at:]:
        text = line[len(indent) :].rstrip()
        found.append(text)
        if text in ("}", ")") or text.endswith((";", "{}")) or (len(found) == 1 and text.endswith("}")):
            break
    if found[0].startswith("pub struct"):
        inner = [it for it in found[1:-1] if re.match(r"\s+(pub |///|#\[)", it) and "ghost" not in it]
        hidden = len([it for it in found[1:-1] if re.match(r"    \w+:", it)]) > 0
        found = [found[0], *[it for it in inner if not it.strip().startswith("#[")], *(["    // private fields"] if hidden else []), found[-1]]
    return found


def items_of(file):
    """The public items of a source file, with the public methods of its `impl` blocks as items of their owner."""
    lines, found, owner = file.read_text().split("\n"), [], None
    for at, line in enumerate(lines):
        impl = IMPL.match(line)
        if impl:
            owner = bare_owner(impl[1])
        elif line == "}":
            owner = None
        item = ITEM.match(line)
        if not item or (item[1] and not owner):
            continue
        indent, kind, name = item.groups()
        if kind == "fn":
            head, clauses = head_and_clauses(lines, at, indent)
        elif kind in ("struct", "enum", "trait"):
            head, clauses = body_of(lines, at, indent), []
        else:
            head, clauses = [line[len(indent) :].rstrip()], []
        found.append(Item(kind, name, owner or "" if indent else "", doc_before(lines, at), head, clauses, file))
    return found


class Crate:
    """The public items of a crate, and the names that its modules pass on."""

    def __init__(self, name):
        self.name, self.source = name, CRATES / name / "src"
        self.items = [item for file in sorted(self.source.rglob("*.rt")) for item in items_of(file)]

    def file_of(self, module):
        path = self.source.joinpath(*module)
        return next((it for it in (path.with_suffix(".rt"), path / "mod.rt") if it.is_file()), self.source / "lib.rt")

    def named(self, name):
        """The item of a name at the top of a module of this crate, with the methods of a type."""
        for item in self.items:
            if item.name == name and not item.owner:
                item.methods = [it for it in self.items if it.owner == name]
                return item
        return None


def definitions_of(file):
    """The files of the definitions that a source file brings in for its clauses, by name."""
    found = {}
    for crate, path, names in re.findall(r"(?m)^ghost use Rattle\.(ebpf_\w+)\.specs\.([\w.]+)\.\{([^}]*)\}", file.read_text()):
        spec = CRATES / crate / "specs" / f"{path.replace('.', '/')}.antt"
        if spec.is_file():
            found |= {name.strip().split(" as ")[-1]: spec for name in names.split(",")}
    return found


def uses_of(text):
    """The names that a module passes on, each with the path that it comes from."""
    found = []
    for path in USE.findall(text):
        base, brace, names = re.sub(r"\s+", " ", path).partition("{")
        if brace:
            found += [(it.strip(), base.strip().rstrip(":")) for it in names.rstrip("} ").split(",") if it.strip()]
        else:
            base, _, name = base.strip().rpartition("::")
            found.append((name, base))
    return found


class Library:
    """The crates of the repository, by name."""

    def __init__(self):
        names = [folder.name for folder in sorted(CRATES.iterdir()) if (folder / "src/lib.rt").is_file()]
        self.crates = {name: Crate(name) for name in names}
    def found(self, name, path, crate):
        """The item of a name that a path of a crate leads to, through what modules pass on."""
        first = path.split("::")[0]
        home = self.crates.get(first, self.crates[crate])
        item = home.named(name)
        if item:
            return item
        for file in home.source.rglob("*.rt"):
            for other, base in uses_of(file.read_text()):
                if other == name and base.split("::")[0] in self.crates and base.split("::")[0] != home.name:
                    return self.found(name, base, home.name)
        return None

    def modules(self, crate):
        """The public modules of a crate, each with its heading comment and its items in order."""
        home = self.crates[crate]
        yield crate, *self.contents(home, home.source / "lib.rt", crate)
        for name in re.findall(r"(?m)^pub mod (\w+);", (home.source / "lib.rt").read_text()):
            if name != "laws":
                yield f"{crate}::{name}", *self.contents(home, home.file_of([name]), crate)
        for name, base in uses_of((home.source / "lib.rt").read_text()):
            if base in self.crates and not self.found(name, base, crate):
                other = self.crates[base]
                yield f"{crate}::{name}", *self.contents(other, other.file_of([name]), base)

    def contents(self, home, file, crate):
        """What a module's file says at its head, and its items: its own, and those that it passes on."""
        text = file.read_text()
        head = [line[3:].strip() for line in text.split("\n") if line.startswith("//!")]
        own = [home.named(item.name) for item in home.items if item.file == file and not item.owner]
        passed = [self.found(name, path, crate) for name, path in uses_of(text)]
        unique = {(it.file, it.name): it for it in [*own, *passed] if it}
        return " ".join(head), list(unique.values())


def wrapped(head, links):
    """Yields the lines of a list of links behind its head, of up to 120 columns where a link is no longer."""
    line = head
    for number, link in enumerate(links, 1):
        part = link + ("." if number == len(links) else ",")
        if len(line) + 1 + len(part) > 120:
            yield line
            line = part
        else:
            line += " " + part
    yield line


def shown_item(item, level):
    """The lines of an item, and of the methods of a type."""
    title = f"{item.owner}::{item.name}" if item.owner else item.name
    yield f"{'#' * level} {item.kind} `{title}`"
    yield ""
    if item.doc:
        yield from (f"**{line[2:]}**" if line.startswith("# ") else line for line in item.doc)
        yield ""
    yield "```rust"
    yield from item.head
    yield "```"
    yield ""
    if item.clauses:
        text = " ".join(item.clauses)
        files = definitions_of(item.file)
        names = dict.fromkeys(word for word in re.findall(r"[\w-]+", text) if word in files)
        links = [f"[`{it}`](../{files[it].relative_to(TOP)})" for it in names]
        yield "<details><summary>Contract</summary>"
        yield ""
        yield "```text"
        yield from item.clauses
        yield "```"
        yield ""
        if links:
            yield from wrapped("Definitions:", links)
            yield ""
        yield "</details>"
        yield ""
    for method in item.methods:
        yield from shown_item(method, level + 1)


def page():
    library = Library()
    lines, shown = [HEAD], set()
    for crate in SHOWN:
        for path, head, items in library.modules(crate):
            lines += [f"## `{path}`", "", head, ""]
            for item in items:
                if (item.file, item.name) in shown:
                    lines += [f"- `{item.name}`: above", ""]
                else:
                    shown.add((item.file, item.name))
                    lines += shown_item(item, 3)
    return "\n".join(lines).rstrip("\n") + "\n"


def misfits():
    """The number of items of the page, and where the page is another one than the sources give."""
    wanted = page()
    count = len(re.findall(r"(?m)^###+ \w+ `", wanted))
    given = PAGE.read_text() if PAGE.exists() else ""
    return count, [] if given == wanted else ["docs/API.md is not that of the sources: tools/api_page.py --write"]


def main():
    if sys.argv[1:] == ["--write"]:
        PAGE.write_text(page())
    elif sys.argv[1:]:
        sys.exit(__doc__)
    count, failures = misfits()
    print("\n".join([*failures, f"{count - len(failures)} passed, {len(failures)} failed"]))
    return 1 if failures else 0


if __name__ == "__main__":
    sys.exit(main())

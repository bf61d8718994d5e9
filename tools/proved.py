#!/usr/bin/env python3
"""Prints the libraries of a repository that are proved and built, each with the stamp by which `rt` knows its sources.

`rt check` takes a library below a crate, and proves nothing of it again, where crates/NAME/out/rlib/stamp is the sum of
the library's sources, its line of crates.txt, the libraries below it and the kit. `rt lib` writes this file. `rt ci`
writes none, and keeps a record of each proof beside the kit. A library is printed in these cases alone:

- its stamp is the sum of its sources as they are now;
- it has no stamp, and the record of `rt ci` has these very sources, this very library and the libraries below it;
- it has a stamp and there is no `rt` to compute the sum: whoever takes the library compares the sum itself.

All libraries below it have to be printed too, since a library fits only those that it was built over. Standard error
says of each other crate why it is left out.

usage: proved.py ROOT CRATE ..           prints a line 'CRATE STAMP' for each; the crates below a crate come before it
       proved.py --taken ROOT CRATE ..   says how many of the libraries `rt check` takes at ROOT
"""
import hashlib
import importlib.machinery
import importlib.util
import json
import shutil
import subprocess
import sys
from pathlib import Path


def load_rt():
    """Returns the program `rt` as a module, or None where there is none whose parts have these names."""
    if not shutil.which("rt"):
        return None
    page = subprocess.run(["rt", "doc"], capture_output=True, text=True).stdout.strip()
    program = Path(page).parent / "bin/rt"
    if not page or not program.is_file():
        return None
    loader = importlib.machinery.SourceFileLoader("rt_program", str(program))
    made = importlib.util.module_from_spec(importlib.util.spec_from_loader("rt_program", loader))
    loader.exec_module(made)
    return made if all(hasattr(made, it) for it in ("Crate", "Kept", "STORE", "handles_of")) else None


class Libraries:
    """The libraries of a repository, as `rt` sees them."""

    def __init__(self, root, rt):
        self.root, self.rt, self.known, self.kept = root, rt, {}, None
        self.lines = self.listed()

    def listed(self):
        """Returns the words behind each crate's name in crates.txt."""
        lines = (line.partition("#")[0] for line in (self.root / "crates.txt").read_text().splitlines())
        rows = (line.partition(":") for line in lines if line.strip())
        return {head.split()[0]: named.split() for head, _, named in rows}

    def below(self, name):
        return [it for it in self.lines[name] if it in self.lines]

    def folder(self, name):
        return self.root / "crates" / name / "out/rlib"

    def stamp(self, name):
        file = self.folder(name) / "stamp"
        return file.read_text() if file.is_file() else None

    def crate(self, name):
        """Returns the crate as the class of `rt`, one for each name."""
        folder = str(self.root / "crates" / name)
        if folder not in self.known:
            self.known[folder] = self.rt.Crate(folder, str(self.root), self.known)
        return self.known[folder]

    def records(self):
        """Returns what `rt ci` keeps of its proofs on this machine, or None."""
        if self.kept is None and Path(self.rt.STORE).is_dir():
            self.rt.Crate.allowed = self.rt.handles_of(str(self.root))
            self.kept = self.rt.Kept([])
        return self.kept

    def has_record(self, name):
        """Returns whether `rt ci` proved these sources over the libraries below, and made the library that is here."""
        kept, crate = self.records(), self.crate(name)
        if kept is None or kept.at is None:
            return False
        for it in [*crate.below(), crate]:
            if it.name not in kept.rlibs:
                kept.is_built(it)
        key = kept.key(crate)
        try:
            made = json.loads(Path(kept.place(crate, False, key), "made.json").read_text())
            files = [tuple(it) for it in made["files"]]
        except (OSError, ValueError, KeyError):
            return False
        return made["key"] == key and hashlib.sha256(repr(files).encode()).hexdigest() == kept.rlibs[name]

    def judged(self, name):
        """Returns a library's stamp and why it has none: one of them."""
        if not (self.folder(name) / f"{name}.rlib/format").is_file():
            return None, "not built"
        kept = self.stamp(name)
        if self.rt is None:
            return kept, "no stamp, and no rt to compute it"
        stamp = self.crate(name).stamp()
        if kept is not None:
            return (stamp if kept == stamp else None), "proved of other sources, or over those of other libraries"
        if self.has_record(name):
            return stamp, None
        return None, "rt ci has no record of this proof on this machine"


def print_stamps(libraries, names):
    taken, left_out = set(), {}
    for name in names:
        stamp, why = libraries.judged(name)
        if stamp and all(it in taken for it in libraries.below(name)):
            taken.add(name)
            print(name, stamp)
        else:
            left_out.setdefault("a library below is left out" if stamp else why, []).append(name)
    for why, of in left_out.items():
        print(f"proved.py: {why}: {' '.join(of)}", file=sys.stderr)


def build_of(library):
    """Returns the line of a library that names the build of the prover, or None."""
    file = library / "format"
    lines = file.read_bytes().splitlines() if file.is_file() else []
    return next((it for it in lines if it.startswith(b"rattle-build ")), None)


def tell_taken(libraries, names):
    if libraries.rt is None:
        return
    taken = [it for it in names if libraries.stamp(it) == libraries.crate(it).stamp()]
    print(f"proved.py: rt check takes {len(taken)} of {len(names)} libraries as proved")
    if len(taken) < len(names):
        builds = {build_of(libraries.folder(it) / f"{it}.rlib") for it in names} - {None}
        if builds - {build_of(Path(libraries.rt.KIT) / "rlibs/std.rlib")}:
            print("proved.py: the libraries are of another toolchain than this rt, whose check proves them again")


def main():
    words = sys.argv[1:]
    is_told = words[:1] == ["--taken"]
    root, *names = words[is_told:] or [""]
    if not root or not names:
        sys.exit(__doc__[__doc__.index("usage:") :].rstrip())
    libraries = Libraries(Path(root).resolve(), load_rt())
    return (tell_taken if is_told else print_stamps)(libraries, names)


if __name__ == "__main__":
    main()

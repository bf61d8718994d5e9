"""The checksum of each mutant, and the table of the checksums at which the prover last refused them.

Whether a mutant is refused depends on four things: its own file, the sources of its crate, those of the crates below
it, and the toolchain's logic. Its checksum covers them. While the checksum is the one in the table, the refusal holds.
"""
import fcntl
import hashlib
import os
import subprocess
from contextlib import contextmanager
from dataclasses import astuple, dataclass

TABLE = "tests/mutants.tsv"
HEADER = "crate\tkind\tmutant\tchecksum"
KINDS = ("gate", "more")
PARTS = ("src", "specs", "proofs")
DIGITS = 16


@dataclass(frozen=True, order=True)
class Mutant:
    """A mutant by its names in the table: its crate, its kind (gate or more), and its file's name without `.edit`."""

    crate: str
    kind: str
    name: str

    def __str__(self):
        return f"{self.crate}/{self.kind}-edits/{self.name}"

    def file(self, top):
        """The mutant's file in the repository at `top`."""
        return top / "crates" / f"{self}.edit"


def mutants_of(top, kinds=KINDS):
    """All mutants of these kinds in the repository at `top`, sorted."""
    files = [it for kind in kinds for it in top.glob(f"crates/*/{kind}-edits/*.edit")]
    return sorted(Mutant(it.parents[1].name, it.parent.name.removesuffix("-edits"), it.stem) for it in files)


def logic():
    """The toolchain's logic, as `rt version` prints it. It is the same on all machines, where builds differ."""
    words = subprocess.run(["rt", "version"], capture_output=True, text=True, check=True).stdout.split()
    return words[words.index("logic") + 1]


def digest(parts):
    """A hash of byte strings. Each counts with its length, so that none runs into the next."""
    whole = hashlib.sha256()
    for part in parts:
        whole.update(len(part).to_bytes(8, "big") + part)
    return whole.hexdigest()


def crate_lines(top):
    """The line of each crate in crates.txt, without its comment and further blanks."""
    lines = (" ".join(line.partition("#")[0].split()) for line in (top / "crates.txt").read_text().splitlines())
    return {line.partition(":")[0].split()[0]: line for line in lines if line}


class Checksums:
    """The checksums of a repository's mutants with one logic. A crate's files are read once, when first asked for."""

    def __init__(self, top, logic):
        self.top, self.logic = top, logic
        self.lines = crate_lines(top)
        self.crates = {}

    def of_crate(self, name):
        """The hash of a crate: of its line, its files, and the hashes of the repository's crates that it names."""
        if name not in self.crates:
            line = self.lines[name]
            below = [self.of_crate(it) for it in line.partition(":")[2].split() if it in self.lines]
            self.crates[name] = digest([line.encode(), self.files_of(name).encode(), *map(str.encode, below)])
        return self.crates[name]

    def files_of(self, name):
        """The hash of the names and contents of a crate's files in src/, specs/ and proofs/."""
        folder = self.top / "crates" / name
        files = sorted(it for part in PARTS for it in (folder / part).rglob("*") if it.is_file())
        return digest(part for it in files for part in (it.relative_to(folder).as_posix().encode(), it.read_bytes()))

    def of(self, mutant):
        """The checksum of a mutant, in 16 hexadecimal digits."""
        parts = [self.logic.encode(), self.of_crate(mutant.crate).encode(), mutant.file(self.top).read_bytes()]
        return digest(parts)[:DIGITS]


def row_of(line):
    """The mutant and the checksum of a line of the table, or None where it has not four columns."""
    columns = line.split("\t")
    return (Mutant(*columns[:3]), columns[3]) if len(columns) == 4 else None


def lines_of(top):
    """The lines of the table, its header first. There are none where there is no table."""
    table = top / TABLE
    return table.read_text().splitlines() if table.exists() else []


def refusals(top):
    """The checksum at which each mutant was last refused. A line that is no row is left out."""
    return dict(filter(None, map(row_of, lines_of(top)[1:])))


@contextmanager
def locked(folder):
    """Lets one thread of one process at a time write in a folder."""
    handle = os.open(folder, os.O_RDONLY)
    try:
        fcntl.flock(handle, fcntl.LOCK_EX)
        yield
    finally:
        os.close(handle)


def record(top, tried, refused):
    """Writes the table after mutants were tried: `refused` has the checksum of each that was refused.

    The other tried ones lose their rows, and so does each mutant that no longer exists. The table is replaced by a
    rename, so that it is never half written."""
    table = top / TABLE
    beside = table.with_name(f"{table.name}.new")
    with locked(table.parent):
        kept = {it: checksum for it, checksum in refusals(top).items() if it not in tried and it.file(top).is_file()}
        rows = ("\t".join([*astuple(it), checksum]) for it, checksum in sorted((kept | refused).items()))
        beside.write_text("".join(f"{line}\n" for line in [HEADER, *rows]))
        os.replace(beside, table)


def table_faults(top):
    """What is wrong with the table: another header, a row of no mutant, another order."""
    lines = lines_of(top)
    rows = lines[1:]
    faults = [] if lines[:1] == [HEADER] else [f"{TABLE}: its first line is not '{HEADER}'"]
    for line in rows:
        row = row_of(line)
        if row is None or not row[0].file(top).is_file():
            faults.append(f"{TABLE}: delete this row, which names no mutant of crates/: {line}")
    if rows != sorted(set(rows)):
        faults.append(f"{TABLE}: its rows are not sorted, or one is there twice")
    return faults

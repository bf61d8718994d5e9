"""The crates of the repository with the test drivers and the drivers of the benchmarks, in a temporary repository.

A driver is a folder of tests/drivers or bench/drivers with src/, data/, args and stdout as a crate has them, listed in the
drivers.txt beside it. Its sources end in .rs there, and in .rt in the temporary repository.
"""
import shutil
from dataclasses import dataclass
from pathlib import Path

TOP = Path(__file__).parents[1]
# The lists of crates, each with the folder of its crates.
LISTS = (
    (TOP / "crates.txt", TOP / "crates"),
    (TOP / "tests/drivers/drivers.txt", TOP / "tests/drivers"),
    (TOP / "bench/drivers/drivers.txt", TOP / "bench/drivers"),
)
# The folders that a crate is built from; c/ holds C code, which only a driver may have.
PARTS = ("src", "specs", "proofs", "c")


@dataclass(frozen=True)
class Crate:
    """A crate or a driver: its line of the list, and its folder."""

    line: str
    folder: Path

    @property
    def name(self):
        return self.line.split(":")[0].split()[0]

    @property
    def libraries(self):
        """The names behind the colon: crates, drivers and libraries of the toolchain."""
        return self.line.partition(":")[2].split()

    @property
    def is_driver(self):
        return self.folder.parent != TOP / "crates"

    def has_tests(self):
        return any("#[test]" in file.read_text() for file in self.folder.glob("src/**/*.r[st]"))


def listed():
    """All crates and drivers by name, in the order of the lists."""
    found = {}
    for text, folder in LISTS:
        for line in text.read_text().splitlines():
            line = line.partition("#")[0].strip()
            if line:
                crate = Crate(line, folder / line.split(":")[0].split()[0])
                found[crate.name] = crate
    return found


def below(names, crates):
    """The crates of these names and all that they stand on, each once."""
    found = {}
    for name in names:
        if name in crates and name not in found:
            found |= below(crates[name].libraries, crates)
            found[name] = crates[name]
    return found


def put_sources(crate, to):
    """Copies the sources of a crate, those of a driver as .rt files, in place of earlier ones."""
    for part in PARTS:
        shutil.rmtree(to / part, ignore_errors=True)
        if (crate.folder / part).is_dir():
            shutil.copytree(crate.folder / part, to / part)
    if crate.is_driver:
        for file in sorted((to / "src").rglob("*.rs")):
            file.rename(file.with_suffix(".rt"))


def make_repository(folder, names):
    """Makes a repository in a folder with the crates and drivers of these names and all that they stand on."""
    crates = below(names, listed())
    for crate in crates.values():
        put_sources(crate, folder / "crates" / crate.name)
    shutil.copy(TOP / "HANDLES", folder)
    (folder / "crates.txt").write_text("".join(f"{crate.line}\n" for crate in crates.values()))
    (folder / ".git").mkdir(exist_ok=True)
    return folder

"""Builds libcapi_exports.a over the libraries that the gate proved.

`rt ci` proves capi_exports and keeps nothing of it, so the build proves it once more. It takes what the checks of its mutants
kept, and keeps the rest for them."""
import os
import subprocess
import sys
from pathlib import Path

TOP = Path(__file__).parents[2]
NAME = "capi_exports"
sys.path.append(str(TOP / "tools"))

import over_libraries  # noqa: E402


def left_by_the_gate(crates):
    """Whether each was built, and not by `rt lib`, which would find what it has built itself."""
    return all(over_libraries.built(it).is_dir() for it in crates) and not all(map(over_libraries.stamped, crates))


def words(named):
    """The words for rattle: the libraries by their paths, what builds the archive, and the work that is kept."""
    return [
        *over_libraries.words(NAME, named),
        *["--crate-type", "staticlib", "--jobs", str(min(os.cpu_count() or 1, 4))],
        *["--toolchain", over_libraries.KIT / "toolchain", "--backend", "llvm"],
        *["--incremental", over_libraries.kept_work(NAME, named)],
    ]


def main():
    named = over_libraries.libraries()
    folder, archive = TOP / "crates" / NAME, f"out/lib{NAME}.a"
    if not left_by_the_gate(over_libraries.below(NAME, named)):
        return subprocess.run(["rt", "lib"], cwd=folder).returncode
    (folder / "out").mkdir(exist_ok=True)
    return subprocess.run([over_libraries.RATTLE, "build", *words(named), "-o", archive], cwd=folder).returncode


if __name__ == "__main__":
    sys.exit(main())

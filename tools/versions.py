#!/usr/bin/env python3
"""Compares the version in the file VERSION with each other place that states one. Ends with status 1 where one differs.

A place is a file and a pattern, whose group is the version there: text, as 0.4.0, or a number, which is
major * 1000000 + minor * 1000 + patch.

usage: versions.py [PREFIX]     PREFIX: compares what is installed there, too: the header, ebpf.pc and `ebpf --version`
"""
import re
import subprocess
import sys
from pathlib import Path

TOP = Path(__file__).parents[1]
TEXT = r"(\d+\.\d+\.\d+)"
PLACES = [
    ("include/ebpf.h", r"#define EBPF_VERSION_NUMBER (\d+)\b"),
    ("include/ebpf.h", rf"version of this interface, {TEXT},"),
    ("crates/capi_exports/src/version.rt", r"VERSION_NUMBER: u32 = (\d+);"),
    ("crates/capi_exports/src/version.rt", rf"The version {TEXT} of"),
    ("crates/ebpf/src/help.rt", rf'VERSION: &str = "ebpf {TEXT}"'),
    ("examples/rust/Cargo.toml", rf'(?m)^version = "{TEXT}"$'),
    ("examples/rust/Cargo.lock", rf'name = "ebpf-object"\nversion = "{TEXT}"'),
    ("examples/rust/Cargo.lock", rf'name = "ebpf-sys"\nversion = "{TEXT}"'),
    ("examples/rust/ebpf-object/Cargo.toml", rf'ebpf-sys = .*version = "{TEXT}"'),
    ("examples/rust/ebpf-sys/build.rs", rf'VERSIONS: .* = \("{TEXT}", '),
    ("examples/rust/ebpf-sys/README.md", rf"from version {TEXT} "),
    ("examples/rust/ebpf-sys/src/numbers.rs", r"EBPF_VERSION_NUMBER: u32 = (\d+);"),
    ("examples/python/ebpf.py", rf'(?m)^VERSION = "{TEXT}"$'),
]
INSTALLED = [
    ("include/ebpf.h", r"#define EBPF_VERSION_NUMBER (\d+)\b"),
    ("lib/pkgconfig/ebpf.pc", rf"(?m)^Version: {TEXT}$"),
    ("share/man/man1/ebpf.1", rf'"ebpf {TEXT}"'),
]


def as_text(found):
    """Returns a version as text, whichever form it has."""
    number = int(found) if found.isdigit() else None
    return found if number is None else f"{number // 1000000}.{number // 1000 % 1000}.{number % 1000}"


def stated(folder, file, pattern):
    """Returns the version that a file states, or None."""
    path = folder / file
    found = re.search(pattern, path.read_text()) if path.is_file() else None
    return found and as_text(found[1])


def told(program):
    """Returns the version that `ebpf --version` prints, or None."""
    try:
        ran = subprocess.run([program, "--version"], capture_output=True, text=True)
    except OSError:
        return None
    found = re.fullmatch(rf"ebpf {TEXT}\n", ran.stdout)
    return found and found[1]


def main():
    if len(sys.argv) > 2 or sys.argv[1:2] in (["--help"], ["-h"]):
        sys.exit(__doc__[__doc__.index("usage:") :].rstrip())
    wanted = (TOP / "VERSION").read_text().strip()
    found = [(file, stated(TOP, file, pattern)) for file, pattern in PLACES]
    if sys.argv[1:]:
        prefix = Path(sys.argv[1])
        found += [(prefix / file, stated(prefix, file, pattern)) for file, pattern in INSTALLED]
        found.append((prefix / "bin/ebpf", told(prefix / "bin/ebpf")))
    wrong = [(file, version) for file, version in found if version != wanted]
    for file, version in wrong:
        print(f"versions.py: {file} states {version or 'no version'}, VERSION {wanted}")
    print(f"{len(found) - len(wrong)} passed, {len(wrong)} failed")
    return len(wrong) > 0


if __name__ == "__main__":
    sys.exit(main())

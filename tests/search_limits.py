#!/usr/bin/env python3
"""Runs ebpf-link on the objects whose CO-RE relocations search as many members as the limit allows, and one more, and
compares its output with the expected lines of each. The program has to be built (`rt ci` leaves it in crates/ebpf_link/out).
Ends with 'N passed, M failed', and with status 1 where one failed.
usage: search_limits.py LINK
"""
import subprocess
import sys
import tempfile
from pathlib import Path

from rows import core_limits, printed

# A search takes tenths of a second.
SECONDS = 60


def given(program, folder, files, words):
    """What the program prints of an object and the files that words name, and its status, as lines."""
    for name, data in files.items():
        (folder / name).write_bytes(data)
    flags = [flag for word in words for flag in ("--btf", word.removeprefix("types="))]
    try:
        ran = subprocess.run([program, "object", *flags], cwd=folder, capture_output=True, text=True, timeout=SECONDS)
    except subprocess.TimeoutExpired:
        return [f"no end within {SECONDS} seconds"]
    return [f"status {ran.returncode}", *(ran.stdout + ran.stderr).splitlines()]


def main():
    program = Path(sys.argv[1]).resolve()
    cases = core_limits.long_cases()
    printed.add_to(cases)
    passed = failed = 0
    with tempfile.TemporaryDirectory() as made:
        for case in cases:
            for action, text in case.gives.items():
                name, *words = action.split()
                if name != "link":
                    continue
                lines = given(program, Path(made), case.files, words)
                if lines == text.split("\n"):
                    passed += 1
                else:
                    failed += 1
                    print(f"{case.name}: {action}:\n  wanted: {text}\n  given:  {lines}")
    print(f"{passed} passed, {failed} failed")
    return 1 if failed or not passed else 0


if __name__ == "__main__":
    sys.exit(main())

"""Runs crates by `rt try`, which proves nothing and stops at an index out of range, a sum that wraps or a failed unwrap."""
import os
import subprocess
import tempfile
from dataclasses import dataclass
from pathlib import Path

# A program that is built with checks takes many times as long as a proved one, in seconds.
SECONDS = 2700


@dataclass
class Tried:
    """What `rt try` gave: its status, its standard output, and its standard error as text."""

    status: int
    out: bytes
    said: str

    @property
    def printed(self):
        return self.out.decode("utf-8", "replace")

    @property
    def last_lines(self):
        return "\n".join([*self.printed.splitlines(), *self.said.splitlines()][-6:])


def without_hints(folder):
    """The environment in which `sh` ends at once. By it rt try starts, with each run, a whole reading of the crate for hints
    at names that a check refuses, which takes as long as the build; rt ci refuses such names."""
    stub = folder / "sh"
    stub.write_text("#!/bin/sh\nexit 0\n")
    stub.chmod(0o755)
    return {**os.environ, "PATH": f"{folder}{os.pathsep}{os.environ['PATH']}"}


def rt_try(folder, *words, **environment):
    """Runs the program or the tests of the crate in a folder."""
    with tempfile.TemporaryDirectory() as hints:
        ran = subprocess.run(
            ["rt", "try", "--seconds", str(SECONDS), *words],
            cwd=folder,
            env={**without_hints(Path(hints)), **environment},
            stdin=subprocess.DEVNULL,
            capture_output=True,
        )
    return Tried(ran.returncode, ran.stdout, ran.stderr.decode("utf-8", "replace"))

"""Runs of the test program `calls`: a file, a kernel's types and its symbols, and actions on them."""
import os
import subprocess
import tempfile
from pathlib import Path

# A run takes milliseconds, under the sanitizers some tenths of a second.
SECONDS = 60


class Files:
    """Writes bytes to files of a folder, each once."""

    def __init__(self, folder):
        self.folder = Path(folder)

    def path(self, data):
        if isinstance(data, Path):
            return str(data)
        if not data:
            return "/dev/null"
        path = self.folder / f"{os.getpid()}-{hash(data) % 2**64:x}"
        if not path.exists():
            path.write_bytes(data)
        return str(path)


def run(words):
    """The status, the lines of standard output and standard error of a run."""
    with tempfile.TemporaryFile() as out:
        done = subprocess.run(words, stdin=subprocess.DEVNULL, stdout=out, stderr=subprocess.PIPE, timeout=SECONDS)
        out.seek(0)
        lines = out.read().decode("utf-8", "replace").splitlines()
        return done.returncode, lines, done.stderr.decode("utf-8", "replace")


class CallsRow:
    """Actions on files, and the lines that they have to print. `wanted` is a list of lines, or a function that says
    what is wrong with the lines, or None."""

    def __init__(self, name, files, actions, wanted):
        self.name, self.files, self.actions, self.wanted = name, files, actions, wanted

    def fault(self, program, files):
        """What is wrong with a run of the program, or None."""
        paths = [files.path(data) for data in self.files]
        status, lines, err = run([str(program), *paths, *self.actions])
        if status != 0 or err:
            return f"{self.name}, {' '.join(self.actions)}: status {status}, {err[:600]}"
        if callable(self.wanted):
            said = self.wanted(lines)
        else:
            said = None if lines == self.wanted else f"{lines[:12]} in place of {self.wanted[:12]}"
        return said and f"{self.name}, {' '.join(self.actions)}: {said}"

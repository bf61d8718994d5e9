"""Blocks of commands: each command is run as the page shows it, and its output compared with the lines below it."""
import difflib
import os
import re
import subprocess

from shown.blocks import TOP

SECONDS = 120


class Room:
    """A folder with all that the repository's top has, and further files. Commands in it find the built programs."""

    def __init__(self, folder, programs, files):
        self.top, path = folder / "top", folder / "bin"
        self.top.mkdir()
        path.mkdir()
        for name, data in files.items():
            (self.top / name).write_bytes(data)
        for entry in TOP.iterdir():
            if entry.name not in files and entry.name != ".git":
                (self.top / entry.name).symlink_to(entry)
        for name, program in programs.items():
            (path / name).symlink_to(program)
        self.environment = {**os.environ, "PATH": f"{path}{os.pathsep}{os.environ['PATH']}"}

    def run(self, script, folder=""):
        """Returns what a script writes in a folder, standard output and standard error together, as on a terminal."""
        return subprocess.run(
            ["bash", "-c", script],
            cwd=self.top / folder,
            env=self.environment,
            stdin=subprocess.DEVNULL,
            stdout=subprocess.PIPE,
            stderr=subprocess.STDOUT,
            encoding="utf-8",
            timeout=SECONDS,
        ).stdout


def commands_of(block):
    """Returns the commands of a block, each with the lines below it."""
    found = []
    for line in block.lines:
        if line.startswith("$ "):
            found.append((line.removeprefix("$ "), []))
        else:
            found[-1][1].append(line)
    return found


def folder_of(block):
    """Returns the folder that the line above a block names, as in 'In `examples/check`:', else the repository's top."""
    named = re.search(r"\bIn `([\w/]+)`:$", block.above)
    return named[1] if named else ""


def matches(lines, output):
    """Returns whether an output has these lines, of which `..` stands for any number of lines."""
    pattern = "".join(r"(?:.*\n)*" if line == ".." else re.escape(line) + r"\n" for line in lines)
    return re.fullmatch(pattern, output) is not None


def faults(block, room):
    """Yields each command of a block whose output differs from the lines below it, with the differences.

    One shell runs all commands, so that `cd` counts for the next ones. A zero byte ends the output of each."""
    commands = commands_of(block)
    script = "".join(f"{command}\nprintf '\\0'\n" for command, _ in commands)
    outputs = room.run(script, folder_of(block)).split("\0")
    for (command, lines), output in zip(commands, outputs):
        if not matches(lines, output):
            differences = difflib.unified_diff(lines, output.splitlines(), "shown", "printed", n=1, lineterm="")
            yield "\n  ".join([f"`{command}` prints something else", *differences])
    if len(outputs) != len(commands) + 1:
        yield f"{len(outputs) - 1} of {len(commands)} commands were run"

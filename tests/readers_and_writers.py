#!/usr/bin/env python3
"""Runs built programs with other words than theirs, with writers that fail and with files that are hard to read. Ends
with 'N passed, M failed'.

usage: readers_and_writers.py PROGRAM..     PROGRAM: a built ebpf-link or ebpf-inspect
"""
import os
import subprocess
import sys
import tempfile
from pathlib import Path

from growths import inputs
from rows.elf import EXIT, LOAD64, NOTHING
from rows.linked import chain
from rows.resolved import LOAD, variable_of_void

SECONDS = 60

# An object that wants the address of `v`; lines that have it; one line of a million letters and then that one.
WANTS = variable_of_void("v", slots=[LOAD, NOTHING, EXIT], relocations=[(0, LOAD64)])
LINE = b"ffffffff81000010 D v\n"
LONG_LINE = b"a" * 1000000 + b"\n" + LINE

# What the programs print of that object behind its first line.
FOUND = {
    "ebpf-link": b"18 01 00 00 10 00 00 81\n00 00 00 00 ff ff ff ff\n",
    "ebpf-inspect": b"copy 0 3 3 0x0 p\n",
}

# More than a program holds back before it writes.
LARGE = chain(5000)


class Checks:
    def __init__(self, program, folder):
        self.program, self.folder = program, folder
        self.name = os.path.basename(program).removesuffix("_program").replace("cli_", "ebpf_").replace("_", "-")
        self.passed = self.failed = 0

    def path(self, name, data):
        path = os.path.join(self.folder, name)
        Path(path).write_bytes(data)
        return path

    def line(self, text):
        return f"{self.name}: {text}\n".encode()

    def run(self, words, **where):
        """The status, what was printed and what was said; `where` says where it prints."""
        given = {"stdout": subprocess.PIPE, "stderr": subprocess.PIPE, "stdin": subprocess.DEVNULL, **where}
        ended = subprocess.run([self.program, *words], timeout=SECONDS, check=False, **given)
        return ended.returncode, ended.stdout or b"", ended.stderr or b""

    def compare(self, what, found, wanted):
        if found == wanted:
            self.passed += 1
            return
        self.failed += 1
        print(f"FAILED {self.name}, {what}: {str(found)[:300]}, wanted {str(wanted)[:300]}")

    def refuses(self, what, words, text, **where):
        """Nothing is printed, and the one line of status 1 is this."""
        self.compare(what, self.run(words, **where), (1, b"", self.line(text)))

    def prints(self, what, words, start):
        status, out, err = self.run(words)
        self.compare(what, (status, out[: len(start)], err), (0, start, b""))

    def without_reader(self, what, words):
        """Standard output is a pipe that nobody reads."""
        read, write = os.pipe()
        os.close(read)
        self.refuses(what, words, "cannot write", stdout=write)
        os.close(write)


def closed(checks, what, words, wanted):
    """Standard output is closed."""
    shell = ["sh", "-c", 'exec "$@" >&-', "sh", checks.program, *words]
    ended = subprocess.run(shell, stderr=subprocess.PIPE, timeout=SECONDS, check=False)
    checks.compare(what, (ended.returncode, ended.stderr), wanted)


def writers(checks):
    small, large = str(inputs.SMALL), checks.path("large.o", LARGE)
    lines = checks.path("lines", LINE)
    for size, words in [("small", [small]), ("large", [large]), ("small with lines", [small, "--kallsyms", lines])]:
        closed(checks, f"a closed output, {size}", words, (1, checks.line("cannot write")))
        checks.without_reader(f"a pipe without a reader, {size}", words)
        with open("/dev/full", "wb") as full:
            checks.refuses(f"a full device, {size}", words, "cannot write", stdout=full)
    # Where there is nothing to write nothing fails.
    nothing = checks.path("nothing.o", b"\x7fELF\x02\x01" + bytes(58))
    closed(checks, "a closed output, nothing to print", [nothing], (0, b""))
    # A reader that ends after a part.
    shell = ["sh", "-c", '"$@" | head -c 100 >/dev/null', "sh", checks.program, large]
    part = subprocess.run(shell, stderr=subprocess.PIPE, timeout=SECONDS, check=False)
    checks.compare("a reader that ends", part.stderr, checks.line("cannot write"))
    with open("/dev/full", "wb") as full:
        checks.compare("a full standard error", checks.run(["/nowhere"], stderr=full), (1, b"", b""))


def words(checks):
    """Words that are not as the usage line says."""
    usage = f"usage: {checks.name} FILE [--btf FILE] [--kallsyms FILE] [--program NAME]\n".encode()
    for what, given in [("no word", []), ("two files", ["a", "b"]), ("an option without a value", ["a", "--btf"])]:
        checks.compare(what, checks.run(given), (2, b"", usage))


def readers(checks):
    small, wants = str(inputs.SMALL), checks.path("wants.o", WANTS)
    folder = os.path.join(checks.folder, "folder")
    os.mkdir(folder)
    for name, path in [("a folder", folder), ("no file", os.path.join(checks.folder, "none"))]:
        checks.refuses(f"{name} as the file", [path], f"cannot read {path}")
        checks.refuses(f"{name} as types", [small, "--btf", path], f"cannot read {path}")
    checks.refuses("no file as lines", [small, "--kallsyms", "/nowhere"], "cannot read /nowhere")
    checks.refuses("an empty file", ["/dev/null"], "parse: ElfError")
    checks.refuses("empty types", [small, "--btf", "/dev/null"], "btf: InvalidHeader")
    # Lines are read only where they are wanted.
    checks.refuses("a folder as lines", [wants, "--kallsyms", folder], "ksyms: KallsymsAccessError")
    checks.prints("a folder as lines that nobody wants", [small, "--kallsyms", folder], b"program p slots 3\n")
    checks.refuses("no lines", [wants, "--kallsyms", "/dev/null"], "ksyms: VariableNotFound")
    zeros, other = checks.path("zeros", bytes(1 << 20)), checks.path("other", LINE + b"\xff\n")
    checks.refuses("zeros without an end of line", [wants, "--kallsyms", zeros], "ksyms: VariableNotFound")
    checks.refuses("a line of other bytes", [wants, "--kallsyms", other], "ksyms: KallsymsAccessError")
    found = b"program p slots 3\n" + FOUND[checks.name]
    checks.prints("a line", [wants, "--kallsyms", checks.path("line", LINE)], found)
    checks.prints("a line of a million letters", [wants, "--kallsyms", checks.path("long", LONG_LINE)], found)
    checks.prints("a pipe as lines", [wants, "--kallsyms", pipe_of(LINE)], found)


def pipe_of(data):
    """The path of a pipe that holds bytes and then ends."""
    read, write = os.pipe()
    os.write(write, data)
    os.close(write)
    return f"/proc/{os.getpid()}/fd/{read}"


def main(programs):
    passed = failed = 0
    for program in programs:
        with tempfile.TemporaryDirectory() as folder:
            checks = Checks(os.path.abspath(program), folder)
            words(checks)
            writers(checks)
            readers(checks)
        passed, failed = passed + checks.passed, failed + checks.failed
    print(f"{passed} passed, {failed} failed")
    return 1 if failed or not passed else 0


if __name__ == "__main__":
    sys.exit(main(sys.argv[1:]))

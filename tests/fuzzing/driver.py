"""The program in C that opens objects by the library: how it is built, and what it says of inputs."""
import os
import resource
import struct
import subprocess
import zlib
from pathlib import Path

HERE = Path(__file__).parent
TOP = HERE.parents[1]

FLAGS = ["-std=gnu11", "-O1", "-g", "-Wall", "-Wextra", "-Werror", f"-I{TOP / 'include'}"]
SANITIZERS = ["-fsanitize=address,undefined", "-fno-sanitize-recover=all"]

# Memory that a sanitizer's allocator refuses, so that the library answers that none was found.
OPTIONS = {"ASAN_OPTIONS": "allocator_may_return_null=1:max_allocation_size_mb=256:detect_leaks=0"}

NONE = 2**32 - 1


class Answer:
    """What was said of an input: the stage at which it ended, and what is wrong, or None."""

    def __init__(self, summary, wrong):
        self.summary, self.wrong = summary, wrong


def built(library, folder):
    """Builds the program, without the sanitizers where the compiler has none; its path."""
    path = os.path.join(folder, "passes")
    words = [os.environ.get("CC", "cc"), *FLAGS, str(HERE / "passes.c"), str(library), "-o", path, "-lpthread"]
    if subprocess.run([*words, *SANITIZERS], capture_output=True).returncode:
        print(f"{words[0]} builds no program with sanitizers here: it is run without them")
        subprocess.run(words, check=True)
    return path


def packed(case):
    """An input as the program reads it. What is done beside the passes is told by the input itself."""
    parts = [case.parts["object"], case.parts["types"], case.parts["kallsyms"]]
    lengths = [NONE if part is None else len(part) for part in parts]
    return struct.pack("<4I", *lengths, zlib.crc32(parts[0])) + b"".join(part or b"" for part in parts)


def ended(status, err):
    """What is wrong where the program ended before its last input."""
    said = next((line for line in err.splitlines() if "ERROR" in line or "runtime error" in line), err[-400:])
    return "no end in 10 s" if status == -14 else f"ended with {status}, {said!r}"


class Driver:
    """Runs the program over inputs, many at a start."""

    MOST = 500

    def __init__(self, program, folder):
        self.program = program
        self.batch = os.path.join(folder, "batch")

    def run(self):
        """The status, the lines and the standard error of a run over the batch. The memory of a sanitizer is not limited."""
        held = resource.getrlimit(resource.RLIMIT_AS)
        resource.setrlimit(resource.RLIMIT_AS, (held[1], held[1]))
        try:
            with open(self.batch, "rb") as inputs:
                done = subprocess.run([self.program], stdin=inputs, capture_output=True, env=os.environ | OPTIONS, check=False)
        finally:
            resource.setrlimit(resource.RLIMIT_AS, held)
        return done.returncode, done.stdout.decode().splitlines(), done.stderr.decode("utf-8", "replace")

    def answers(self, cases):
        """What is said of each input. Where the program ends at one, it is started again behind it."""
        given = [packed(case) for case in cases]
        found = []
        while len(found) < len(given):
            with open(self.batch, "wb") as out:
                out.writelines(given[len(found) :])
            status, lines, err = self.run()
            for line in lines:
                stage, _, wrong = line.partition("\t")
                found.append(Answer(stage, wrong or None))
            if len(found) < len(given):
                found.append(Answer("no answer", ended(status, err)))
            elif status:
                found[-1] = Answer("no answer", ended(status, err))
        return found



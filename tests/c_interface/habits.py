"""Runs `habits` with the address and the thread sanitizer, and under valgrind, each where it is there.

The library is not built with the sanitizers. The address sanitizer and valgrind see each block that it takes, and valgrind
each of its reads; the thread sanitizer sees the layer's callers, and the C library's calls."""
import shutil
import subprocess

from c_interface import builds
from c_interface.builds import HERE, STRICT
from c_interface.runs import Files
from growths.inputs import COUNTER, TASKS

# The checkers: what compiles for them, and what runs the program under them.
ASLR_OFF = ["setarch", "-R"]
VALGRIND = ["valgrind", "--quiet", "--error-exitcode=9", "--leak-check=full", "--show-leak-kinds=all", "--track-origins=yes"]
CHECKERS = {
    "the address sanitizer": (["-g", "-O1", "-fsanitize=address,undefined", "-fno-sanitize-recover=all"], []),
    "the thread sanitizer": (["-g", "-O1", "-fsanitize=thread"], ASLR_OFF),
    # older ones do not read what clang writes of itself by default
    "valgrind": (["-gdwarf-4", "-O1"], VALGRIND),
}
# A program of no library, by which a checker shows that it is there.
NOTHING = "int main(void) { return 0; }\n"


def done(words):
    return subprocess.run([str(word) for word in words], capture_output=True, text=True, timeout=900)


def missing(folder, compiler, flags, run):
    """Why nothing is checked by a checker here, or None."""
    if run and not shutil.which(run[0]):
        return f"no {run[0]}"
    source, path = folder / "nothing.c", folder / f"nothing-{compiler}"
    source.write_text(NOTHING)
    built = done([compiler, *flags, source, "-o", path])
    if built.returncode:
        return f"{compiler} does not build for it"
    return None if done([*run, path]).returncode == 0 else "an empty program does not run under it"


def checked(folder, library):
    """Each checker with each compiler: a name, and None or the fault."""
    files = Files(folder)
    given = [files.path(it) for it in (COUNTER, TASKS)]
    for name, (flags, run) in CHECKERS.items():
        for compiler in builds.compilers():
            why = missing(folder, compiler, flags, run)
            if why:
                print(f"habits are not checked by {name} with {compiler}: {why}")
                continue
            path = folder / f"habits-{compiler}"
            built = done([compiler, *STRICT, *flags, HERE / "habits.c", library, "-o", path, "-lpthread"])
            if built.returncode:
                yield f"{name}, {compiler}", built.stderr[:2000]
                continue
            ran = done([*run, path, *given])
            is_right = ran.returncode == 0 and ran.stdout.endswith(" passed, 0 failed\n") and not ran.stderr
            yield f"{name}, {compiler}", None if is_right else f"status {ran.returncode}, {(ran.stdout + ran.stderr)[-2000:]}"

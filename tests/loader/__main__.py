"""Builds the objects and the loader, loads and runs each; loader.sh says how it is called."""
import shutil
import subprocess
import sys
from pathlib import Path

from loader import cases, configuration, kernel_ids

HERE = Path(__file__).parent
TOP = HERE.parents[1]
STRICT = ["-std=c11", "-Wall", "-Wextra", "-Werror", f"-I{TOP / 'include'}"]
SANITIZED = ["-O1", "-g", "-fsanitize=address,undefined", "-fno-sanitize-recover=all"]

# What is said where bpf(2) is not allowed, or not there.
NOT_ALLOWED = ("Operation not permitted", "Function not implemented")


class Count:
    """How many passed and failed."""

    def __init__(self):
        self.passed = self.failed = 0

    def add(self, name, fault):
        if fault is None:
            self.passed += 1
            return
        self.failed += 1
        print(f"FAILED {name}: {fault}", flush=True)

    def end(self):
        print(f"{self.passed} passed, {self.failed} failed")
        return 1 if self.failed else 0


def run(words, folder):
    return subprocess.run([str(word) for word in words], cwd=folder, capture_output=True, text=True, timeout=300)


def compiled(source, folder):
    """An object of a source, and what clang says where it makes none."""
    path = folder / f"{source.stem}.o"
    if not path.exists():
        done = run(["clang", "-target", "bpf", "-O2", "-g", "-Werror", "-c", source, "-o", path], folder)
        if done.returncode:
            return path, done.stderr[-1500:]
    return path, None


def judge(case, loader, folder):
    path, fault = compiled(HERE / "objects" / f"{case.source}.c", folder)
    return fault or case.fault(run([loader, *case.options, path, *case.words], folder))


def built(compiler, flags, library, path):
    """What a compiler says where it doesn't build the loader, or None."""
    sources = sorted((TOP / "examples/loader").glob("*.c"))
    done = run([compiler, *STRICT, *flags, *sources, library, "-o", path], path.parent)
    return done.stderr[-2000:] if done.returncode else None


def loaders(library, folder):
    """The loader by each compiler, and once with the sanitizers; each with what is wrong with its build, or None."""
    compilers = [name for name in ("gcc", "clang") if shutil.which(name)]
    builds = [(name, ["-O2"], f"loader-{name}") for name in compilers]
    builds += [(name, SANITIZED, f"loader-{name}-sanitized") for name in compilers[:1]]
    for compiler, flags, name in builds:
        yield folder / name, built(compiler, flags, library, folder / name)


def why_not(loader, folder):
    """Why nothing can be loaded here, or None."""
    path, _ = compiled(HERE / "objects/constants.c", folder)
    done = run([loader, path, "add"], folder)
    said = [text for text in NOT_ALLOWED if text in done.stderr]
    return f"the kernel says {said[0]!r} to bpf(2)" if said else None


def why_nothing():
    """Why not even types can be compared here, or None."""
    if not shutil.which("clang"):
        return "there is no clang, which makes the objects"
    if not kernel_ids.VMLINUX.exists():
        return f"the kernel's types are not at {kernel_ids.VMLINUX}"
    return None


def load_all(loader, folder, count):
    every = [*cases.ALL, *cases.of_kernel()]
    why = why_not(loader, folder)
    if why:
        print(f"left out: {len(every)} programs that are loaded and run: {why}")
        return
    for case in every:
        count.add(f"{loader.name}, {case.name}", judge(case, loader, folder))


def main(library, folder):
    count = Count()
    (folder / "own_config").write_text(configuration.OWN)
    why = why_nothing()
    for loader, fault in loaders(library, folder):
        count.add(f"{loader.name}, its build", fault)
        if fault or why:
            continue
        targets = cases.Case("what programs are attached to", "targets", [], cases.targets(), options=["--targets"])
        count.add(f"{loader.name}, {targets.name}", judge(targets, loader, folder))
        load_all(loader, folder, count)
    if why:
        print(f"left out: all objects: {why}")
    return count.end()


if __name__ == "__main__":
    sys.exit(main(Path(sys.argv[1]), Path(sys.argv[2])))

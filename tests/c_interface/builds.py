"""Builds the test programs and the examples with each compiler that is there."""
import re
import shutil
import subprocess
from pathlib import Path

TOP = Path(__file__).parents[2]
HERE = Path(__file__).parent
EXAMPLES = TOP / "examples"

STRICT = ["-std=c11", "-Wall", "-Wextra", "-Wshadow", "-Wswitch", "-Werror", f"-I{TOP / 'include'}", f"-I{TOP / 'c'}"]

# The library is not built with the sanitizers, so they see the test programs, and each block that the library takes.
SANITIZED = ["-g", "-fsanitize=address,undefined", "-fno-sanitize-recover=all"]

# Programs with their sources.
PROGRAMS = {
    "calls": [HERE / f"{name}.c" for name in ("calls", "listed", "loader_calls", "found_calls", "record_calls", "check_calls", "struct_ops_calls", "told")],
    "bounds": [HERE / f"{name}.c" for name in ("bounds", "bounds_loader", "bounds_values", "bounds_found", "bounds_nulls", "listed", "told")],
    "layer": [HERE / f"{name}.c" for name in ("layer", "layer_lists", "layer_types", "layer_wanted", "layer_leaving", "layer_memory")],
    "loader": sorted((EXAMPLES / "loader").glob("*.c")),
}

# What a program is linked with beside the library: those of layer_memory.c are in the place of the C library's.
LINKED = {"layer": [f"-Wl,--wrap={name}" for name in ("malloc", "calloc", "realloc", "free")]}


class Build:
    """A program that was built, or what was said instead."""

    def __init__(self, name, path, fault):
        self.name, self.path, self.fault = name, path, fault


def compilers():
    """The C compilers that are there."""
    return [name for name in ("gcc", "clang") if shutil.which(name)]


def compiled(folder, name, compiler, flags, sources, library):
    path = folder / name
    words = [compiler, *STRICT, *flags, *map(str, sources), str(library), "-o", str(path), "-lpthread"]
    done = subprocess.run(words, capture_output=True, text=True)
    return Build(f"{name} by {compiler}", path, done.stderr[:2000] if done.returncode else None)


def programs(folder, library):
    """Each program by each compiler, as it is shipped and with the sanitizers."""
    for compiler in compilers():
        for name, sources in PROGRAMS.items():
            flags = LINKED.get(name, [])
            yield compiled(folder, f"{name}-{compiler}", compiler, ["-O2", *flags], sources, library)
            yield compiled(folder, f"{name}-{compiler}-sanitized", compiler, ["-O1", *SANITIZED, *flags], sources, library)


def numbers_of_header():
    """The numbers that the header states."""
    [body] = re.findall(r"enum ebpf_number \{(.*?)\n\};", (TOP / "include/ebpf.h").read_text(), re.DOTALL)
    return {int(number) for number in re.findall(r"EBPF_\w+ = (\d+),", body)}


def layer_fault(tool):
    """What is wrong with what a tool makes of the header: the calls of the layer, and the declarations in Rust."""
    done = subprocess.run(["python3", "-B", str(TOP / "tools" / tool), "--check"], capture_output=True, text=True)
    return done.stderr or None


def header_faults():
    """What is wrong with the header alone, as C99, as C11 and as C++."""
    header = TOP / "include/ebpf.h"
    readings = [("c", "c99"), ("c", "c11"), ("c++", "c++11"), ("c++", "c++20"), ("c++", "c++2b")]
    for compiler in compilers():
        for language, standard in readings:
            words = [compiler, "-x", language, f"-std={standard}", "-Wall", "-Wextra", "-Wshadow", "-pedantic", "-Werror"]
            done = subprocess.run([*words, "-fsyntax-only", str(header)], capture_output=True, text=True)
            # a compiler without C++ says so of its own program
            if language == "c++" and ("cc1plus" in done.stderr or "cannot find" in done.stderr):
                continue
            yield f"{compiler}, {standard}", done.stderr[:2000] if done.returncode else None

#!/usr/bin/env python3
"""How time and memory grow.

usage: growth.py EBPF_BENCH [--functions N..] [--small N..] [--times N]

EBPF_BENCH is bench_prepare, as build.sh builds it. Needs gcc, libbpf and its headers, and a kernel that shows its
types. Of a chain of so many functions of some twenty slots, and of so many of three slots, it prints the least time of
three runs of `bench_prepare prepare`, and the most memory that the process held in one run, as a multiple of the file too.
The files are what clang and `llvm-strip -g` make of such chains, but libbpf/chain_objects.py makes them here. Of the
running kernel's types, once and N times over, it prints the times of `btf__new`, of `Btf::from_vec`, of reading the file
and of the index, of all but the index also in memory that the process has already, and the most memory, the file in it.
Times are in microseconds, of types the least of five processes.
"""
import argparse
import re
import subprocess
import tempfile
from pathlib import Path

from libbpf.chain_objects import chain_object
from libbpf.kernel_types import VMLINUX
from libbpf.many_types import repeated
from libbpf.sources import chain, worked_chain

HERE = Path(__file__).parent
PROCESSES = 5
COUNTS = [2000, 20000, 100000]


def words():
    parser = argparse.ArgumentParser()
    parser.add_argument("bench")
    parser.add_argument("--functions", type=int, nargs="*", default=COUNTS)
    parser.add_argument("--small", type=int, nargs="*", default=COUNTS)
    parser.add_argument("--times", type=int, default=10)
    return parser.parse_args()


def run(*command):
    """What a program printed on both outputs."""
    done = subprocess.run([str(word) for word in command], capture_output=True, text=True)
    return done.stdout + done.stderr


def number(pattern, text):
    return int(re.search(pattern, text, re.MULTILINE).group(1))


def least(pattern, texts):
    return min(number(pattern, text) for text in texts)


def functions(bench, folder, make, count):
    source = folder / f"{make.__name__}-{count}.c"
    made = source.with_suffix(".o")
    made.write_bytes(chain_object(make(count), source))
    size = made.stat().st_size
    time = number(r"least (\d+) us", run(bench, "prepare", made, "--runs", 3))
    peak = number(r"peak (\d+) KB", run(bench, "prepare", made, "--runs", 1)) * 1024
    print(f"{make.__name__:>13}{count:>8}{size // 1024:>9} KiB{time:>10} us{peak / 1e6:>8.1f} MB{peak / size:>7.2f}", flush=True)


def peak_of(*command):
    """The most memory that a process held, in bytes. Its own process tells, so that no other one's counts."""
    script = "import resource,subprocess,sys;subprocess.run(sys.argv[1:],stdout=-3,stderr=-3);print(resource.getrusage(resource.RUSAGE_CHILDREN).ru_maxrss)"
    return int(run("python3", "-c", script, *command).split()[-1]) * 1024


def phase(name, texts):
    """The first and the least time of a phase."""
    first = least(rf"^{name} +first +(\d+) us", texts)
    again = least(rf"^{name} +first +\d+ us, least +(\d+) us", texts)
    return f"{first}, again {again}"


def types(bench, timing, path, title):
    size = path.stat().st_size
    theirs = [run(timing, path, 9) for _ in range(PROCESSES)]
    ours = [run(bench, "types", path) for _ in range(PROCESSES)]
    first, warm = least(r"first (\d+) us", theirs), least(r"least (\d+) us", theirs)
    peak = peak_of(bench, "types", path)
    print(f"{title:>20}{size // 1024:>9} KiB  btf__new {first}, again {warm}  read {phase('read', ours)}"
          f"  types {phase('types', ours)}  index {phase('index', ours)}  {peak / 1e6:.1f} MB {peak / size:.2f}", flush=True)


def main():
    asked = words()
    with tempfile.TemporaryDirectory() as name:
        folder = Path(name)
        timing = folder / "types_times"
        subprocess.run(["gcc", "-O2", "-o", timing, HERE / "libbpf/types_times.c", "-lbpf"], check=True)
        raw = Path(VMLINUX).read_bytes()
        for times in (1, asked.times):
            path = folder / f"types-{times}"
            path.write_bytes(repeated(raw, times))
            types(asked.bench, timing, path, f"types {times} times")
        for make, counts in ((worked_chain, asked.functions), (chain, asked.small)):
            for count in counts:
                functions(asked.bench, folder, make, count)


if __name__ == "__main__":
    main()

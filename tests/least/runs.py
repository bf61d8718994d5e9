"""Runs of the program, and what a file of types gives an object."""
import subprocess
from dataclasses import dataclass

SECONDS = 600

# The status of a run that doesn't end.
ENDLESS = -100


@dataclass(frozen=True)
class Ran:
    """What a run gave: its status, its standard output and its standard error."""

    status: int
    out: bytes
    said: bytes


def run(*words, seconds=SECONDS):
    """Runs a program. One that doesn't end has a status of its own: libbpf and bpftool follow a typedef of itself forever."""
    words = [str(word) for word in words]
    try:
        ran = subprocess.run(words, stdin=subprocess.DEVNULL, capture_output=True, timeout=seconds)
    except subprocess.TimeoutExpired:
        return Ran(ENDLESS, b"", b"no end")
    return Ran(ran.returncode, ran.stdout, ran.stderr)


def outcome(ebpf, object_file, types, *options):
    """Returns what linking an object to types gives: its slots as bytes, or its refusal. Paths of the types don't count."""
    ran = run(ebpf, "link", object_file, "--btf", types, "--bytes", *options)
    return Ran(ran.status, ran.out, ran.said.replace(str(types).encode(), b"TYPES"))


def reasons(ebpf, object_file, types):
    """Returns what linking an object to types gives, with the value of each relocation, or the reason why it has none."""
    ran = run(ebpf, "link", object_file, "--btf", types)
    return Ran(ran.status, ran.out, ran.said.replace(str(types).encode(), b"TYPES"))


def write_least(ebpf, objects, kernel, output, *options):
    """Runs `ebpf btf`."""
    return run(ebpf, "btf", *objects, "--btf", kernel, "--output", output, *options)


def needs_ids(made):
    """Returns whether a run of `ebpf btf` refuses an object since it needs the ids of the kernel's types."""
    return made.status == 1 and b"NeedsKernelId" in made.said

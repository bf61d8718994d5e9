"""The examples: the object that is loaded, the crates in Rust, the module for Python, and the loaders on this kernel."""
import os
import re
import shutil
import subprocess
import sys
from pathlib import Path

from c_interface.builds import EXAMPLES
from growths.inputs import COUNTER
from shown.blocks import blocks_of

# What is listed of the object that clang made.
LISTED = """
license GPL
program on_packet type 6 slots 15
program on_wake type 2 slots 13
map .bss type 2 key 4 value 8
map .rodata type 2 key 4 value 4
map counts type 1 key 4 value 8
map tables type 12 key 4 value 4
""".strip()


def run(words, **other):
    return subprocess.run([str(word) for word in words], capture_output=True, text=True, timeout=900, **other)


def said(done):
    return f"status {done.returncode}, {(done.stdout + done.stderr)[-1500:]}"


def cargo(folder, library, *words, **other):
    """Runs cargo over the crates."""
    known = dict(os.environ, EBPF_LIB_DIR=str(library), CARGO_TARGET_DIR=str(folder / "rust"), **other)
    return run(["cargo", "--offline", "--quiet", *words], cwd=EXAMPLES / "rust", env=known)


def has_cargo(*words):
    """Whether cargo is there, and a part of it."""
    return shutil.which("cargo") and run(["cargo", *words, "--version"]).returncode == 0


def rust(folder, library):
    """Builds the crates, tests them, lints them, and lists a file, where there is Rust."""
    if not has_cargo():
        print("no cargo: the crates in Rust are not built")
        return
    tasks = [
        ("the crates' tests", [], ["test", "-j1"]),
        ("the crates' pages", [], ["doc", "--no-deps", "-j1"]),
        ("the crates' lints", ["clippy"], ["clippy", "--all-targets", "-j1", "--", "-D", "warnings"]),
        ("the crates' format", ["fmt"], ["fmt", "--check"]),
    ]
    for name, part, words in tasks:
        if has_cargo(*part):
            done = cargo(folder, library.parent, *words, RUSTDOCFLAGS="-D warnings")
            yield name, None if done.returncode == 0 else said(done)
    listed = cargo(folder, library.parent, "run", "-j1", "--example", "list", "--", COUNTER)
    yield "the listing tool", None if listed.stdout.strip() == LISTED else said(listed)
    (folder / "no_library").mkdir()
    missing = cargo(folder, folder / "no_library", "check", "-p", "ebpf-sys", "-j1")
    is_told = "ebpf-sys: the library ebpf is not found" in missing.stderr and "EBPF_LIB_DIR" in missing.stderr
    yield "a missing library", None if is_told else said(missing)


def shared(folder, library):
    """A shared object of the archive."""
    path = folder / "libebpf.so"
    whole = ["-Wl,--whole-archive", library, "-Wl,--no-whole-archive"]
    done = run(["cc", "-shared", "-o", path, *whole])
    return path, None if done.returncode == 0 else said(done)


# What the lines of Python in docs/C.md print of the object: each program, and the copies that it is linked of.
LINKED = """
on_packet 15
  0 on_packet
  15 count
on_wake 13
  0 on_wake
  13 tgid_of
  24 count
""".lstrip()


def python(folder, library):
    """Tests the module for Python, and runs the lines of docs/C.md as they stand there."""
    path, fault = shared(folder, library)
    if fault:
        return [("the shared object", fault)]
    known = dict(os.environ, EBPF_LIBRARY=str(path), PYTHONPATH=str(EXAMPLES / "python"), PYTHONDONTWRITEBYTECODE="1")
    tested = run([sys.executable, "-m", "unittest"], cwd=EXAMPLES / "python", env=known)
    blocks = [block for block in blocks_of("docs/C.md") if block.language == "python"]
    if len(blocks) != 1:
        return [("the blocks of Python", f"{len(blocks)} blocks, and 1 is run")]
    (folder / "linked.py").write_text("".join(f"{line}\n" for line in blocks[0].lines))
    (folder / "nothing").write_bytes(b"nothing")
    done = run([sys.executable, folder / "linked.py", COUNTER], env=known)
    refused = run([sys.executable, folder / "linked.py", folder / "nothing"], env=known)
    is_told = refused.stderr.endswith("ebpf.Refused: the file is too short for its header (100, parse: TooShort)\n")
    missing = run([sys.executable, "-c", "import ebpf"], env=dict(known, EBPF_LIBRARY=str(folder / "none")))
    return [
        ("the module's tests", None if tested.returncode == 0 else said(tested)),
        ("the lines of Python", None if done.stdout == LINKED else said(done)),
        ("the same on no object", None if is_told else said(refused)),
        ("the module without the library", None if "set EBPF_LIBRARY" in missing.stderr else said(missing)),
    ]


def compiled(folder, name):
    """An object for the loader, of its source; None where no clang makes objects for the kernel."""
    path = folder / f"{name}.bpf.o"
    done = subprocess.run(
        ["clang", "-target", "bpf", "-O2", "-g", "-c", str(EXAMPLES / f"{name}.bpf.c"), "-o", str(path)],
        capture_output=True,
    )
    return path if done.returncode == 0 else None


# What the kernel gives: the number of the action, and packets, bytes, and how often the process was the helper's.
RAN = r"program count_packet slots \d+\nreturned 2\n00000000 {packets}{bytes}{same}\n"


def number(value):
    return value.to_bytes(8, "little").hex()


def ran(size):
    """What is printed of one packet of a size."""
    return RAN.format(packets=number(1), bytes=number(size), same=number(1))


def loads(loader, folder):
    """Loads the object, runs it on 64 bytes and on 100, and sees what is said where the kernel refuses."""
    path, packet, short = compiled(folder, "counter"), folder / "packet", folder / "short"
    packet.write_bytes(bytes(100))
    short.write_bytes(bytes(13))
    for size, words in [(64, []), (100, [packet])]:
        done = run([loader, path, "count_packet", "totals", *words])
        yield f"{loader.name}, {size} bytes", None if re.fullmatch(ran(size), done.stdout) else said(done)
    done = run([loader, compiled(folder, "classifier"), "classify", "sums"])
    wanted = rf"program classify slots \d+\nreturned 0\n00000000 {number(64)}{number(1)}\n"
    yield f"{loader.name}, a section whose name says no kind", None if re.fullmatch(wanted, done.stdout) else said(done)
    done = run([loader, path, "count_packet", ".bss"])
    ends = done.stdout.endswith(f"00000000 {number(1)}\n")
    yield f"{loader.name}, a variable", None if ends else said(done)
    refusals = [
        (["none"], "no program none"),
        (["count_packet", "none"], "no map none"),
        (["count_packet", "totals", short], "the kernel doesn't run the program"),
    ]
    for words, text in refusals:
        done = run([loader, path, *words])
        yield f"{loader.name}, {text}", None if done.returncode == 1 and text in done.stderr else said(done)
    done = run([loader, COUNTER, "on_wake"])
    text = "the kernel runs no program of this kind by itself"
    yield f"{loader.name}, {text}", None if text in done.stderr else said(done)
    done = run([loader, packet, "p"])
    yield f"{loader.name}, no object", None if "the library refuses" in done.stderr else said(done)


def rust_loads(folder, library):
    """Loads the object by the loader in Rust, runs it, and sees what is said where something is refused."""
    if not has_cargo():
        return
    path, short = compiled(folder, "counter"), folder / "short"
    (folder / "packet").write_bytes(bytes(100))
    short.write_bytes(bytes(13))
    loads = ["run", "-j1", "--example", "load", "--"]
    for size, words in [(64, []), (100, ["--data", folder / "packet"])]:
        done = cargo(folder, library.parent, *loads, "--run", "count_packet", "--show", "totals", *words, path)
        yield f"load, {size} bytes", None if re.fullmatch(ran(size), done.stdout) else said(done)
    refusals = [
        (["--run", "none", path], "no program has the name: none"),
        (["--show", "none", path], "no map none"),
        (["--run", "count_packet", "--data", short, path], "the kernel refuses to run count_packet"),
        ([short], "the file is too short for its header"),
    ]
    for words, text in refusals:
        done = cargo(folder, library.parent, *loads, *words)
        yield f"load, {text}", None if done.returncode == 1 and text in done.stderr else said(done)
    setpriv = ["setpriv", "--reuid=65534", "--regid=65534", "--clear-groups"]
    if os.geteuid() == 0 and shutil.which("setpriv"):
        loader = Path(shutil.copy(folder / "rust/debug/examples/load", folder / "load"))
        folder.chmod(0o755)
        done = run([*setpriv, loader, path])
        is_told = done.returncode == 1 and "bpf(2) is not permitted here" in done.stderr
        yield "load, no permission", None if is_told else said(done)


def is_allowed(loader, folder):
    """Why nothing can be loaded here, or None."""
    if not os.path.exists("/sys/kernel/btf/vmlinux"):
        return "the kernel's types are not at /sys/kernel/btf/vmlinux"
    path = compiled(folder, "counter")
    if path is None:
        return "no clang makes objects for the kernel"
    done = run([loader, path, "count_packet", "totals"])
    return done.stderr.strip() if "Operation not permitted" in done.stderr else None

"""The code of README.md and docs/C.md: runs the C and the commands that build on the archive, and compares what is
shown of the loader and the crates with what examples.py runs. Each function yields what it tests, and None or the
fault."""
import os
import re
import shutil
import subprocess

from c_interface import builds, examples
from c_interface.builds import HERE, TOP
from c_interface.runs import run
from growths.inputs import COUNTER
from shown.blocks import blocks_of

CHECK = TOP / "examples/check"

# The C of the pages in their order, by the files that page_code.c includes.
PIECES = ["prepared", "opened", "read", "kept", "listed", "refused"]

# The refusal of a value of another size in words, as docs/C.md has it.
SENTENCE = 'a value does not fit its variable or its map; about the variable: "seen" (size 8, other size 4)'

# What page_code prints. `ebpf link` in docs/CLI.md has the 35 slots, of which slot 11 is poisoned. `readelf -s` has the
# sizes of the programs, and of the symbol `seen`.
PRINTED = [
    "prepared 0: 35 slots, slot 11 calls 0xbad2310",
    "opened",
    "over types that were read: 0, 33 slots",
    "on_packet has 15 slots",
    "on_wake has 13 slots",
    "listed 0: on_packet 15 on_wake 13",
    SENTENCE,
    "seen has 8 bytes",
    "refused 150",
]


def of_c(folder, library):
    """Compiles the C of both pages with each compiler, and runs it."""
    blocks = [block for page in ("README.md", "docs/C.md") for block in blocks_of(page) if block.language == "c"]
    if len(blocks) != len(PIECES):
        yield "the C of the pages", f"{len(blocks)} blocks, and {len(PIECES)} are run"
        return
    for name, block in zip(PIECES, blocks):
        (folder / f"{name}.inc").write_text("".join(f"{line}\n" for line in block.lines))
    flags = ["-O1", *builds.SANITIZED, f"-I{folder}"]
    for compiler in builds.compilers():
        build = builds.compiled(folder, f"page_code-{compiler}", compiler, flags, [HERE / "page_code.c"], library)
        yield build.name, build.fault
        if build.fault is None:
            found = run([str(build.path), str(CHECK / "memdrop.o"), str(CHECK / "btf/6.18"), str(COUNTER)])
            yield f"{build.name}, its lines", None if found == (0, PRINTED, "") else str(found)[:1500]


def of_building(folder):
    """Runs the commands of docs/C.md that build on the archive, in a folder with the header and the examples."""
    [block] = [it for it in blocks_of("docs/C.md") if it.begins("docs/C.md", "tests/c_interface.sh --build")]
    if not shutil.which("gcc"):
        print("no gcc: the commands of docs/C.md are not run")
        return
    room = folder / "page_commands"
    room.mkdir()
    for name in ("include", "examples"):
        (room / name).symlink_to(TOP / name)
    for command in block.lines[1:]:
        done = subprocess.run(["bash", "-c", command], cwd=room, capture_output=True, text=True)
        is_made = done.returncode == 0 and (room / re.search(r"-o (\S+)", command)[1]).exists()
        yield command, None if is_made else examples.said(done)


def of_examples():
    """Compares what docs/C.md shows of the loader and the crates with what examples.py runs."""
    blocks = blocks_of("docs/C.md")
    [block] = [it for it in blocks if "$ ./loader counter.bpf.o count_packet totals" in it.lines]
    shown = "".join(f"{line}\n" for line in block.lines if not line.startswith("$ "))
    yield "docs/C.md: the loader's lines", None if re.fullmatch(examples.ran(64), shown) else shown
    command = f"cargo run --example list -- {os.path.relpath(COUNTER, builds.EXAMPLES / 'rust')}"
    is_shown = any(it.lines[-1] == command for it in blocks)
    yield "docs/C.md: the crates' command", None if is_shown else f"no block ends in {command}"


def of_pages(folder, library):
    """Makes all of these tests."""
    yield from of_c(folder, library)
    yield from of_building(folder)
    yield from of_examples()

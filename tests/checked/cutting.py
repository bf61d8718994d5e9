"""`ebpf btf`: the files that it writes, what it says of them, and the refusals. tests/least_types.py has the outcomes over their types."""
import json
import os
from pathlib import Path

from checked.embedded import executable
from checked.objects import Asks, Code, object_of, program
from least.types import Types
from rows.btf import BIG, btf
from rows.core_sides import EXISTS, LOAD, MOVE, OFFSET, TARGET_ID, S
from rows.elf import EXIT

HELP = "  help: --allow-ids writes the file, in which ids are others\n"
USAGE = "usage: ebpf btf FILE .. --btf KERNEL --output FILE [--object N] [--allow-ids] [--json]"

# An object that loads `b` of `struct s`, one that asks for `a`, one that asks for the id of `struct s`.
LOADS = object_of([program(Asks(LOAD, OFFSET, 2, "0:1"), EXIT)])
ASKS = object_of([program(Asks(MOVE, EXISTS, 2, "0:0"), EXIT)])
IDS = object_of([program(Asks(MOVE, TARGET_ID, 2, "0"), EXIT)])
TRACES = object_of([Code("fentry/vfs_read", "on_read", [EXIT])])
KERNEL = btf(*S, *S)


def line_of(rows, name, output):
    """The line of a kernel, by the files themselves."""
    kernel, least = ((rows.folder / path).read_bytes() for path in (name, output))
    types = [len(Types.read(data).types) for data in (least, kernel)]
    return f"{types[0]} of {types[1]} types, {len(least)} of {len(kernel)} bytes  {name}\n"


def writes(rows, name, words, *pairs, more="", status=0, err=""):
    """A run that writes files of types: for each kernel one, over which the object's slots are those over the kernel's."""
    ran = rows.row(name, ["btf", *words], status, err=err)
    lines = "".join(line_of(rows, kernel, output) for kernel, output in pairs)
    rows.expect(f"{name}: output", ran.stdout, lines + more)
    for kernel, output in pairs:
        slots = [rows.run("link", words[0], "--btf", path, "--bytes") for path in (kernel, output)]
        rows.expect(f"{name}: slots over {output}", slots[1].stdout, slots[0].stdout)
    return ran


def left(rows):
    """The names of temporary files that a run left."""
    return [path.name for path in rows.folder.rglob("*.tmp")]


def files(rows):
    """One object, several, all objects of an executable, and one of these."""
    for name, data in {"loads.o": LOADS, "asks.o": ASKS, "kernel": KERNEL, "tool": executable(LOADS, ASKS)}.items():
        rows.write(name, data)
    both = ("kernel", "both")
    writes(rows, "one object", ["loads.o", "--btf", "kernel", "--output", "least"], ("kernel", "least"))
    writes(rows, "two objects", ["loads.o", "asks.o", "--btf=kernel", "--output=both"], both)
    first, second = ((rows.folder / name).read_bytes() for name in ("least", "both"))
    writes(rows, "the same file again", ["loads.o", "--btf", "kernel", "--output", "both"], both)
    rows.expect("the same file again: bytes", (rows.folder / "both").read_bytes(), first)
    rows.row("an executable", ["btf", "tool", "--btf", "kernel", "--output", "both"], 0)
    rows.expect("an executable: bytes", (rows.folder / "both").read_bytes(), second)
    rows.row("one of an executable", ["btf", "tool", "--object=1", "--btf", "kernel", "--output", "both"], 0)
    rows.expect("one of an executable: bytes", (rows.folder / "both").read_bytes(), first)
    rows.row("a device", ["btf", "loads.o", "--btf", "kernel", "--output", "/dev/null"], 0)
    rows.expect("a device stays", Path("/dev/null").is_char_device(), True)
    rows.expect("temporary files", left(rows), [])


def folders(rows):
    """A folder of kernels: files of the same names in another one, also beside files that can't be read."""
    for name, data in {"all/b": KERNEL, "all/a": btf(*S), "all/below/c": KERNEL, "some/a": KERNEL, "some/b": b"none"}.items():
        rows.write(name, data)
    (rows.folder / "hollow" / "below").mkdir(parents=True, exist_ok=True)
    pairs = [(f"all/{name}", f"made/here/{name}") for name in "ab"]
    writes(rows, "a folder", ["loads.o", "--btf", "all", "--output", "made/here"], *pairs)
    rows.expect("a folder: files", sorted(os.listdir(rows.folder / "made/here")), ["a", "b"])
    said = "ebpf: some/b: neither BTF nor an ELF file"
    words = ["loads.o", "--btf", "some", "--output", "elsewhere"]
    writes(rows, "a file that is no BTF", words, ("some/a", "elsewhere/a"), more="not written  some/b\n", status=2, err=said)
    rows.expect("a file that is no BTF: files", os.listdir(rows.folder / "elsewhere"), ["a"])
    rows.row("a folder without files", ["btf", "loads.o", "--btf", "hollow", "--output", "no"], 2, "", "ebpf: hollow: no file in it")
    words = ["btf", "loads.o", "--btf", "all", "--output", "loads.o"]
    rows.row("a file for a folder", words, 2, "", "ebpf: loads.o: File exists (os error 17)")


def unwritten(rows):
    """Files that can't be written or read: nothing is written, and what was there stays."""
    cases = {
        ("missing/least", "kernel"): "missing/least: No such file or directory (os error 2)",
        ("all", "kernel"): "all: Is a directory (os error 21)",
        ("/dev/full", "kernel"): "/dev/full: No space left on device (os error 28)",
        ("both", "nowhere"): "nowhere: No such file or directory (os error 2)",
        ("both", "big"): "big: types of the other byte order than the object's",
    }
    rows.write("big", btf(*S, order=BIG))
    before = (rows.folder / "both").read_bytes()
    for (output, kernel), sentence in cases.items():
        words = ["btf", "loads.o", "--btf", kernel, "--output", output]
        rows.row(f"{kernel} to {output}", words, 2, f"not written  {kernel}\n", f"ebpf: {sentence}")
    rows.expect("what was there", (rows.folder / "both").read_bytes(), before)
    rows.expect("what was there, temporary files", left(rows), [])


def ids(rows):
    """Objects that need ids of the kernel's types."""
    rows.write("ids.o", IDS)
    rows.write("traces.o", TRACES)
    told = {"ids.o": "struct s <target_type_id>", "traces.o": "vfs_read <attach>"}
    for name, uses in told.items():
        words = ["btf", "loads.o", name, "--btf", "kernel", "--output", "never"]
        sentence = f"ebpf: {name}: needs ids of the kernel's types: {uses} (btf: NeedsKernelId)"
        ran = rows.row(f"{name} needs ids", words, 1, "", sentence)
        rows.expect(f"{name} needs ids: help", ran.stderr, f"{sentence}\n{HELP}")
    rows.expect("nothing is written", (rows.folder / "never").exists(), False)
    more = "\nNOT KEPT (ids of the kernel's types)\n"
    more += "  struct s  <target_type_id>  ids.o kprobe/p relocation 0\n  vfs_read  <attach>  traces.o on_read\n"
    words = ["ids.o", "traces.o", "loads.o", "--btf", "kernel", "--output", "given", "--allow-ids"]
    ran = rows.row("ids are allowed", ["btf", *words], 0)
    rows.expect("ids are allowed: output", ran.stdout, line_of(rows, "kernel", "given") + more)


def as_json(rows):
    """JSON: its keys in their order, and the facts of the text."""
    ran = rows.row("btf --json", ["btf", "ids.o", "--btf", "kernel", "--output", "given", "--allow-ids", "--json"], 0)
    told = json.loads(ran.stdout)
    rows.expect("btf --json: keys", list(told), ["version", "files", "kernels", "not_kept", "status"])
    rows.expect("btf --json: files", (told["files"], told["status"]), (["ids.o"], 0))
    least, kernel = ((rows.folder / name).read_bytes() for name in ("given", "kernel"))
    sizes = {"types": len(Types.read(kernel).types), "bytes": len(kernel)}
    sizes |= {"least_types": len(Types.read(least).types), "least_bytes": len(least)}
    rows.expect("btf --json: kernels", told["kernels"], [{"name": "kernel", "output": "given", **sizes}])
    use = {"name": "struct s", "kind": "target_type_id", "file": "ids.o", "object": None, "location": "kprobe/p", "relocation": 0}
    rows.expect("btf --json: not_kept", told["not_kept"], [use])
    ran = rows.row("btf --json, unread", ["btf", "loads.o", "--btf", "nowhere", "--output", "no", "-j"], 2, err="ebpf: nowhere: No such file or directory (os error 2)")
    unread = {"name": "nowhere", "error": "No such file or directory (os error 2)"}
    rows.expect("btf --json, unread: kernels", json.loads(ran.stdout)["kernels"], [unread])
    ran = rows.row("btf --json, refused", ["btf", "ids.o", "--btf", "kernel", "--output", "no", "-j"], 1, err="ebpf: ids.o: needs ids of the kernel's types: struct s <target_type_id> (btf: NeedsKernelId)")
    rows.expect("btf --json, refused: error", json.loads(ran.stdout)["error"]["variant"], "NeedsKernelId")


def words(rows):
    """Words, and their refusals."""
    refused = {
        ("loads.o",): "no --btf",
        ("loads.o", "--btf", "kernel"): "no --output",
        ("--btf", "kernel", "--output", "x"): "no FILE",
        ("loads.o", "--btf", "kernel", "--output", "x", "--output", "y"): "--output is given twice",
        ("loads.o", "--program", "p"): "no option --program",
        ("loads.o", "--allow-ids=1"): "--allow-ids takes no value",
        ("loads.o", "--output"): "--output needs a value",
    }
    for given, sentence in refused.items():
        ran = rows.row(f"words btf {given}", ["btf", *given], 2, "", f"ebpf: {sentence}")
        rows.expect(f"words btf {given}: usage", ran.stderr.split("\n")[1], USAGE)
    ran = rows.row("btf --help", ["btf", "--help"], 0)
    rows.expect("btf --help: usage", ran.stdout.startswith(f"{USAGE}\n\nWrites the least BTF "), True)


ROWS = [files, folders, unwritten, ids, as_json, words]

#!/usr/bin/env python3
"""Runs `ebpf check`, `ebpf list`, `ebpf inspect`, `ebpf link` and `ebpf btf` over examples/check and over files made here, beside what
each has to print and its status, and the last two beside `ebpf-inspect` and `ebpf-link`. Ends with 'N passed, M failed', and
with status 1 where one failed.
usage: check_rows.py PROGRAM INSPECT LINK      PROGRAM: the built program `ebpf`; INSPECT: the built program `ebpf-inspect`;
                                               LINK: the built program `ebpf-link`
"""
import ctypes
import json
import shutil
import struct
import subprocess
import sys
import tempfile
from dataclasses import dataclass
from pathlib import Path

from checked import absences, cutting, embedded, functions, grouping, inspecting, kconfig, lacking, linking, listing, refusing, sizes, telling, walks
from checked.page import shown_output

TOP = Path(__file__).parents[1]
EXAMPLE = TOP / "examples" / "check"
WATCH = TOP / "crates" / "example_library" / "data"

# What root may do beyond others to files, and the call of prctl(2) that gives it up for programs that start.
CAP_DAC_OVERRIDE, CAP_DAC_READ_SEARCH = 1, 2
PR_CAPBSET_DROP = 24

# Numbers of BTF kinds.
INT, PTR, STRUCT, ENUM, TYPEDEF, FUNC, FUNC_PROTO = 1, 2, 4, 6, 8, 12, 13


@dataclass
class Types:
    """Raw BTF in the making."""

    order: str = "<"
    types: bytes = b""
    strings: bytes = b"\0"
    count: int = 0

    def name(self, text):
        if not text:
            return 0
        at = len(self.strings)
        self.strings += text.encode() + b"\0"
        return at

    def add(self, kind, name="", size=0, vlen=0, rest=()):
        words = [self.name(name), kind << 24 | vlen, size, *rest]
        self.types += struct.pack(f"{self.order}{len(words)}I", *words)
        self.count += 1
        return self.count

    def enum(self, name, values):
        rest = [word for key, value in values.items() for word in (self.name(key), value & 0xFFFFFFFF)]
        return self.add(ENUM, name, 4, len(values), rest)

    def struct(self, name, size, members):
        rest = [word for key, ty, bits in members for word in (self.name(key), ty, bits)]
        return self.add(STRUCT, name, size, len(members), rest)

    def bytes(self):
        header = struct.pack(
            f"{self.order}HBBIIIII", 0xEB9F, 1, 0, 24, 0, len(self.types), len(self.types), len(self.strings)
        )
        return header + self.types + self.strings


def elf_with(types):
    """An ELF file with the section .BTF alone."""
    names = b"\0.BTF\0.shstrtab\0"
    header = b"\x7fELF\x02\x01\x01".ljust(16, b"\0")
    table = 64 + len(types) + len(names)
    header += struct.pack("<HHIQQQIHHHHHH", 1, 247, 1, 0, 0, table, 0, 64, 0, 0, 64, 3, 2)

    def section(name, kind, offset, size):
        return struct.pack("<IIQQQQIIQQ", name, kind, 0, 0, offset, size, 0, 0, 1, 0)

    sections = [section(0, 0, 0, 0), section(1, 1, 64, len(types)), section(6, 3, 64 + len(types), len(names))]
    return header + types + names + b"".join(sections)


def small_kernel(helpers=(1, 35, 113), map_types=(1, 2), hook="shrink_node"):
    """A kernel that has all that memdrop.o asks for, but for what is left out."""
    made = Types()
    u32 = made.add(INT, "unsigned int", 4, rest=[32])
    s32 = made.add(INT, "int", 4, rest=[1 << 24 | 32])
    queue = made.struct("cfs_rq", 4, [("nr_running", u32, 0)])
    pointer = made.add(PTR, "", queue)
    entity = made.struct("sched_entity", 8, [("cfs_rq", pointer, 0)])
    members = [("pid", s32, 0), ("__state", u32, 32), ("mm_cid", s32, 64), ("se", entity, 128)]
    made.struct("task_struct", 24, members)
    made.enum("cgroup_subsys_id", {"pids_cgrp_id": 11})
    made.enum("bpf_func_id", {f"BPF_FUNC_{number}": number for number in helpers})
    made.enum("bpf_map_type", {f"BPF_MAP_TYPE_{number}": number for number in map_types})
    proto = made.add(FUNC_PROTO, "", s32)
    made.add(FUNC, hook, proto, 1)
    made.add(TYPEDEF, "btf_trace_sched_switch", pointer)
    return made.bytes()


class Rows:
    """What was run, and what failed."""

    def __init__(self, program, inspect, link, folder):
        self.program = program
        self.inspect = inspect
        self.link = link
        self.folder = folder
        self.passed = 0
        self.failures = []

    def write(self, name, content):
        path = self.folder / name
        path.parent.mkdir(parents=True, exist_ok=True)
        path.write_bytes(content)
        return name

    def run(self, *words, before=None):
        return subprocess.run(
            [self.program, *words],
            cwd=self.folder,
            stdin=subprocess.DEVNULL,
            capture_output=True,
            encoding="utf-8",
            timeout=120,
            preexec_fn=before,
        )

    def expect(self, name, found, wanted):
        if found == wanted:
            self.passed += 1
        else:
            self.failures.append(f"{name}\n  wanted {wanted!r}\n  found  {found!r}")

    def row(self, name, words, status, out=None, err=""):
        """One run: its status, its output, and what it says of errors, whose first line counts."""
        ran = self.run(*words)
        self.expect(f"{name}: status", ran.returncode, status)
        if out is not None:
            self.expect(f"{name}: output", ran.stdout, out)
        self.expect(f"{name}: errors", ran.stderr.split("\n")[0], err)
        return ran


def line_of(text):
    """The number of the only line of memdrop.bpf.c with a text."""
    lines = (EXAMPLE / "memdrop.bpf.c").read_text().split("\n")
    [number] = [number for number, line in enumerate(lines, 1) if text in line]
    return number


EXAMPLE_OUT = f"""ok      2/2 programs  btf/5.18
breaks  1/2 programs  btf/6.18

BREAKS
  struct cfs_rq.nr_running  <byte_off>  no such member
    on 1 of 2: btf/6.18
    on_tick slot 11  memdrop.bpf.c:{line_of("queue->nr_running")}
GUARDED (absent, not reached)
  struct task_struct.mm_cid  <byte_off>  no such member
    on 1 of 2: btf/5.18
    on_shrink slot 14  memdrop.bpf.c:{line_of("read(&place, task->mm_cid)")}
  struct task_struct___old.state  <byte_off>  no such member
    on 2 of 2
    on_shrink slot 49 (state_of+14)  memdrop.bpf.c:{line_of("old->state")}
CHANGED (written; nothing to do)
  enum cgroup_subsys_id.pids_cgrp_id  11 in the object
    10 on btf/5.18

memdrop.o: breaks on 1 of 2 kernels, 1 of 2 programs
"""

# The object against kernels made here: 'old' is absent in all of them.
OLD_GUARDED = f"""GUARDED (absent, not reached)
  struct task_struct___old.state  <byte_off>  no such member
    on 1 of 1
    on_shrink slot 49 (state_of+14)  memdrop.bpf.c:{line_of("old->state")}
"""


def example(rows):
    """The example, as text and as JSON."""
    rows.row("the example", ["check", "memdrop.o", "btf/5.18", "btf/6.18"], 1, EXAMPLE_OUT)
    rows.row("a folder", ["check", "memdrop.o", "btf"], 1, EXAMPLE_OUT)
    rows.row("a folder with a slash", ["check", "memdrop.o", "btf/"], 1, EXAMPLE_OUT)
    rows.expect("docs/CLI.md: the example", shown_output("ebpf check memdrop.o btf; echo $?"), EXAMPLE_OUT + "1\n")
    ok = rows.row("one kernel", ["check", "memdrop.o", "btf/5.18"], 0)
    rows.expect("one kernel: last line", ok.stdout.split("\n")[-2], "memdrop.o: ok on 1 of 1 kernels, 2 of 2 programs")
    chosen = rows.row("one program", ["check", "memdrop.o", "btf", "--program", "on_shrink"], 0)
    rows.expect("one program: first line", chosen.stdout.split("\n")[0], "ok      1/1 programs  btf/5.18")
    both = ["check", "memdrop.o", "--program=on_shrink", "--program", "on_tick", "btf"]
    rows.row("both programs by name", both, 1, EXAMPLE_OUT)
    moved = rows.run("check", "memdrop.o", "btf/5.18", "--all").stdout
    rows.expect("--all tells what moved", "  struct task_struct.pid  <byte_off>  0 in the object\n    32 on btf/5.18\n" in moved, True)


def as_json(rows):
    """JSON: its keys in their order, and the facts of the text."""
    ran = rows.row("--json", ["check", "-j", "memdrop.o", "btf"], 1)
    told = json.loads(ran.stdout)
    keys = ["version", "file", "status", "programs", "kernels", "breaks", "guarded", "changed", "kconfig"]
    rows.expect("--json: keys", list(told), keys)
    rows.expect("--json: version", told["version"], 2)
    rows.expect("--json: kernels", told["kernels"], [{"name": "btf/5.18", "breaks": []}, {"name": "btf/6.18", "breaks": ["on_tick"]}])
    place = {
        "program": "on_tick",
        "slot": 11,
        "file": "./memdrop.bpf.c",
        "line": line_of("queue->nr_running"),
        "kernels": ["btf/6.18"],
    }
    broken = {
        "name": "struct cfs_rq.nr_running",
        "kind": "byte_off",
        "kinds": ["byte_off"],
        "reason": "no such member",
        "kernels": ["btf/6.18"],
        "places": [place],
    }
    rows.expect("--json: breaks", told["breaks"], [broken])
    rows.expect("--json: guarded", [each["name"] for each in told["guarded"]], ["struct task_struct.mm_cid", "struct task_struct___old.state"])
    rows.expect("--json: within", told["guarded"][1]["places"][0]["function_slot"], 14)
    changed = {
        "name": "enum cgroup_subsys_id.pids_cgrp_id",
        "kind": "enumval_value",
        "own": 11,
        "values": [{"value": 10, "kernels": ["btf/5.18"]}],
    }
    rows.expect("--json: changed", told["changed"], [changed])


def kernels(rows):
    """What kernels are read from."""
    kernel = small_kernel()
    rows.write("small", kernel)
    rows.write("small.elf", elf_with(kernel))
    for name in ["small", "small.elf"]:
        out = f"ok      2/2 programs  {name}\n\n{OLD_GUARDED}\nmemdrop.o: ok on 1 of 1 kernels, 2 of 2 programs\n"
        rows.row(f"kernel {name}", ["check", "memdrop.o", name], 0, out)
    for name in ["5.18", "5.9", "6.1", "5.18-rc2", "10.0"]:
        rows.write(f"many/{name}", kernel)
    (rows.folder / "many/below").mkdir()
    ran = rows.row("a folder's order", ["check", "memdrop.o", "many"], 0)
    lines = [line.split("many/")[1] for line in ran.stdout.split("\n")[:5]]
    rows.expect("a folder's order: names", lines, ["5.9", "5.18", "5.18-rc2", "6.1", "10.0"])
    for name in ["5.18", "5.9", "6.1", "5.18-rc2", "10.0"]:
        rows.write(f"bad/{name}", small_kernel(helpers=(1, 35)))
    rows.write("bad/6.2", kernel)
    ran = rows.row("many kernels", ["check", "memdrop.o", "bad"], 1)
    rows.expect("many kernels: three are named", "    on 5 of 6: bad/5.9, bad/5.18, bad/5.18-rc2 and 2 more\n" in ran.stdout, True)
    ran = rows.row("many kernels --all", ["check", "memdrop.o", "bad", "--all"], 1)
    rows.expect("--all names all", "    on 5 of 6: bad/5.9, bad/5.18, bad/5.18-rc2, bad/6.1, bad/10.0\n" in ran.stdout, True)


def unread(rows):
    """Kernels that can't be read: the others are told, and the status is 2."""
    big = Types(order=">")
    big.add(INT, "int", 4, rest=[32])
    neither = "neither BTF nor an ELF file\n  help: give /sys/kernel/btf/vmlinux, or a copy of another kernel's"
    unnamed = "no section .BTF\n  help: `pahole -J FILE` adds a section .BTF to a kernel that has debug information"
    texts = {
        "other-order": (big.bytes(), "types of the other byte order than the object's"),
        "no-types": (b"none", neither),
        "empty": (b"", neither),
        "cut": (small_kernel()[:40], "the header of .BTF or .BTF.ext is cut or has another magic, or a part of it passes the end"),
        "no-section.elf": (elf_with(b"").replace(b".BTF", b".BTG"), unnamed),
    }
    for name, (content, sentence) in texts.items():
        rows.write(name, content)
        ran = rows.run("check", "memdrop.o", name, "small")
        rows.expect(f"{name}: status", ran.returncode, 2)
        lines = ran.stdout.split("\n")
        rows.expect(f"{name}: lines", lines[:2], [f"unread  -/2 programs  {name}", "ok      2/2 programs  small"])
        rows.expect(f"{name}: summary", lines[-2], "memdrop.o: ok on 1 of 1 kernels, 2 of 2 programs; 1 not read")
        rows.expect(f"{name}: errors", ran.stderr, f"ebpf: {name}: {sentence}\n")
    alone = "unread  -/2 programs  nowhere\n\nmemdrop.o: no kernel to tell of; 1 not read\n"
    rows.row("no such kernel", ["check", "memdrop.o", "nowhere"], 2, alone, "ebpf: nowhere: No such file or directory (os error 2)")
    wins = rows.run("check", "memdrop.o", "btf/6.18", "nowhere")
    rows.expect("2 wins over 1", wins.returncode, 2)


def without_override():
    """Has a process that root starts ask for its rights as any other does."""
    for right in [CAP_DAC_OVERRIDE, CAP_DAC_READ_SEARCH]:
        ctypes.CDLL(None).prctl(PR_CAPBSET_DROP, right, 0, 0, 0)


def unlisted(rows):
    """Folders that have no file or can't be listed: the others are told, and the status is 2."""
    last = "memdrop.o: ok on 1 of 1 kernels, 2 of 2 programs; 1 not read"
    told = lambda name: [f"unread  -/2 programs  {name}", "ok      2/2 programs  small", last]
    first_and_last = lambda ran: [*ran.stdout.split("\n")[:2], ran.stdout.split("\n")[-2]]
    (rows.folder / "hollow" / "below").mkdir(parents=True)
    alone = "unread  -/2 programs  hollow\n\nmemdrop.o: no kernel to tell of; 1 not read\n"
    said = "ebpf: hollow: no file in it"
    rows.row("a folder without files", ["check", "memdrop.o", "hollow"], 2, alone, said)
    ran = rows.row("a folder without files, and others", ["check", "memdrop.o", "hollow", "small"], 2, err=said)
    rows.expect("a folder without files, and others: lines", first_and_last(ran), told("hollow"))
    ran = rows.row("a folder without files, JSON", ["check", "memdrop.o", "btf", "hollow", "--json"], 2, err=said)
    found = json.loads(ran.stdout)
    unread = {"name": "hollow", "error": "no file in it"}
    rows.expect("a folder without files, JSON: told", (found["kernels"][2], len(found["breaks"])), (unread, 1))
    (rows.folder / "closed").mkdir(mode=0)
    ran = rows.run("check", "memdrop.o", "closed", "small", before=without_override)
    (rows.folder / "closed").chmod(0o700)
    rows.expect("a closed folder: status", ran.returncode, 2)
    rows.expect("a closed folder: lines", first_and_last(ran), told("closed"))
    rows.expect("a closed folder: errors", ran.stderr, "ebpf: closed: Permission denied (os error 13)\n")


def files(rows):
    """Objects that are refused or can't be read."""
    file = (EXAMPLE / "memdrop.o").read_bytes()
    rows.write("cut.o", file[:100])
    ran = rows.run("check", "cut.o", "small")
    rows.expect("a cut object: status", ran.returncode, 1)
    rows.expect("a cut object: output", ran.stdout, "")
    cut = "the table of section headers passes the end of the file, or its headers have not 64 bytes"
    rows.expect("a cut object: first line", ran.stderr.split("\n")[0], f"ebpf: cut.o: {cut} (parse: ElfError)")
    rows.row("no such object", ["check", "nowhere.o", "small"], 2, "", "ebpf: nowhere.o: No such file or directory (os error 2)")
    marked = file.replace(b"fentry/shrink_node", b"?entry/shrink_node")
    rows.write("marked.o", marked)
    ran = rows.row("a marked program", ["check", "marked.o", "small"], 0)
    rows.expect("a marked program doesn't count", ran.stdout.split("\n")[0], "ok      1/1 programs  small")
    ran = rows.row("a marked program by name", ["check", "marked.o", "small", "--program=on_shrink"], 0)
    rows.expect("a marked program counts by name", ran.stdout.split("\n")[0], "ok      1/1 programs  small")


def lacks(rows):
    """What else a kernel may lack."""
    rows.write("no-helper", small_kernel(helpers=(1, 35)))
    ran = rows.row("no helper", ["check", "memdrop.o", "no-helper"], 1)
    rows.expect("no helper: line", "  helper 113  <helper>  no such helper function\n    on 1 of 1\n    on_shrink slot 11  " in ran.stdout, True)
    rows.expect("no helper: not where it isn't reached", "slot 54 (state_of+19)" in ran.stdout, False)
    rows.write("no-map", small_kernel(map_types=(2,)))
    ran = rows.row("no map type", ["check", "memdrop.o", "no-map"], 1)
    rows.expect("no map type: line", "  map counts  <map_type>  no map type 1\n    on 1 of 1\n    on_shrink slot 60 (count+3)  " in ran.stdout, True)
    rows.write("no-hook", small_kernel(hook="shrink_nodes"))
    ran = rows.row("no hook", ["check", "memdrop.o", "no-hook"], 0)
    wanted = "  fentry/shrink_node  <attach>  no such type shrink_node (a module's?)\n    on 1 of 1\n    on_shrink\n"
    rows.expect("no hook: line", wanted in ran.stdout, True)
    rows.row("no hook, strict", ["check", "memdrop.o", "no-hook", "--strict"], 1)
    shutil.copy(WATCH / "watch.o", rows.folder)
    shutil.copy(WATCH / "kernel.btf", rows.folder)
    rows.row("an extern that is there", ["check", "watch.o", "kernel.btf"], 0)
    ran = rows.row("an extern that is not", ["check", "watch.o", "small"], 1)
    wanted = "  bpf_rcu_read_lock  <ksym>  no such function (a module's?)\n    on 1 of 1\n"
    rows.expect("an extern that is not: line", wanted in ran.stdout, True)
    rows.expect("an extern that is not: no program runs", ran.stdout.split("\n")[0], "breaks  2/2 programs  small")
    shutil.copy(TOP / "tests/drivers" / "test_rows" / "data" / "references.o", rows.folder)
    ran = rows.row("many externs that are not", ["check", "references.o", "small"], 1)
    rows.expect("many externs that are not: two are told", ran.stdout.count("<ksym>"), 2)


def names(rows):
    """Names that would speak to a terminal."""
    kernel = small_kernel()
    rows.write("a\x1b[31m\\b\n", kernel)
    ran = rows.row("a name with controls", ["check", "memdrop.o", "a\x1b[31m\\b\n"], 0)
    rows.expect("a name with controls: shown", ran.stdout.split("\n")[0], r"ok      2/2 programs  a\x1b[31m\x5cb\x0a")
    rows.write("\u202eevil", kernel)
    ran = rows.row("a name that turns the line", ["check", "memdrop.o", "\u202eevil"], 0)
    rows.expect("a name that turns the line: shown", ran.stdout.split("\n")[0], r"ok      2/2 programs  \xe2\x80\xaeevil")
    ran = rows.row("a name in JSON", ["check", "memdrop.o", "--json", 'a\x1b[31m\\b\n'], 0)
    rows.expect("a name in JSON: read back", json.loads(ran.stdout)["kernels"][0]["name"], "a\x1b[31m\\b\n")
    rows.expect("a name in JSON: no controls", "\x1b" in ran.stdout, False)


def words(rows):
    """Words."""
    refused = {
        (): "no command",
        ("chek",): "no command chek",
        ("--wide",): "no option --wide",
        ("check",): "no FILE",
        ("check", "memdrop.o", "--wide"): "no option --wide",
        ("check", "memdrop.o", "-x"): "no option -x",
        ("check", "memdrop.o", "-\x1bx"): r"no option -\x1bx",
        ("check", "memdrop.o", "--program"): "--program needs a value",
        ("check", "memdrop.o", "--json=yes"): "--json takes no value",
    }
    for given, sentence in refused.items():
        rows.row(f"words {given}", given, 2, "", f"ebpf: {sentence}")
    unknown = ["check", "memdrop.o", "small", "--program", "on_tock"]
    rows.row("an unknown program", unknown, 2, "", "ebpf: memdrop.o: no program on_tock")
    rows.row("options end", ["check", "--", "--memdrop.o", "small"], 2, "", "ebpf: --memdrop.o: No such file or directory (os error 2)")
    for given in [["--help"], ["-h"], ["check", "--help"], ["check", "-h"]]:
        ran = rows.row(f"words {given}", given, 0)
        rows.expect(f"words {given}: usage", ran.stdout.startswith("usage: ebpf "), True)
    for given in [["--version"], ["-V"], ["check", "-V"]]:
        ran = rows.row(f"words {given}", given, 0)
        rows.expect(f"words {given}: version", ran.stdout.startswith("ebpf "), True)


def closed_output(rows):
    """An output whose reader is gone ends without a line."""
    for options in [[], ["--json"]]:
        with subprocess.Popen(
            [rows.program, "check", "memdrop.o", "btf", *options],
            cwd=rows.folder,
            stdout=subprocess.PIPE,
            stderr=subprocess.PIPE,
        ) as ran:
            ran.stdout.close()
            rows.expect(f"a closed output {options}", ran.stderr.read(), b"")


def main():
    program, inspect, link = (str(Path(word).resolve()) for word in sys.argv[1:4])
    with tempfile.TemporaryDirectory() as folder:
        rows = Rows(program, inspect, link, Path(folder))
        shutil.copy(EXAMPLE / "memdrop.o", folder)
        shutil.copytree(EXAMPLE / "btf", Path(folder) / "btf")
        own = [example, as_json, kernels, unread, unlisted, files, lacks, names, words, closed_output]
        below = [absences, walks, functions, lacking, telling, grouping, sizes, listing, inspecting, linking, refusing, kconfig, embedded, cutting]
        for run in [*own, *(run for module in below for run in module.ROWS)]:
            try:
                run(rows)
            except Exception as error:
                rows.failures.append(f"{run.__name__}: {error!r}")
    for failure in rows.failures:
        print(failure)
    print(f"{rows.passed} passed, {len(rows.failures)} failed")
    return 1 if rows.failures or not rows.passed else 0


if __name__ == "__main__":
    sys.exit(main())

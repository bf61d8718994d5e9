"""What `ebpf list` prints: of files made here, and of objects that clang made, beside what readelf, objdump and bpftool say."""
import json
from pathlib import Path

from checked.arena import object_of_arena
from checked.objects import GLOBAL, WEAK, Asks, Code, address, call, function, helper, move, object_of, program
from checked.ops import OPS, object_of_ops
from checked.page import shown_output
from rows.btf import btf, datasec, integer, prototype, typedef, variable
from rows.btf import function as function_type
from rows.core_sides import MOVE, OFFSET, TYPE_SIZE, S, struct_of
from rows.elf import BIG, CALL_CODE, EXIT, FUNCTION, File, slot

TOP = Path(__file__).parents[2]
FINE = program(move(0, 0), EXIT)
HEAD = "object: little-endian, no license, 2 types, 0 CO-RE records\n\n"


def table(name, count, *lines):
    return "".join(f"{line}\n" for line in [f"{name} {count}", *(f"  {line}" for line in lines)])


def programs(*rows):
    """The table of programs, from cells."""
    heads = ["SLOTS", "LINKED", "FUNCS", "TYPE", "SECTION", "NAME"]
    cells = [heads, *([str(cell) for cell in row] for row in rows)]
    widths = [max(len(row[at]) for row in cells) for at in range(6)]
    lines = []
    for row in cells:
        numbers = [cell.rjust(width) for cell, width in zip(row[:3], widths)]
        names = [cell.ljust(width) for cell, width in zip(row[3:5], widths[3:])]
        lines.append("  ".join([*numbers, *names, row[5]]))
    return table("PROGRAMS", len(rows), *lines)


def listed(rows, name, data, out):
    """A row of an object: what is listed of it, and that JSON can be read back; what that says."""
    rows.write("object", data)
    rows.row(name, ["list", "object"], 0, out)
    ran = rows.row(f"{name}, JSON", ["list", "object", "--json"], 0)
    rows.expect(f"{name}, JSON: one line", ran.stdout.count("\n"), 1)
    return json.loads(ran.stdout)


def linked(rows):
    """Slots and functions before and after linking, and functions that no program reaches."""
    two = [program(call("f"), EXIT), Code("xdp", "q", [EXIT]), function("f", move(0, 0), EXIT), function("g", call("f"), EXIT)]
    unreached = table("FUNCTIONS THAT NO PROGRAM REACHES", 1, "SLOTS  NAME", "    2  g")
    out = HEAD + programs((2, 4, 2, "kprobe", "kprobe/p", "p"), (1, 1, 1, "xdp", "xdp", "q")) + unreached
    told = listed(rows, "two programs", object_of(two), out)
    first = {"name": "p", "section": "kprobe/p", "type": "kprobe", "slots": 2, "linked_slots": 4, "functions": 2}
    rows.expect("two programs, JSON: one", told["programs"][0], first)
    rows.expect("two programs, JSON: unreached", told["unreached"], [{"name": "g", "slots": 2}])
    twice = [program(call("f"), call("f"), EXIT), function("f", call("f"), EXIT)]
    listed(rows, "a function called twice, and by itself", object_of(twice), HEAD + programs((3, 5, 2, "kprobe", "kprobe/p", "p")))
    # A call of what stands 48 bytes into the section.
    refused = [program(slot(CALL_CODE, 0x10, imm=5), EXIT), Code("xdp", "q", [EXIT])]
    out = HEAD + programs((2, "-", "-", "kprobe", "kprobe/p", "p"), (1, 1, 1, "xdp", "xdp", "q"))
    told = listed(rows, "a program that can't be linked", object_of(refused), out)
    rows.expect("a program that can't be linked, JSON", (told["programs"][0]["linked_slots"], told["programs"][0]["functions"]), (None, None))
    listed(rows, "no program", object_of([function("f", EXIT)]), HEAD + table("FUNCTIONS THAT NO PROGRAM REACHES", 1, "SLOTS  NAME", "    1  f"))


def sections(rows):
    """The types of programs by the names of their sections, of any name."""
    kinds = {
        "?tp_btf/x": "tracing", "fentry.s/x": "tracing", "lsm/x": "lsm", "iter/task": "tracing", "freplace/x": "ext",
        "cgroup/connect4": "cgroup_sock_addr", "cgroup_skb/egress": "cgroup_skb", "sk_lookup": "sk_lookup", "tc": "sched_cls",
        "classifier": "sched_cls", "action": "sched_act", "socket": "socket_filter", "sockops": "sock_ops", "syscall": "syscall",
        "netfilter": "netfilter", "struct_ops/x": "struct_ops", "raw_tp/x": "raw_tracepoint", "tp/x/y": "tracepoint",
        "perf_event": "perf_event", "lirc_mode2": "lirc_mode2", "xdp.frags": "xdp", "mine": "-", "mine/x": "-",
    }
    for section, kind in kinds.items():
        told = listed(rows, f"section {section}", object_of([Code(section, "p", [EXIT])]), HEAD + programs((1, 1, 1, kind, section, "p")))
        rows.expect(f"section {section}, JSON", told["programs"][0]["type"], None if kind == "-" else kind)


def helpers(rows):
    """Helper functions by the programs that call them, in functions too; numbers that no helper function has."""
    code = [
        program(helper(1), helper(1), helper(211), EXIT),
        Code("xdp", "q", [call("f"), EXIT]),
        Code("xdp", "r", [helper(212), EXIT]),
        function("f", helper(181), helper(1), helper(-1), EXIT),
    ]
    shown = table(
        "HELPERS", 5,
        "    NUMBER  NAME                     PROGRAMS",
        "         1  bpf_map_lookup_elem      p, q",
        "       181  bpf_loop                 q",
        "       211  bpf_cgrp_storage_delete  p",
        "       212  -                        r",
        "4294967295  -                        q",
    )
    out = HEAD + programs((4, 4, 1, "kprobe", "kprobe/p", "p"), (2, 6, 2, "xdp", "xdp", "q"), (2, 2, 1, "xdp", "xdp", "r")) + shown
    told = listed(rows, "helpers", object_of(code), out)
    rows.expect("helpers, JSON", told["helpers"][1], {"number": 181, "name": "bpf_loop", "programs": ["q"]})
    rows.expect("helpers, JSON: no name", told["helpers"][3], {"number": 212, "name": None, "programs": ["r"]})


def maps(rows):
    """Maps: types by name and number, and the programs that use them, in functions too."""
    code = [program(address(1, "m"), EXIT), Code("xdp", "q", [call("f"), EXIT]), function("f", address(1, "m"), EXIT), Code("xdp", "r", [EXIT])]
    shown = table(
        "MAPS", 3,
        "TYPE        KEY  VALUE  ENTRIES  FLAGS  PROGRAMS  NAME",
        "hash          4      4        1    0x0       2/3  m",
        "999           4      4        1    0x0       0/3  n",
        "insn_array    4      4        1    0x0       0/3  o",
    )
    out = HEAD + programs((3, 3, 1, "kprobe", "kprobe/p", "p"), (2, 5, 2, "xdp", "xdp", "q"), (1, 1, 1, "xdp", "xdp", "r")) + shown
    told = listed(rows, "maps", object_of(code, maps={"m": 1, "n": 999, "o": 34}), out)
    sizes = {"type_number": 1, "key_size": 4, "value_size": 4, "max_entries": 1, "flags": 0, "extra": 0}
    one = {"name": "m", "type": "hash", **sizes, "pinning": None, "data": 0, "inner": None, "programs": ["p", "q"]}
    rows.expect("maps, JSON", told["maps"][0], one)
    rows.expect("maps, JSON: no name of a type", (told["maps"][1]["type"], told["maps"][1]["type_number"]), (None, 999))


def externs(rows):
    """Externs with and without a type, and values of the kernel's configuration."""
    types = [
        integer("int", 4), prototype(0), function_type("kf", 2), variable("var", 0), variable("typed", 1),
        datasec(".ksyms", 3, 4, 5), variable("CONFIG_HZ", 1), datasec(".kconfig", 7),
    ]
    code = [program(call("kf"), address(1, "var"), address(1, "typed"), address(1, "CONFIG_HZ"), EXIT)]
    held = {"kf": WEAK, "var": GLOBAL, "typed": GLOBAL, "CONFIG_HZ": GLOBAL}
    shown = table(
        "EXTERNS", 3,
        "KIND      TYPED  WEAK  NAME",
        "function  yes    yes   kf",
        "variable  yes    no    typed",
        "variable  no     no    var",
    ) + table("KCONFIG VALUES", 1, "NAME", "CONFIG_HZ")
    head = "object: little-endian, no license, 8 types, 0 CO-RE records\n\n"
    told = listed(rows, "externs", object_of(code, types, held), head + programs((8, 8, 1, "kprobe", "kprobe/p", "p")) + shown)
    rows.expect("externs, JSON", told["externs"][0], {"name": "kf", "kind": "function", "typed": True, "weak": True})
    rows.expect("externs, JSON: kconfig", told["kconfig"], ["CONFIG_HZ"])
    undeclared = object_of([program(call("x"), EXIT)], externs={"x": GLOBAL})
    listed(rows, "an extern that isn't declared", undeclared, HEAD + programs((2, "-", "-", "kprobe", "kprobe/p", "p")))


def arenas(rows):
    """An arena: the size of its data, and the variables in it alone."""
    shown = table(
        "MAPS", 2,
        "TYPE   KEY  VALUE  ENTRIES  FLAGS  DATA  PROGRAMS  NAME",
        "array    4      8        1    0x0     8       0/1  .bss",
        "arena    0      0        1    0x0    12       0/1  arena",
    ) + table("ARENA VARIABLES", 2, "OFFSET  SIZE  NAME", "   0x0     4  first", "   0x4     8  second")
    head = HEAD.replace("2 types", "8 types")
    told = listed(rows, "an arena", object_of_arena(), head + programs((1, 1, 1, "xdp", "xdp", "p")) + shown)
    second = {"name": "second", "offset": 4, "size": 8}
    rows.expect("an arena, JSON", (told["maps"][1]["data"], told["arena_variables"][1:]), (12, [second]))


def struct_ops(rows):
    """Maps of struct_ops: how they are attached and created, their programs, and the reason where they can't be read."""
    programs_shown = programs((1, 1, 1, "struct_ops", "struct_ops/p0", "begin"), (1, 1, 1, "struct_ops", "struct_ops/p1", "end"))
    shown = table(
        "STRUCT OPS", 3,
        "TYPE               SIZE  ATTACHED  CREATED  NAME   PROGRAMS",
        "small_ops            24  map       yes      plain  init: begin, stop: end",
        "no_ops                8  map       yes      empty  -",
        "small_ops___newer     8  link      no       asked  stop: end",
    )
    head = HEAD.replace("2 types", "11 types")
    told = listed(rows, "struct_ops", OPS, head + programs_shown + shown)
    used = [{"member": "init", "program": "begin"}, {"member": "stop", "program": "end"}]
    plain = {"name": "plain", "type": "small_ops", "size": 24, "is_link": False, "is_created": True, "programs": used}
    asked = {"name": "asked", "type": "small_ops___newer", "size": 8, "is_link": True, "is_created": False, "programs": used[1:]}
    rows.expect("struct_ops, JSON", (told["struct_ops"][0], told["struct_ops"][2]), (plain, asked))
    rows.expect("struct_ops, JSON: no program", (told["struct_ops"][1]["programs"], told["struct_ops_error"]), ([], None))
    maps = {".struct_ops": [("plain", "small_ops", {"init": "begin", "flags": None, "stop": "end"})]}
    number = "the relocation at offset 0x8 of a section of struct_ops: the member is no pointer to a function"
    for name, data, types, reason in [
        ("without types", object_of_ops(maps, has_types=False), "no types", "the object has sections of struct_ops and no types"),
        ("with a program at a number", object_of_ops(maps, extra=(8, "end")), "6 types", number),
    ]:
        out = HEAD.replace("2 types", types) + programs_shown + f"STRUCT OPS not read: {reason}\n"
        told = listed(rows, f"struct_ops {name}", data, out)
        rows.expect(f"struct_ops {name}, JSON", (told["struct_ops"], told["struct_ops_error"]), (None, reason))


def records(rows):
    """Records, counted by type and kind."""
    asks = [Asks(MOVE, TYPE_SIZE, 2, "0"), Asks(MOVE, OFFSET, 2, "0:1"), Asks(MOVE, OFFSET, 2, "0:0"), Asks(MOVE, TYPE_SIZE, 1, "0")]
    shown = table("CO-RE RECORDS", 4, "COUNT  KIND       TYPE", "    1  type_size  int i", "    2  byte_off   struct s", "    1  type_size  struct s")
    types = [integer("i", 4), *S[1:]]
    head = HEAD.replace("0 CO-RE", "4 CO-RE")
    told = listed(rows, "records", object_of([program(*asks, EXIT)], types), head + programs((5, 5, 1, "kprobe", "kprobe/p", "p")) + shown)
    rows.expect("records, JSON", told["records"][1], {"kind": "byte_off", "type": "struct s", "count": 2})


def first_line(rows):
    """License, version, byte order, and an object without types."""
    code = lambda file: file.code("xdp", EXIT).symbol("p", FUNCTION, 3, 0, 8)
    shown = programs((1, 1, 1, "xdp", "xdp", "p"))
    line = lambda said, types="no types": f"object: little-endian, {said}, {types}, 0 CO-RE records\n\n"
    for license, said, told in [
        (b"GPL\0", 'license "GPL"', "GPL"),
        (b"Dual BSD/GPL\0", 'license "Dual BSD/GPL"', "Dual BSD/GPL"),
        (b'a"\x1b\\\0', r'license "a"\x1b\x5c"', 'a"\x1b\\'),
        ("ä\0".encode(), 'license "ä"', "ä"),
        (b"a\xff\x1b\0", r'license "a\xff\x1b"', "a\ufffd\x1b"),
        (b"\0", 'license ""', ""),
    ]:
        data = code(File()).data("license", license).bytes()
        found = listed(rows, f"license {license}", data, line(said) + shown)
        rows.expect(f"license {license}, JSON", found["license"], told)
    data = code(File()).data("version", (6 << 16 | 1 << 8 | 7).to_bytes(4, "little")).bytes()
    found = listed(rows, "a version", data, line("no license, version 6.1.7") + shown)
    rows.expect("a version, JSON", (found["kernel_version"], found["types"]), (6 << 16 | 1 << 8 | 7, None))
    big = File(BIG).data("license", b"GPL\0").bytes()
    listed(rows, "the other byte order", big, 'object: big-endian, license "GPL", no types, 0 CO-RE records\n\n')


def names(rows):
    """Names that would speak to a terminal."""
    speaks = object_of([Code("x\x1b/y", "p\n\u202e", [EXIT])])
    told = listed(rows, "names that speak", speaks, HEAD + programs((1, 1, 1, "-", r"x\x1b/y", r"p\x0a\xe2\x80\xae")))
    rows.expect("names that speak, JSON", (told["programs"][0]["section"], told["programs"][0]["name"]), ("x\x1b/y", "p\n\u202e"))


def refused(rows):
    """Words, files that are refused and ones that can't be read."""
    for given, sentence in {
        ("list",): "no FILE",
        ("list", "object", "other"): "one FILE, and not other",
        ("list", "object", "--all"): "no option --all",
        ("list", "object", "--program", "p"): "no option --program",
        ("list", "object", "--json=yes"): "--json takes no value",
    }.items():
        ran = rows.row(f"words {given}", given, 2, "", f"ebpf: {sentence}")
        rows.expect(f"words {given}: usage", ran.stderr.split("\n")[1], "usage: ebpf list FILE [--object N] [--html FILE] [--json] [--color WHEN]")
    rows.row("no such object to list", ["list", "nowhere"], 2, "", "ebpf: nowhere: No such file or directory (os error 2)")
    rows.write("big", File(BIG).code("kprobe/p", EXIT).symbol("p", FUNCTION, 3, 0, 8).bytes())
    rows.row("code of the other byte order", ["list", "big"], 1, "", "ebpf: big: the file is big-endian and has code (parse: BigEndianCode)")
    for given in [["list", "--help"], ["list", "-h"]]:
        ran = rows.row(f"words {given}", given, 0)
        rows.expect(f"words {given}: usage", ran.stdout.startswith("usage: ebpf list FILE [--object N] [--html FILE] [--json] [--color WHEN]\n\nLists "), True)
    rows.row("the version of list", ["list", "-V"], 0, "ebpf 0.4.0\n")


def compiled(rows):
    """An object that clang made, as docs/CLI.md shows it, and others by their numbers."""
    data = (TOP / "tests/drivers" / "test_rows" / "data" / "counter.o").read_bytes()
    shown = shown_output("ebpf list tests/drivers/test_rows/data/counter.o")
    listed(rows, "counter.o", data, shown.replace("tests/drivers/test_rows/data/counter.o:", "object:"))
    for version in [14, 19]:
        data = (TOP / "tests" / "objects" / f"kernel_parts_{version}.o").read_bytes()
        rows.write("object", data)
        told = json.loads(rows.row(f"clang {version}", ["list", "object", "-j"], 0).stdout)
        counts = [len(told[key]) for key in ["programs", "maps", "helpers", "externs", "kconfig", "unreached"]]
        rows.expect(f"clang {version}: counts", counts, [3, 2, 0, 4, 3, 0])
        rows.expect(f"clang {version}: records", sum(each["count"] for each in told["records"]), 22)


ROWS = [linked, sections, helpers, maps, externs, arenas, struct_ops, records, first_line, names, refused, compiled]

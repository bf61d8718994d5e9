"""What `ebpf inspect` prints: of objects that clang made beside the lines of `ebpf-inspect`, and of files made here."""
import json
import subprocess
from pathlib import Path

from checked.listing import table
from checked.objects import GLOBAL, WEAK, Asks, Code, Refers, address, call, function, helper, move, object_of, program
from checked.page import shown_output
from rows.btf import CONST, btf, datasec, integer, prototype, struct_of, ty, variable
from rows.btf import function as function_type
from rows.core_sides import OFFSET, S
from rows.elf import CALL32, EXIT, FUNCTION, LOAD64, NOTHING, File, slot

TOP = Path(__file__).parents[2]
DATA = TOP / "crates" / "example_library" / "data"
CHECK = TOP / "examples" / "check"
USAGE = "usage: ebpf inspect FILE [--object N] [--btf FILE] [--kallsyms FILE] [--kconfig FILE] [--kernel VERSION] [--program NAME ..] [--dot | --json | --mermaid] [--color WHEN]"
KEYS = ["name", "section", "type", "slots", "call_chain", "copies", "references", "maps", "helpers", "kernel_functions"]

# A load of the address of a function.
TAKEN = slot(0x18, 0x41)


def lines_of(told):
    """The lines of `ebpf-inspect`, of what JSON says."""
    for each in told["programs"]:
        yield f"program {each['name']} slots {each['slots']}"
        for copy in each["copies"]:
            yield f"copy {copy['base']} {copy['slots']} {copy['section']} {copy['address']:#x} {copy['name']}"
        for reference in each["references"]:
            yield f"ref {reference['slot']} {reference['base']} {reference['kind']}"


def rows_of(text, name):
    """The rows of a table of the text about a program."""
    if f"\n{name} " not in text:
        return []
    below = text.split(f"\n{name} ")[1].split("\n")[2:]
    return [line.split() for line in below[: next(at for at, line in enumerate(below) if not line.startswith("  "))]]


def lines_in(text):
    """The lines of `ebpf-inspect`, of what text says."""
    for part in text.split("\n\n")[1:]:
        part += "\n"
        name, slots = part.split(": ")[0], part.split(": ")[1].split(" ")[0]
        yield f"program {name} slots {slots}"
        for base, length, size, section, place, function in rows_of(part, "COPIES"):
            yield f"copy {base} {length} {section} {place} {function}" if int(size) == 8 * int(length) else part
        for place, base, kind, _, _ in rows_of(part, "REFERENCES"):
            yield f"ref {place} {base} {kind}"


def beside(rows):
    """Objects beside what `ebpf-inspect` says of them, with the same words."""
    symbols = ["--kallsyms", str(DATA / "kallsyms")]
    queue = [integer("int", 4), struct_of("rq", 4, ("cpu", 1, 0)), ty("", CONST, 2), variable("runqueues", 3)]
    rows.write("queue", btf(*queue, prototype(0), function_type("bpf_rcu_read_lock", 5)))
    words = {
        CHECK / "memdrop.o": [],
        TOP / "tests/drivers" / "test_rows" / "data" / "counter.o": [],
        TOP / "tests/drivers" / "test_rows" / "data" / "references.o": ["--btf", str(rows.folder / "queue"), *symbols],
        DATA / "watch.o": ["--btf", str(DATA / "kernel.btf"), *symbols],
        TOP / "crates" / "cli_inspect_program" / "data" / "call.o": [],
    }
    for kernel in ["5.18", "6.18"]:
        compare(rows, f"memdrop.o {kernel}", [str(CHECK / "memdrop.o"), "--btf", str(CHECK / "btf" / kernel)])
    for file, more in words.items():
        compare(rows, file.name, [str(file), *more])


def compare(rows, name, words):
    """An object by both programs."""
    plain = subprocess.run([rows.inspect, *words], stdin=subprocess.DEVNULL, capture_output=True, encoding="utf-8", timeout=120)
    text, told = rows.run("inspect", *words), rows.run("inspect", *words, "--json")
    rows.expect(f"{name}: statuses", (plain.returncode, text.returncode, told.returncode, text.stderr), (0, 0, 0, ""))
    wanted = plain.stdout.split("\n")[:-1]
    rows.expect(f"{name}: something is told", len(wanted) > 3, True)
    rows.expect(f"{name}: lines of JSON", list(lines_of(json.loads(told.stdout))), wanted)
    rows.expect(f"{name}: lines of text", list(lines_in(text.stdout)), wanted)


def inspected(rows, name, data, out, *words):
    """A row of an object: what is printed of it; what JSON says."""
    rows.write("object", data)
    rows.row(name, ["inspect", "object", *words], 0, out)
    ran = rows.row(f"{name}, JSON", ["inspect", "object", "--json", *words], 0)
    rows.expect(f"{name}, JSON: one line", ran.stdout.count("\n"), 1)
    told = json.loads(ran.stdout)
    limits = {"slots": 4096, "functions": 256, "call_chain": 8, "maps": 64}
    rows.expect(f"{name}, JSON: head", {key: told[key] for key in list(told)[:3]}, {"version": 2, "file": "object", "limits": limits})
    rows.expect(f"{name}, JSON: keys", [list(told), *map(list, told["programs"])], [["version", "file", "limits", "programs"], *[KEYS] * len(told["programs"])])
    return told["programs"]


ONE = table("PROGRAMS", 1, " SLOTS  FUNCS  CHAIN  MAPS  TYPE    SECTION   NAME", "1/4096  1/256    1/8  0/64  kprobe  kprobe/p  p")
SELF = "\np: 1 slots, 8 bytes\n" + table("COPIES", 1, "BASE  SLOTS  BYTES  SECTION  ADDRESS  NAME", "   0      1      8        3      0x0  p")


def one_program(rows):
    """An object of one slot, and one without programs."""
    told = inspected(rows, "one slot", object_of([program(EXIT)]), ONE + SELF)
    copy = {"base": 0, "slots": 1, "section": 3, "address": 0, "name": "p"}
    wanted = {"name": "p", "section": "kprobe/p", "type": "kprobe", "slots": 1, "call_chain": 1, "copies": [copy]}
    rows.expect("one slot, JSON", told, [{**wanted, **{key: [] for key in KEYS[6:]}}])
    rows.expect("no program, JSON", inspected(rows, "no program", object_of([function("f", EXIT)]), "PROGRAMS 0\n"), [])


def linked(rows):
    """A program with calls, maps, helpers, and a function of the kernel that may be absent."""
    types = [integer("int", 4), prototype(0), function_type("kf", 2), datasec(".ksyms", 3)]
    code = [
        program(address(1, "m"), call("f"), call("kf"), EXIT),
        Code("mine", "q", [helper(1), helper(300), EXIT]),
        function("f", address(1, "o"), helper(1), call("f"), EXIT),
    ]
    data = object_of(code, types, {"kf": WEAK}, maps={"m": 1, "n": 2, "o": 999})
    out = table(
        "PROGRAMS", 2,
        "  SLOTS  FUNCS      CHAIN  MAPS  TYPE    SECTION   NAME",
        "10/4096  2/256  recursive  2/64  kprobe  kprobe/p  p",
        " 3/4096  1/256        1/8  0/64  -       mine      q",
    )
    out += "\np: 10 slots, 80 bytes\n" + table(
        "COPIES", 2,
        "BASE  SLOTS  BYTES  SECTION  ADDRESS  NAME",
        "   0      5     40        3      0x0  p",
        "   5      5     40        5      0x0  f",
    ) + table("REFERENCES", 2, "SLOT  BASE  KIND  FROM  TO", "   2     5  call  p     f", "   8     5  call  f     f")
    out += table("MAPS", 2, "TYPE  NAME", "hash  m", "999   o") + table("HELPERS", 1, "NUMBER  NAME", "     1  bpf_map_lookup_elem")
    out += table("KERNEL FUNCTIONS", 1, "NAME", "kf")
    second = "\nq: 3 slots, 24 bytes\n" + table(
        "COPIES", 1, "BASE  SLOTS  BYTES  SECTION  ADDRESS  NAME", "   0      3     24        4      0x0  q"
    ) + table("HELPERS", 2, "NUMBER  NAME", "     1  bpf_map_lookup_elem", "   300  -")
    first, last = inspected(rows, "two programs", data, out + second)
    rows.expect("two programs, JSON: chain", (first["call_chain"], last["call_chain"]), (None, 1))
    rows.expect("two programs, JSON: maps", (first["maps"], last["maps"]), (["m", "o"], []))
    rows.expect("two programs, JSON: helpers", last["helpers"], [{"number": 1, "name": "bpf_map_lookup_elem"}, {"number": 300, "name": None}])
    rows.expect("two programs, JSON: kernel functions", (first["kernel_functions"], last["kernel_functions"]), (["kf"], []))
    rows.expect("two programs, JSON: type", last["type"], None)
    rows.expect("two programs, JSON: a reference", first["references"][1], {"slot": 8, "base": 5, "kind": "call"})
    alone = table("PROGRAMS", 1, " SLOTS  FUNCS  CHAIN  MAPS  TYPE  SECTION  NAME", "3/4096  1/256    1/8  0/64  -     mine     q")
    for words in [["--program", "q"], ["--program=q", "--program", "q"]]:
        inspected(rows, f"by name {words}", data, alone + second, *words)
    inspected(rows, "both by name", data, out + second, "--program=q", "--program=p")


def chains(rows):
    """The deepest chain of calls: by calls, and by addresses that are loaded."""
    taken = lambda name: Refers(TAKEN + NOTHING, name, LOAD64)
    many = lambda count: [function(f"f{at}", *([call(f"f{at + 1}")] if at + 1 < count else []), EXIT) for at in range(count)]
    deep = {
        "a call": ([program(call("f"), EXIT), function("f", EXIT)], 2),
        "a call twice": ([program(call("f"), call("f"), EXIT), function("f", EXIT)], 2),
        "nine in a row": ([program(call("f0"), EXIT), *many(8)], 9),
        "the longer of two ways": ([program(call("g"), call("f"), EXIT), function("f", call("g"), EXIT), function("g", EXIT)], 3),
        "two ways, turned": ([program(call("f"), call("g"), EXIT), function("f", call("g"), EXIT), function("g", EXIT)], 3),
        "an address": ([program(taken("f"), EXIT), function("f", call("g"), EXIT), function("g", EXIT)], 3),
        "an address of itself": ([program(call("f"), EXIT), function("f", taken("f"), call("g"), EXIT), function("g", EXIT)], 3),
        "addresses in a circle": ([program(taken("f"), EXIT), function("f", taken("g"), EXIT), function("g", taken("f"), call("h"), EXIT), function("h", EXIT)], 2),
        "itself": ([program(call("f"), EXIT), function("f", call("f"), EXIT)], None),
        "the program": ([program(call("p"), EXIT)], None),
        "a circle": ([program(call("f"), EXIT), function("f", call("g"), EXIT), function("g", call("f"), EXIT)], None),
        "a circle that an address leads to": ([program(taken("f"), EXIT), function("f", call("f"), EXIT)], None),
    }
    for name, (code, wanted) in deep.items():
        rows.write("object", object_of(code))
        told = json.loads(rows.row(f"chain: {name}", ["inspect", "object", "-j"], 0).stdout)
        rows.expect(f"chain: {name}, JSON", told["programs"][0]["call_chain"], wanted)
        line = rows.run("inspect", "object").stdout.split("\n")[2].split()
        rows.expect(f"chain: {name}, text", line[2], "recursive" if wanted is None else f"{wanted}/8")


def many(rows):
    """Programs past the limits: they are told all the same."""
    functions = [function(f"f{at}", EXIT) for at in range(300)]
    rows.write("object", object_of([program(*(call(f"f{at}") for at in range(300)), *[EXIT] * 4000), *functions]))
    ran = rows.row("past the limits", ["inspect", "object"], 0)
    rows.expect("past the limits: line", ran.stdout.split("\n")[2].split()[:4], ["4600/4096", "301/256", "2/8", "0/64"])
    maps = {f"m{at:02}": 2 for at in range(70)}
    rows.write("object", object_of([program(*(address(1, name) for name in maps), EXIT)], maps=maps))
    told = json.loads(rows.run("inspect", "object", "--json").stdout)["programs"][0]
    rows.expect("past the maps", (told["maps"], told["slots"]), (list(maps), 141))
    rows.expect("past the maps: line", rows.run("inspect", "object").stdout.split("\n")[2].split()[3], "70/64")


def kernels(rows):
    """Kernels' types and symbols, raw and in an ELF file."""
    types = [integer("int", 4), prototype(0), function_type("kf", 2), variable("kv", 0), datasec(".ksyms", 3, 4)]
    asks = Asks(slot(0xB7, 1), OFFSET, 2, "0:1")
    data = object_of([program(call("kf"), address(1, "kv"), EXIT)], types, {"kf": GLOBAL, "kv": GLOBAL})
    kernel = btf(integer("int", 4), prototype(0), function_type("kf", 2))
    rows.write("raw", kernel)
    rows.write("elf", File().data(".BTF", kernel).bytes())
    rows.write("symbols", b"ffffffff81000010 D kv\n")
    for name in ["raw", "elf"]:
        rows.write("object", data)
        told = json.loads(rows.row(f"types of {name}", ["inspect", "object", "--btf", name, "--kallsyms", "symbols", "-j"], 0).stdout)
        rows.expect(f"types of {name}: functions of the kernel", told["programs"][0]["kernel_functions"], ["kf"])
    rows.write("kernel", btf(*S))
    rows.write("object", object_of([program(asks, EXIT)]))
    rows.row("a record", ["inspect", "object", "--btf", "kernel"], 0)


def names(rows):
    """Names that would speak to a terminal, and that JSON escapes."""
    rows.write("object", object_of([Code("x\x1b/y", "p\n\u202e", [call('f"'), EXIT]), function('f"', EXIT)]))
    ran = rows.row("names that speak", ["inspect", "object"], 0)
    rows.expect("names that speak: program", r"  -     x\x1b/y  p\x0a\xe2\x80\xae" in ran.stdout.split("\n")[2], True)
    rows.expect("names that speak: size", "\np\\x0a\\xe2\\x80\\xae: 3 slots, 24 bytes\n" in ran.stdout, True)
    ran = rows.row("names that speak, JSON", ["inspect", "object", "--json"], 0)
    told = json.loads(ran.stdout)["programs"][0]
    found = (told["name"], told["section"], [copy["name"] for copy in told["copies"]])
    rows.expect("names that speak, JSON: read back", found, ("p\n\u202e", "x\x1b/y", ["p\n\u202e", 'f"']))
    rows.expect("names that speak, JSON: no controls", any(c in ran.stdout for c in "\x1b\u202e"), False)


def words(rows):
    """Words."""
    rows.write("object", object_of([program(EXIT)]))
    for given, sentence in {
        ("inspect",): "no FILE",
        ("inspect", "object", "other"): "one FILE, and not other",
        ("inspect", "object", "--all"): "no option --all",
        ("inspect", "object", "--btf"): "--btf needs a value",
        ("inspect", "object", "--kallsyms"): "--kallsyms needs a value",
        ("inspect", "object", "--program"): "--program needs a value",
        ("inspect", "object", "--btf=a", "--btf", "b"): "--btf is given twice",
        ("inspect", "object", "--kallsyms=a", "--kallsyms=a"): "--kallsyms is given twice",
        ("inspect", "object", "--json=yes"): "--json takes no value",
        ("list", "object", "--btf", "b"): "no option --btf",
        ("check", "object", "--kallsyms=b"): "no option --kallsyms=b",
    }.items():
        ran = rows.row(f"words {given}", given, 2, "", f"ebpf: {sentence}")
        if given[0] == "inspect":
            rows.expect(f"words {given}: usage", ran.stderr.split("\n")[1], USAGE)
    for given in [["--json", "inspect", "object"], ["inspect", "--json", "object"], ["inspect", "-j", "--", "object"]]:
        wanted = 2 if given[0] == "--json" else 0
        rows.expect(f"words {given}: status", rows.run(*given).returncode, wanted)
    for given in [["inspect", "--help"], ["inspect", "-h", "object"]]:
        ran = rows.row(f"words {given}", given, 0)
        rows.expect(f"words {given}: usage", ran.stdout.startswith(f"{USAGE}\n\nShows the parts of "), True)
    rows.row("the version of inspect", ["inspect", "-V"], 0, "ebpf 0.4.0\n")


def closed_output(rows):
    """An output whose reader is gone ends without a line."""
    for name, data in {"object": object_of([program(EXIT)]), "cut": b""}.items():
        rows.write(name, data)
    for given in [["inspect", "object"], ["inspect", "object", "--json"], ["list", "object"], ["list", "object", "-j"]]:
        with subprocess.Popen([rows.program, *given], cwd=rows.folder, stdout=subprocess.PIPE, stderr=subprocess.PIPE) as ran:
            ran.stdout.close()
            rows.expect(f"a closed output {given}", ran.stderr.read(), b"")
    with open("/dev/full", "w") as full:
        for given in [["inspect", "object"], ["inspect", "object", "--json"]]:
            ran = subprocess.run([rows.program, *given], cwd=rows.folder, stdout=full, stderr=subprocess.PIPE, encoding="utf-8")
            rows.expect(f"a full output {given}", (ran.returncode, ran.stderr), (2, "ebpf: cannot write: No space left on device (os error 28)\n"))


def shown(rows):
    """The example of docs/CLI.md."""
    data = (TOP / "tests/drivers" / "test_rows" / "data" / "counter.o").read_bytes()
    inspected(rows, "counter.o", data, shown_output("ebpf inspect tests/drivers/test_rows/data/counter.o"))


ROWS = [beside, one_program, linked, chains, many, kernels, names, words, closed_output, shown]

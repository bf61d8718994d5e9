"""How it is told: programs that count, source lines, values that change, settings, several kernels, JSON and the status."""
import json
import subprocess

from checked.objects import (
    GLOBAL,
    GONE,
    HAS_B,
    IS_THERE,
    JEQ,
    LACKS_B,
    NO_B,
    Asks,
    Code,
    address,
    call,
    found,
    function,
    helper,
    jump,
    move,
    object_of,
    one_kernel,
    program,
    told,
    wide,
)
from rows.btf import INT, btf, datasec, integer, pointer, struct_of, ty, variable
from rows.core_sides import INT_4, MOVE, OFFSET, S, SIZE, TYPE_SIZE, VARIANT_VALUE, enum64_of, enum_of
from rows.elf import BIG, CALL_CODE, EXIT, FUNCTION, File, slot

FINE = program(move(0, 0), EXIT)


def marked(rows):
    """Programs of sections whose name begins with `?` count where they are named."""
    breaks = lambda name: [found(NO_B, f"{name} slot 0")]
    second = Code("?kprobe/q", "q", [GONE, EXIT])
    both = object_of([FINE, second])
    one_kernel(rows, "a marked program", both, LACKS_B)
    one_kernel(rows, "a marked program by name", both, LACKS_B, breaks("q"), words=["--program", "q"])
    one_kernel(rows, "another one by name", both, LACKS_B, words=["--program=p"])
    one_kernel(rows, "both by name", both, LACKS_B, breaks("q"), count=2, words=["--program=q", "--program=p"])
    one_kernel(rows, "one by name twice", both, LACKS_B, breaks("q"), words=["--program=q", "--program=q"])
    turned = object_of([program(GONE, EXIT), Code("?kprobe/q", "q", [EXIT])])
    one_kernel(rows, "beside a marked program", turned, LACKS_B, breaks("p"))
    one_kernel(rows, "a marked program that runs, by name", turned, LACKS_B, words=["--program=q"])
    one_kernel(rows, "marked programs alone", object_of([second]), LACKS_B, count=0)
    attached = object_of([Code("?fentry/x", "p", [EXIT])])
    absent = [found("?fentry/x  <attach>  no such type x (a module's?)", "p")]
    one_kernel(rows, "a marked program's target", attached, LACKS_B, count=0)
    one_kernel(rows, "a marked program's target, by name", attached, LACKS_B, words=["--program=p"], untargeted=absent)
    shared = object_of([program(call("f"), EXIT), Code("?kprobe/q", "q", [call("f"), EXIT]), function("f", GONE, EXIT)])
    one_kernel(rows, "a function that a marked program shares", shared, LACKS_B, [found(NO_B, "p slot 2 (f+0)")])


def lined(code, *lines, functions=()):
    """An object whose slots have lines: each a slot of the program and a line."""
    return object_of([program(*code), *functions], lines=[(8 * slot, "/src/x.c", line) for slot, line in lines])


def source_lines(rows):
    """A load's line is that of the last record up to it; of a number that is loaded the first one from it on."""
    at = lambda slot, line: found(NO_B, f"p slot {slot}  x.c:{line}")
    load, number = [move(0, 0), GONE, move(0, 0), EXIT], [move(0, 0), Asks(MOVE, *OF_B), move(0, 0), EXIT]
    one_kernel(rows, "a line of its own", lined(load, (0, 6), (1, 7), (2, 8)), LACKS_B, [at(1, 7)])
    one_kernel(rows, "the line before", lined(load, (0, 6), (2, 8)), LACKS_B, [at(1, 6)])
    one_kernel(rows, "no line before", lined(load, (2, 8)), LACKS_B, [found(NO_B, "p slot 1")])
    one_kernel(rows, "no line at a line's slot", lined(load, (0, 6), (1, 0)), LACKS_B, [at(1, 6)])
    one_kernel(rows, "a number with a line of its own", lined(number, (0, 6), (1, 7), (2, 8)), LACKS_B, [at(1, 7)])
    one_kernel(rows, "the line behind a number", lined(number, (0, 6), (2, 8)), LACKS_B, [at(1, 8)])
    one_kernel(rows, "no line behind a number", lined(number, (0, 6)), LACKS_B, [at(1, 6)])
    two = [GONE, GONE, EXIT]
    one_kernel(rows, "two in one line", lined(two, (0, 6)), LACKS_B, [found(NO_B, "p slot 0  x.c:6", "p slot 1  x.c:6")])
    one_kernel(rows, "two in two lines", lined(two, (0, 7), (1, 6)), LACKS_B, [at(1, 6), at(0, 7)])
    guarded = [GONE, EXIT, GONE, EXIT]
    one_kernel(rows, "one reached and one not, in one line", lined(guarded, (0, 6)), LACKS_B, [at(0, 6)], [at(2, 6)])
    # The copy of a function has no line of its caller's.
    inner = lined([call("f"), EXIT], (0, 6), functions=[function("f", GONE, EXIT)])
    one_kernel(rows, "a function without lines", inner, LACKS_B, [found(NO_B, "p slot 2 (f+0)")])


OF_B = (OFFSET, 2, "0:1")
E_A = Asks(MOVE, VARIANT_VALUE, 1, "0")


def changed_value(name, own, *values):
    """What is told of a value: the object's own, and those of kernels."""
    lines = ["CHANGED (written; nothing to do)", f"  {name}  {own} in the object", *(f"    {value}" for value in values)]
    return "".join(f"{line}\n" for line in lines)


def changed(rows):
    """Enumerators, and sizes of numbers and pointers; and all values with `--all`."""
    values = object_of([program(E_A, EXIT)], [enum_of("e", ("A", 5))])
    name = "enum e.A"
    one_kernel(rows, "another value", values, btf(enum_of("e", ("A", 7))), more=changed_value(name, 5, "7 on kernel"))
    negative = btf(enum_of("e", ("A", 2**32 - 1), signed=1))
    one_kernel(rows, "a negative value", values, negative, more=changed_value(name, 5, "-1 on kernel"))
    large = btf(enum_of("e", ("A", 2**32 - 1)))
    one_kernel(rows, "a large value", values, large, more=changed_value(name, 5, "4294967295 on kernel"))
    of_64_bits = lambda value, signed: enum64_of("e", ("A", value), signed=signed)
    for signed, shown in [(0, 2**64 - 1), (1, -1)]:
        own = object_of([program(Asks(wide(1, 5), VARIANT_VALUE, 1, "0"), EXIT)], [of_64_bits(5, signed)])
        told = changed_value("enum64 e.A", 5, f"{shown} on kernel")
        one_kernel(rows, "a value of 64 bits", own, btf(of_64_bits(2**64 - 1, signed)), more=told)
    below = object_of([program(E_A, EXIT)], [enum_of("e", ("A", 2**32 - 5), signed=1)])
    told = changed_value(name, -5, "5 on kernel")
    one_kernel(rows, "a value that was negative", below, btf(enum_of("e", ("A", 5))), more=told)
    one_kernel(rows, "the same value", values, btf(enum_of("e", ("B", 4), ("A", 5))))
    one_kernel(rows, "the same value, and all is told", values, btf(enum_of("e", ("A", 5))), words=["--all"])
    unsigned = lambda size: ty("", INT, size, 8 * size)
    own, other = struct_of("i", 4, ("x", 1, 0)), struct_of("i", 16, ("x", 1, 0))
    local = [unsigned(4), own, pointer(0), struct_of("s", 24, ("a", 1, 0), ("i", 2, 64), ("p", 3, 128))]
    moved = struct_of("s", 48, ("a", 1, 128), ("i", 2, 192), ("p", 3, 0))
    kernel = btf(unsigned(8), other, pointer(0), moved)
    asking = lambda *question: object_of([program(Asks(MOVE, *question), EXIT)], local)
    told = changed_value("struct s.a  <byte_sz>", 4, "8 on kernel")
    one_kernel(rows, "a number's size", asking(SIZE, 4, "0:0"), kernel, more=told)
    one_kernel(rows, "a pointer's size", asking(SIZE, 4, "0:2"), kernel, words=["--all"])
    rest = [
        ("a struct's size", (SIZE, 4, "0:1"), changed_value("struct s.i  <byte_sz>", 4, "16 on kernel")),
        ("a whole struct's size", (TYPE_SIZE, 4, "0"), changed_value("struct s  <type_size>", 24, "48 on kernel")),
        ("a place", (OFFSET, 4, "0:0"), changed_value("struct s.a  <byte_off>", 0, "16 on kernel")),
    ]
    for title, question, told in rest:
        one_kernel(rows, title, asking(*question), kernel)
        one_kernel(rows, f"{title}, and all is told", asking(*question), kernel, more=told, words=["--all"])
    # Values of several kernels, each with those that have it.
    rows.write("object", values)
    for kernel, value in {"one": 7, "two": 5, "three": 7, "four": 6}.items():
        rows.write(kernel, btf(enum_of("e", ("A", value))))
    out = "".join(f"ok      1/1 programs  {kernel}\n" for kernel in ["one", "two", "three", "four"])
    told = changed_value(name, 5, "6 on four", "7 on one, three")
    out += f"\n{told}\nobject: ok on 4 of 4 kernels, 1 of 1 programs\n"
    rows.row("values of several kernels", ["check", "object", "one", "two", "three", "four"], 0, out)


SETTINGS = [integer("int", 4), variable("CONFIG_Z", 1), variable("CONFIG_A", 1), datasec(".kconfig", 2, 3)]


def settings(rows):
    """Settings are told, and break nothing; what they are isn't known."""
    asks = [address(1, "CONFIG_Z"), address(2, "CONFIG_A")]
    externs = {"CONFIG_Z": GLOBAL, "CONFIG_A": GLOBAL}
    wanted = "WANTED (of the kernel's configuration; not looked for)\n  CONFIG_Z\n  CONFIG_A\n"
    one_kernel(rows, "settings", object_of([program(*asks, EXIT)], SETTINGS, externs), LACKS_B, more=wanted)
    either = program(*asks, jump(JEQ, 1, 0, 2), helper(8), EXIT, helper(9), EXIT)
    kernel = btf(enum_of("bpf_func_id", ("BPF_FUNC_one", 1)))
    no = lambda number, slot: found(f"helper {number}  <helper>  no such helper function", f"p slot {slot}")
    breaks = [no(8, 5), no(9, 7)]
    one_kernel(rows, "what a setting decides", object_of([either], SETTINGS, externs), kernel, breaks, more=wanted)


def kernels(rows):
    """Findings on some kernels alone."""
    guards = program(IS_THERE, jump(JEQ, 1, 0, 1), GONE, EXIT, section="kprobe/q", name="q")
    rows.write("object", object_of([program(GONE, EXIT), guards]))
    rows.write("lacks", LACKS_B)
    rows.write("has", HAS_B)
    out = f"""breaks  1/2 programs  lacks
ok      2/2 programs  has

BREAKS
{found(NO_B, "p slot 0", on="on 1 of 2: lacks")}GUARDED (absent, not reached)
{found(NO_B, "q slot 2", on="on 1 of 2: lacks")}
object: breaks on 1 of 2 kernels, 1 of 2 programs
"""
    rows.row("two kernels", ["check", "object", "lacks", "has"], 1, out)
    lines = out.split("\n")
    turned = "\n".join([lines[1], lines[0], *lines[2:]])
    rows.row("two kernels, turned", ["check", "object", "has", "lacks"], 1, turned)
    # What an enumerator is decides which slot is reached.
    decides = program(Asks(MOVE, VARIANT_VALUE, 3, "0"), jump(JEQ, 1, 1, 2), GONE, EXIT, GONE, EXIT)
    rows.write("object", object_of([decides], [*S, enum_of("e", ("A", 1))]))
    for kernel, value in {"one": 1, "two": 2}.items():
        rows.write(kernel, btf(INT_4, struct_of("s", 4, ("a", 1, 0)), enum_of("e", ("A", value))))
    first, second = "on 1 of 2: two", "on 1 of 2: one"
    out = f"""breaks  1/1 programs  one
breaks  1/1 programs  two

BREAKS
{found(NO_B, f"p slot 2  ({first})", f"p slot 4  ({second})", on="on 2 of 2")}GUARDED (absent, not reached)
{found(NO_B, f"p slot 2  ({second})", f"p slot 4  ({first})", on="on 2 of 2")}{changed_value("enum e.A", 1, "2 on two")}
object: breaks on 2 of 2 kernels, 1 of 1 programs
"""
    rows.row("places on some kernels", ["check", "object", "one", "two"], 1, out)


def statuses(rows):
    """0, 1, 2, and 2 over 1: in JSON too."""
    rows.write("object", object_of([program(GONE, EXIT)]))
    rows.write("lacks", LACKS_B)
    rows.write("has", HAS_B)
    rows.write("untyped", b"no types")
    sentence = "ebpf: untyped: neither BTF nor an ELF file"
    lines = {
        "lacks": "breaks  1/1 programs  lacks",
        "has": "ok      1/1 programs  has",
        "untyped": "unread  -/1 programs  untyped",
    }
    last = {
        ("has",): (0, "ok on 1 of 1 kernels, 1 of 1 programs"),
        ("lacks",): (1, "breaks on 1 of 1 kernels, 1 of 1 programs"),
        ("untyped",): (2, "no kernel to tell of; 1 not read"),
        ("has", "untyped"): (2, "ok on 1 of 1 kernels, 1 of 1 programs; 1 not read"),
        ("lacks", "untyped"): (2, "breaks on 1 of 1 kernels, 1 of 1 programs; 1 not read"),
        ("untyped", "lacks"): (2, "breaks on 1 of 1 kernels, 1 of 1 programs; 1 not read"),
        ("untyped", "lacks", "untyped", "has"): (2, "breaks on 1 of 2 kernels, 1 of 1 programs; 2 not read"),
    }
    for given, (status, summary) in last.items():
        on = "on 1 of 2: lacks" if "has" in given else "on 1 of 1"
        breaks = f"BREAKS\n{found(NO_B, 'p slot 0', on=on)}\n" if "lacks" in given else ""
        out = "".join(lines[each] + "\n" for each in given) + f"\n{breaks}object: {summary}\n"
        said = sentence if "untyped" in given else ""
        rows.row(f"the status on {given}", ["check", "object", *given], status, out, said)
        ran = rows.row(f"the status on {given}, JSON", ["check", "object", *given, "--json"], status, err=said)
        rows.expect(f"the status on {given}: in JSON", json.loads(ran.stdout)["status"], status)


def refused_linking(rows):
    """A program that can't be linked breaks, and the others are told; an extern that isn't declared refuses all."""
    runs = program(move(0, 0), EXIT, section="kprobe/q", name="q")
    breaks = program(GONE, EXIT, section="kprobe/r", name="r")
    # A call of what stands 48 bytes into the section.
    refused = program(slot(CALL_CODE, 0x10, imm=5), EXIT)
    sentence = 'calls: function "p": "p" refers to address 0x30, where no function begins'
    told = [found(f"program p  <linking>  {sentence}", "p"), found(NO_B, "r slot 0")]
    three = object_of([refused, runs, breaks])
    one_kernel(rows, "a refused linking", three, LACKS_B, told, breaking=2, count=3)
    one_kernel(rows, "beside a refused linking", three, LACKS_B, told[1:], count=2, words=["--program=q", "--program=r"])
    undeclared = object_of([program(call("x"), EXIT), runs], externs={"x": GLOBAL})
    sentence = 'externs: function "p": no extern "x" is declared in the BTF section .ksyms'
    told = [found(f"all programs  <linking>  {sentence}")]
    one_kernel(rows, "an extern that isn't declared", undeclared, LACKS_B, told, breaking=2, count=2)


def whole_json(rows):
    """All keys of one object, read back."""
    code = [Asks(MOVE, VARIANT_VALUE, 3, "0"), call("f"), EXIT, GONE, EXIT]
    types = [*S, enum_of("e", ("A", 5)), variable("CONFIG_HZ", 1), datasec(".kconfig", 4)]
    parts = [program(*code), Code("?kprobe/q", "q", [EXIT]), function("f", move(0, 0), GONE, EXIT)]
    rows.write("object", object_of(parts, types, {"CONFIG_HZ": GLOBAL}, lines=[(0, "/src/x.c", 6), (24, "/src/y.c", 9)]))
    rows.write("lacks", btf(INT_4, struct_of("s", 4, ("a", 1, 0)), enum_of("e", ("A", 2**32 - 2), signed=1)))
    rows.write("itself", btf(*types[:3]))
    rows.write("bad\n\"", b"no types")
    said = 'ebpf: bad\\x0a": neither BTF nor an ELF file'
    ran = rows.row("all of JSON", ["check", "object", "lacks", "bad\n\"", "itself", "--json"], 2, err=said)
    rows.expect("all of JSON: one line", ran.stdout.count("\n"), 1)
    asked = {"name": "struct s.b", "kind": "byte_off", "kinds": ["byte_off"], "reason": "no such member", "kernels": ["lacks"]}
    inside = {"program": "p", "slot": 6, "function": "f", "function_slot": 1, "kernels": ["lacks"]}
    own = {"program": "p", "slot": 3, "file": "/src/y.c", "line": 9, "kernels": ["lacks"]}
    values = [{"value": -2, "kernels": ["lacks"]}]
    wanted = {
        "version": 2,
        "file": "object",
        "status": 2,
        "programs": [{"name": "p", "section": "kprobe/p"}],
        "kernels": [
            {"name": "lacks", "breaks": ["p"]},
            {"name": "bad\n\"", "error": "neither BTF nor an ELF file"},
            {"name": "itself", "breaks": []},
        ],
        "breaks": [{**asked, "places": [inside]}],
        "guarded": [{**asked, "places": [own]}],
        "changed": [{"name": "enum e.A", "kind": "enumval_value", "own": 5, "values": values}],
        "kconfig": ["CONFIG_HZ"],
    }
    rows.expect("all of JSON: read back", json.loads(ran.stdout), wanted)


def names(rows):
    """Names of types and programs that would speak to a terminal, or are no text."""
    size = Asks(MOVE, TYPE_SIZE, 1, "0")
    shown = lambda name, program="p": [found(f"struct {name}  <type_size>  no such type (a module's?)", f"{program} slot 0")]
    speaks = object_of([program(size, EXIT)], [struct_of("s\x1b\u202e\x9b\\", 4)])
    one_kernel(rows, "a type's name that speaks", speaks, LACKS_B, shown(r"s\x1b\xe2\x80\xae\xc2\x9b\x5c"))
    no_text = object_of([program(size, EXIT)], [struct_of("s??", 4)]).replace(b"s??", b"s\xff\xfe")
    one_kernel(rows, "a type's name that is no text", no_text, LACKS_B, shown("s\ufffd\ufffd"))
    called = object_of([program(size, EXIT, name="p\n\x7f")], [struct_of("t", 4)])
    one_kernel(rows, "a program's name that speaks", called, LACKS_B, shown("t", r"p\x0a\x7f"))
    ran = rows.run("check", "object", "kernel", "--json")
    rows.expect("a program's name that speaks: in JSON", json.loads(ran.stdout)["kernels"][0]["breaks"], ["p\n\x7f"])
    rows.expect("a program's name that speaks: written", r"p\u000a\u007f" in ran.stdout, True)
    one_kernel(rows, "no name", object_of([program(size, EXIT)], [struct_of("", 4)]), LACKS_B, shown("<anon>"))


def unusual_files(rows):
    """Files that state no size, an object without types, and one of the other byte order with code."""
    data = object_of([program(GONE, EXIT)])
    out = told(1, 1, [found(NO_B, "p slot 0")])
    rows.write("object", data)
    rows.write("kernel", LACKS_B)
    for piped in ["object", "kernel"]:
        path = "/dev/stdin"
        given = [path if name == piped else name for name in ["object", "kernel"]]
        content = data if piped == "object" else LACKS_B
        words = [rows.program, "check", *given]
        ran = subprocess.run(words, cwd=rows.folder, input=content, capture_output=True, timeout=120)
        wanted = out.replace("object: ", f"{path}: ") if piped == "object" else out.replace("  kernel\n", f"  {path}\n", 1)
        rows.expect(f"a pipe as {piped}", (ran.returncode, ran.stdout.decode(), ran.stderr), (1, wanted, b""))
    typeless = File().code("fentry/x", helper(9) + EXIT).symbol("p", FUNCTION, 3, 0, 16).bytes()
    kernel = btf(enum_of("bpf_func_id", ("BPF_FUNC_one", 1)))
    breaks = [found("helper 9  <helper>  no such helper function", "p slot 0")]
    absent = [found("fentry/x  <attach>  no such type x (a module's?)", "p")]
    one_kernel(rows, "an object without types", typeless, kernel, breaks, untargeted=absent)
    rows.write("big", File(BIG).code("kprobe/p", EXIT).symbol("p", FUNCTION, 3, 0, 8).bytes())
    said = "ebpf: big: the file is big-endian and has code (parse: BigEndianCode)"
    rows.row("an object of the other byte order", ["check", "big", "kernel"], 1, "", said)
    rows.write("matches", object_of([program(Asks(MOVE, 13, 2, "0"), EXIT)]))
    said = "ebpf: matches: a CO-RE relocation has kind 13, and the known ones are 0 to 11 (parse: BtfError)"
    rows.row("an object with a record of no kind", ["check", "matches", "kernel"], 1, "", said)
    (rows.folder / "empty_folder").mkdir()
    said = "ebpf: empty_folder: Is a directory (os error 21)"
    rows.row("a folder as the object", ["check", "empty_folder", "kernel"], 2, "", said)
    (rows.folder / "links").mkdir()
    (rows.folder / "links" / "1").symlink_to("../kernel")
    (rows.folder / "links" / "2").symlink_to("nowhere")
    said = "ebpf: links/2: No such file or directory (os error 2)"
    ran = rows.row("links in a folder", ["check", "object", "links"], 2, err=said)
    lines = ["breaks  1/1 programs  links/1", "unread  -/1 programs  links/2"]
    rows.expect("links in a folder: lines", ran.stdout.split("\n")[:2], lines)


ROWS = [names, unusual_files, marked, source_lines, changed, settings, kernels, statuses, refused_linking, whole_json]

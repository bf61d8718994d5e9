"""What `ebpf link` prints: of objects that clang made beside what llvm-objdump says of them, of single instructions, and of
files made here."""
import re
import subprocess
from pathlib import Path

from checked import objdump
from checked.objects import GLOBAL, LACKS_B, WEAK, Asks, Code, Refers, address, call, function, go, helper, jump, move, object_of, program, wide
from checked.page import shown_output
from growths.inputs import KERNEL, LINES, TASKS
from rows.btf import btf, datasec, integer, prototype, variable
from rows.btf import function as function_type
from rows.core_sides import EXISTS, LOAD, MOVE, OFFSET, VARIANT_VALUE, WIDE, S, enum_of
from rows.elf import BIG, CALL_CODE, EXIT, FUNCTION, LOAD64, File, slot

TOP = Path(__file__).parents[2]
CRATES = TOP / "crates"
EXAMPLE = CRATES / "example_library" / "data"

# What objects that name something of a kernel are linked with.
WORDS = {
    "references": {"btf": KERNEL, "kallsyms": LINES},
    "watch": {"btf": (EXAMPLE / "kernel.btf").read_bytes(), "kallsyms": (EXAMPLE / "kallsyms").read_bytes()},
}

# The functions of an object whose symbols llvm-objdump leaves out for those of sections.
FUNCTIONS = {"call": {"kprobe/p": "p", ".text": "f"}}


def told(*copies, name="p"):
    """A program's lines: of each copy the name and its instructions, a wide one as a pair whose second is None."""
    place, shown = 0, []
    for of, *texts in copies:
        shown.append(f"<{of}>:\n")
        for text in texts:
            if isinstance(text, int):
                shown.append(f"; a.c:{text}\n")
                continue
            if text is not None:
                shown.append(f"{place:8}:  {text}\n")
            place += 1
    return f"program {name} slots {place}\n" + "".join(shown)


def linked(rows, name, data, out, kernel=None, kallsyms=None, words=()):
    """A row of an object: the instructions of its programs."""
    rows.write("object", data)
    options = []
    for option, content in [("btf", kernel), ("kallsyms", kallsyms)]:
        if content is not None:
            options += [f"--{option}", rows.write(f"given.{option}", content)]
    return rows.row(name, ["link", "object", *options, *words], 0, out)


def copies_of(out):
    """The copies of functions in what is printed: each a name, and lines by their slots in the function."""
    copies = []
    for line in out.split("\n"):
        head = re.fullmatch(r"<(.+)>:", line)
        text = re.fullmatch(r" *(\d+):  (.*)", line)
        if head:
            copies.append((head[1], []))
            start = None
        elif text:
            start = int(text[1]) if start is None else start
            copies[-1][1].append(objdump.Line(int(text[1]) - start, text[2]))
    return copies


def as_dumped(text):
    """An instruction as llvm-objdump has it, and whether linking wrote another one."""
    plain, _, note = text.partition("  ; ")
    helped = re.fullmatch(r"call bpf_\w+#(\d+)", plain)
    if note or re.match(r"call [a-z_]|r\d+ = (map|map_value|ksym|function) ", plain) and not helped:
        return None
    return f"call {int(helped[1]):#x}" if helped else objdump.without_target(plain)


def leads_right(line):
    """Whether an instruction that jumps in its function says to which slot."""
    jumps = re.search(r"goto ([+-]0x[0-9a-f]+)( <.+>)?$", line.text.partition("  ; ")[0])
    if not jumps:
        return True
    target = line.slot + 1 + int(jumps[1], 16)
    return (jumps[2] or "").endswith(f"+{target}>" if target else ">")


def dumped(rows):
    """Objects that clang made, beside what llvm-objdump 19 says of them before linking."""
    tool = objdump.tool()
    for name, path in objdump.OBJECTS.items():
        text = objdump.stored(f"{name}.txt")
        if tool:
            rows.expect(f"llvm-objdump of {name}", objdump.disassembled(tool, path), text)
        given = WORDS.get(name, {})
        ran = linked(rows, f"{name} linked", path.read_bytes(), None, given.get("btf"), given.get("kallsyms"))
        functions = {FUNCTIONS.get(name, {}).get(of, of): lines for of, lines in objdump.read(text).items()}
        copies = copies_of(ran.stdout)
        rows.expect(f"{name}: copies of all functions", {of for of, _ in copies}, set(functions))
        for of, lines in copies:
            before = functions[of]
            rows.expect(f"{name}, {of}: slots", [line.slot for line in lines], [line.slot for line in before])
            for line, other in zip(lines, before):
                wanted = as_dumped(line.text)
                place = f"{name}, {of}+{line.slot}"
                if wanted is not None:
                    rows.expect(place, wanted, objdump.without_target(other.text))
                rows.expect(f"{place}: where it leads", leads_right(line), True)


def wanted_text(each, text, atomic):
    """What is printed of an instruction of which llvm-objdump says a text, and another with `--mcpu=v4` where it is atomic:
    without that it knows of 32 bits the addition alone, and takes others for one, as it does numbers that are no operation."""
    number = int.from_bytes(each[4:8], "little")
    if each[0] not in objdump.ATOMIC:
        return text
    if number not in objdump.OPERATIONS:
        return "<unknown>"
    return text if number == 0 else atomic


def instructions(rows):
    """Instructions of each code, beside what llvm-objdump 19 says of them."""
    slots = objdump.instructions()
    texts, atomics = objdump.stored_texts("instructions.txt", slots), objdump.stored_texts("atomics_v4.txt", slots)
    tool = objdump.tool()
    if tool:
        rows.expect("llvm-objdump of instructions", objdump.told_each(tool, slots), texts)
        atomic = [each for each in slots if each[0] in objdump.ATOMIC]
        told = objdump.told_each(tool, atomic, "--mcpu=v4")
        rows.expect("llvm-objdump of atomic operations", told, objdump.stored_texts("atomics_v4.txt", atomic))
    texts = [wanted_text(*each) for each in zip(slots, texts, atomics)]
    # A call of a function of the program, and a load of its address, would be linked.
    kept = [(each, text) for each, text in zip(slots, texts) if (each[0], each[1] >> 4) not in [(CALL_CODE, 1), (objdump.WIDE, 4)]]
    ran = linked(rows, "instructions", objdump.code_of([each for each, _ in kept]), None)
    [(_, lines)] = copies_of(ran.stdout)
    found = objdump.texts_of(lines, [each for each, _ in kept])
    for (each, text), other in zip(kept, found):
        rows.expect(f"instruction {each.hex()}", as_dumped(other), text)


def jumps(rows):
    """Where jumps lead: to a slot of the function, to its first one, and nowhere out of it; half a load at a function's end."""
    code = [
        program(go(1), go(-2), jump(1, 1, 7, 0, 32), slot(0x06, imm=-2), slot(0xE5, 0, 1), call("f"), EXIT, slot(0x05, 0, -9)),
        function("f", go(-1), go(1), EXIT),
    ]
    out = told(
        ["p", "goto +0x1 <p+2>", "goto -0x2 <p>", "if w1 == 0x7 goto +0x0 <p+3>", "gotol -0x2 <p+2>", "may_goto +0x1 <p+6>", "call f", "exit", "goto -0x9"],
        ["f", "goto -0x1 <f>", "goto +0x1", "exit"],
    )
    linked(rows, "jumps", object_of(code), out)
    # A load of 64 bits whose second slot would be that of the next copy.
    halves = [program(call("f"), EXIT), function("f", go(0), slot(objdump.WIDE, 1)), function("g", EXIT)]
    linked(rows, "half a wide load", object_of(halves), told(["p", "call f", "exit"], ["f", "goto +0x0 <f+1>", "<unknown>"]))


def named(rows):
    """Calls and loads by name: helper functions, functions of the program, maps and their data."""
    code = [
        program(helper(1), helper(181), helper(211), helper(212), helper(-1), call("f"), address(1, "f"), EXIT),
        Code("xdp", "q", [address(2, "n"), address(3, "m"), Refers(wide(4, 4), "v", LOAD64), EXIT]),
        function("f", call("g"), EXIT),
        function("g", EXIT),
    ]
    first = told(
        ["p", "call bpf_map_lookup_elem#1", "call bpf_loop#181", "call bpf_cgrp_storage_delete#211", "call 0xd4", "call -0x1", "call f", "r1 = function f", None, "exit"],
        ["f", "call g", "exit"],
        ["g", "exit"],
    )
    second = told(["q", "r2 = map n", None, "r3 = map m", None, "r4 = map_value .bss + 4", None, "exit"], name="q")
    data = object_of(code, maps={"m": 1, "n": 2}, zeros="v")
    linked(rows, "names", data, f"{first}\n{second}")
    linked(rows, "one program", data, second, words=["--program", "q"])
    linked(rows, "both programs by name", data, f"{first}\n{second}", words=["--program=q", "--program", "p"])
    # Without a relocation nothing says of a load which map it means.
    bare = object_of([program(wide(1, 5, 1), wide(1, 5, 2), wide(1, 5), wide(1, -1 % 2**64), EXIT)], maps={"m": 1})
    texts = ["ld_pseudo\tr1, 0x1, 0x5", None, "ld_pseudo\tr1, 0x2, 0x5", None, "r1 = 0x5 ll", None, "r1 = -0x1 ll", None, "exit"]
    linked(rows, "loads without a name", bare, told(["p", *texts]))


def kernels(rows):
    """What is of the kernel, there and absent."""
    types = [integer("int", 4), prototype(0), function_type("kf", 2), function_type("gone", 2), variable("var", 0), datasec(".ksyms", 3, 4, 5)]
    held = {"kf": GLOBAL, "gone": WEAK, "var": GLOBAL}
    kernel = btf(integer("int", 4), prototype(0), function_type("kf", 2))
    code = [program(call("kf"), call("gone"), address(1, "var"), EXIT)]
    out = told(["p", "call ksym kf", "call ksym gone (absent)", "r1 = ksym var", None, "exit"])
    linked(rows, "of the kernel", object_of(code, types, held), out, kernel, b"ffffffff81000000 D var\n")
    held = {"kf": GLOBAL, "gone": WEAK, "var": WEAK}
    out = told(["p", "call ksym kf", "call ksym gone (absent)", "r1 = ksym var (absent)", None, "exit"])
    linked(rows, "absent in the kernel", object_of(code, types, held), out, kernel)


def records(rows):
    """Slots that CO-RE records wrote: values, what is absent, and slots of functions."""
    asks = [Asks(LOAD, OFFSET, 2, "0:1"), Asks(MOVE, OFFSET, 2, "0:1"), Asks(MOVE, EXISTS, 2, "0:1"), Asks(b"".join(WIDE), OFFSET, 2, "0:1")]
    code = [program(*asks, call("f"), EXIT), function("f", Asks(MOVE, OFFSET, 2, "0:0"), EXIT)]
    moved = btf(S[0], lambda strings: [strings.offset("s"), 4 << 24 | 2, 12, strings.offset("a"), 1, 32, strings.offset("b"), 1, 64])
    out = told(
        [
            "p",
            "r2 = *(u32 *)(r1 + 0x8)  ; CO-RE <byte_off> struct s.b: 4 -> 8",
            "r1 = 0x8  ; CO-RE <byte_off> struct s.b: 4 -> 8",
            "r1 = 0x1  ; CO-RE <field_exists> struct s.b: 1 -> 1",
            "r1 = 0x8 ll  ; CO-RE <byte_off> struct s.b: 4 -> 8",
            None,
            "call f",
            "exit",
        ],
        ["f", "r1 = 0x4  ; CO-RE <byte_off> struct s.a: 0 -> 4", "exit"],
    )
    linked(rows, "records", object_of(code), out, moved)
    plain = re.sub("  ; CO-RE.*", "", out).replace("0x8", "0x0").replace("r1 = 0x1", "r1 = 0x0").replace("r1 = 0x4", "r1 = 0x0")
    linked(rows, "records without a kernel", object_of(code), plain)
    poison = "call 0xbad2310"
    lacking = "CO-RE <byte_off> struct s.b: no such member"
    out = told(
        ["p", f"{poison}  ; {lacking}", f"{poison}  ; {lacking}", "r1 = 0x0  ; CO-RE <field_exists> struct s.b: 1 -> 0", f"{poison}  ; {lacking}", poison, "call f", "exit"],
        ["f", "r1 = 0x0  ; CO-RE <byte_off> struct s.a: 0 -> 0", "exit"],
    )
    linked(rows, "records of what is absent", object_of(code), out, LACKS_B)
    # Two records about one slot: the second one's value stands.
    twice = [program(Asks(b"", OFFSET, 2, "0:0"), Asks(MOVE, OFFSET, 2, "0:1"), EXIT)]
    both = "CO-RE <byte_off> struct s.a: 0 -> 4; CO-RE <byte_off> struct s.b: 4 -> 8"
    linked(rows, "two records about a slot", object_of(twice), told(["p", f"r1 = 0x8  ; {both}", "exit"]), moved)
    types = [integer("int", 4), enum_of("e", ("A", 5), ("B", 2**32 - 3), signed=1)]
    kernel = btf(integer("int", 4), enum_of("e", ("A", 2**32 - 1), ("B", 7), signed=1))
    code = [program(Asks(MOVE, VARIANT_VALUE, 2, "0"), Asks(MOVE, VARIANT_VALUE, 2, "1"), EXIT)]
    out = told(["p", "r1 = -0x1  ; CO-RE <enumval_value> enum e.A: 5 -> -1", "r1 = 0x7  ; CO-RE <enumval_value> enum e.B: -3 -> 7", "exit"])
    linked(rows, "values of enumerators", object_of(code, types), out, kernel)


def lines(rows):
    """Source lines above the instructions at which they begin, where they are asked for and change."""
    code = [program(move(0, 0), move(1, 1), call("f"), EXIT), function("f", EXIT)]
    at = [(0, "/src/a.c", 7), (8, "/src/a.c", 7), (16, "/src/a.c", 0), (24, "/src/a.c", 9)]
    data = object_of(code, lines=at)
    texts = ["r0 = 0x0", "r1 = 0x1", "call f", "exit"]
    linked(rows, "without lines", data, told(["p", *texts], ["f", "exit"]))
    out = told(["p", 7, *texts[:3], 9, "exit"], ["f", "exit"])
    linked(rows, "lines", data, out, words=["--lines"])
    linked(rows, "lines of nothing", object_of(code), told(["p", *texts], ["f", "exit"]), words=["--lines"])


def as_bytes(rows):
    """`--bytes`: what `ebpf-link` prints."""
    data = objdump.OBJECTS["call"].read_bytes()
    linked(rows, "bytes", data, (CRATES / "ebpf_link" / "stdout").read_text(), words=["--bytes"])
    for name, path in objdump.OBJECTS.items():
        given = dict(WORDS.get(name, {}), **({"btf": TASKS} if name == "counter" else {}))
        ran = linked(rows, f"bytes of {name}", path.read_bytes(), None, given.get("btf"), given.get("kallsyms"), ["--bytes", "--lines"])
        counts = [int(count) for count in re.findall(r"^program .* slots (\d+)$", ran.stdout, re.MULTILINE)]
        slots = len(re.findall(r"^[0-9a-f]{2}( [0-9a-f]{2}){7}$", ran.stdout, re.MULTILINE))
        rows.expect(f"bytes of {name}: each slot a line", (slots, ran.stdout.count("\n")), (sum(counts), sum(counts) + len(counts)))
        options = [word for option in given for word in [f"--{option}", f"given.{option}"]]
        other = subprocess.run([rows.link, "object", *options], cwd=rows.folder, capture_output=True, encoding="utf-8", timeout=120)
        rows.expect(f"bytes of {name}: as ebpf-link has them", ran.stdout, other.stdout)


def shown(rows):
    """Names that would speak to a terminal, and one that isn't UTF-8 in the types."""
    code = [Code("x\x1b/y", "p\n\u202e", [call("f\x07"), EXIT]), function("f\x07", go(-1), EXIT)]
    name = r"p\x0a\xe2\x80\xae"
    out = told([name, r"call f\x07", "exit"], [r"f\x07", r"goto -0x1 <f\x07>", "exit"], name=name)
    linked(rows, "names that speak", object_of(code), out)
    slots = ["85 10 00 00 01 00 00 00", "95 00 00 00 00 00 00 00", "05 00 ff ff 00 00 00 00", "95 00 00 00 00 00 00 00"]
    linked(rows, "names that speak, bytes", object_of(code), "".join(f"{line}\n" for line in [f"program {name} slots 4", *slots]), words=["--bytes"])
    spoken = object_of([program(EXIT)], lines=[(0, "/a\x1b/b\x1b.c", 3)])
    linked(rows, "a file's name that speaks", spoken, "program p slots 1\n<p>:\n; b\\x1b.c:3\n       0:  exit\n", words=["--lines"])


def refused(rows):
    """Words, files that are refused and ones that can't be read."""
    for given, sentence in {
        ("link",): "no FILE",
        ("link", "object", "other"): "one FILE, and not other",
        ("link", "object", "--all"): "no option --all",
        ("link", "object", "--json"): "no option --json",
        ("link", "object", "--bytes=yes"): "--bytes takes no value",
        ("link", "object", "--lines=1"): "--lines takes no value",
        ("link", "object", "--btf"): "--btf needs a value",
        ("link", "object", "--kallsyms"): "--kallsyms needs a value",
        ("link", "object", "--program"): "--program needs a value",
    }.items():
        ran = rows.row(f"words {given}", given, 2, "", f"ebpf: {sentence}")
        rows.expect(f"words {given}: usage", ran.stderr.split("\n")[1].startswith("usage: ebpf link FILE "), True)
    rows.row("no such object to link", ["link", "nowhere"], 2, "", "ebpf: nowhere: No such file or directory (os error 2)")
    rows.write("object", object_of([program(EXIT)]))
    for option in ["--btf", "--kallsyms"]:
        rows.row(f"no such file, {option}", ["link", "object", option, "nowhere"], 2, "", "ebpf: nowhere: No such file or directory (os error 2)")
    rows.row("no such program to link", ["link", "object", "--program", "q"], 2, "", "ebpf: object: no program q")
    rows.write("cut", b"\x7fELF\x02\x01")
    ran = rows.run("link", "cut")
    rows.expect("a refused object to link", (ran.returncode, ran.stdout, ran.stderr[:11]), (1, "", "ebpf: cut: "))
    rows.write("big", File(BIG).code("kprobe/p", EXIT).symbol("p", FUNCTION, 3, 0, 8).bytes())
    ran = rows.run("link", "big")
    rows.expect("code of the other byte order to link", (ran.returncode, ran.stdout), (1, ""))
    # A call of what stands 48 bytes into the section.
    rows.write("nowhere.o", object_of([program(slot(CALL_CODE, 0x10, imm=5), EXIT)]))
    ran = rows.run("link", "nowhere.o")
    rows.expect("a call that leads nowhere", (ran.returncode, ran.stdout, ran.stderr[:17]), (1, "", "ebpf: nowhere.o: "))
    for given in [["link", "--help"], ["link", "-h"]]:
        ran = rows.row(f"words {given}", given, 0)
        rows.expect(f"words {given}: usage", ran.stdout.startswith("usage: ebpf link FILE "), True)
    rows.row("the version of link", ["link", "-V"], 0, "ebpf 0.4.0\n")


def broad(rows):
    """Sections of any name, a program that is loaded only where it is asked for, and an object without one."""
    code = [Code("mine/x", "p", [EXIT]), Code("?xdp", "q", [EXIT])]
    linked(rows, "sections of any name", object_of(code), "program p slots 1\n<p>:\n       0:  exit\n\nprogram q slots 1\n<q>:\n       0:  exit\n")
    linked(rows, "no program to link", object_of([function("f", EXIT)]), "")


def closed_output(rows):
    """An output whose reader is gone ends without a line."""
    rows.write("object", object_of([program(*[move(0, 0)] * 5000, EXIT)]))
    for options in [[], ["--bytes"]]:
        with subprocess.Popen([rows.program, "link", "object", *options], cwd=rows.folder, stdout=subprocess.PIPE, stderr=subprocess.PIPE) as ran:
            ran.stdout.close()
            rows.expect(f"a closed output of link {options}", ran.stderr.read(), b"")


def documented(rows):
    """The example of docs/CLI.md."""
    out = shown_output("ebpf link memdrop.o --btf btf/6.18 --program on_tick --lines")
    rows.row("docs/CLI.md: ebpf link", ["link", "memdrop.o", "--btf", "btf/6.18", "--program", "on_tick", "--lines"], 0, out)


ROWS = [dumped, instructions, jumps, named, kernels, records, lines, as_bytes, shown, refused, broad, closed_output, documented]

"""What a loader asks for beside relocation: the types for the kernel, the types that programs are attached to, externs of
the kernel's configuration, and initial values of maps."""
from c_interface.runs import CallsRow
from growths.inputs import DRIVERS, SMALL
from rows.btf import ARRAY, DATASEC, ENUM, INT, array, btf, datasec, function, integer, pointer, prototype, struct_of, ty, typedef, variable
from rows import values
from rows.elf import OBJECT, PROGBITS, File

SIGNED, BOOL = 1 << 24, 4 << 24

# The bindings of an extern's symbol.
STRONG, WEAK = 0x10, 0x20

# The relocation of a value.
ABSOLUTE = 2


def scalar(name, size, bits=0):
    return ty(name, INT, size, bits | 8 * size)


# Types by the ids that variables of .kconfig are declared with; the last one is none that a configuration gives.
SCALARS = [
    integer("unsigned int", 4),
    scalar("_Bool", 1, BOOL),
    ty("libbpf_tristate", ENUM, 4, "no", 0, "yes", 1, "module", 2, entries=3),
    scalar("char", 1, SIGNED),
    scalar("long", 8, SIGNED),
    array(4, 8, 1),
    struct_of("other", 4, ("a", 1, 0)),
]
COUNT, FLAG, STATE, LETTER, LONG, TEXT, OTHER = range(1, 8)

# What is listed of a setting of such a type: its size, its kind, and whether its numbers are signed; and its alignment.
LISTED = {COUNT: (4, 3, 0), FLAG: (1, 0, 0), STATE: (4, 1, 0), LETTER: (1, 2, 1), LONG: (8, 3, 1), TEXT: (8, 4, 0)}
ALIGNED = {COUNT: 4, FLAG: 1, STATE: 4, LETTER: 1, LONG: 8, TEXT: 1}

SETTINGS = {
    "CONFIG_TEXT": (TEXT, WEAK),
    "CONFIG_FLAG": (FLAG, STRONG),
    "CONFIG_STATE": (STATE, WEAK),
    "CONFIG_LETTER": (LETTER, STRONG),
    "LINUX_KERNEL_VERSION": (COUNT, STRONG),
    "CONFIG_LONG": (LONG, WEAK),
    "CONFIG_COUNT": (COUNT, WEAK),
}


def declared(settings, more=()):
    """A file whose types declare these externs, behind others."""
    types = [*SCALARS, *more]
    first = len(types) + 1
    types += [variable(name, of) for name, (of, _) in settings.items()]
    types.append(datasec(".kconfig", *range(first, first + len(settings))))
    file = File().data(".BTF", btf(*types))
    for name, (_, binding) in settings.items():
        file.symbol(name, binding, 0, 0, 0)
    return file


def section_id(settings):
    return len(SCALARS) + len(settings) + 1


def setting_line(name, of, binding):
    size, kind, signed = LISTED[of]
    return f"setting {name} size {size} kind {kind} signed {signed} weak {int(binding == WEAK)}"


def setting_lists():
    lines = [setting_line(name, *row) for name, row in SETTINGS.items()]
    yield CallsRow("settings", (declared(SETTINGS).bytes(), b"", b""), ["open", "settings"], ["open 0", *lines, "settings 0"])
    yield CallsRow("no settings", (SMALL, b"", b""), ["open", "settings"], ["open 0", "settings 0"])
    yield CallsRow("settings of a closed handle", (SMALL, b"", b""), ["settings"], ["settings 3"])
    faults = [
        ("no variable", File().data(".BTF", btf(SCALARS[0], datasec(".kconfig", 1))), "settings 900 {type 1}"),
        ("no name", File().data(".BTF", btf(SCALARS[0], variable(999, 1), datasec(".kconfig", 2))), "settings 901 {offset 999}"),
        ("another name", declared({"OTHER": (COUNT, STRONG)}), "settings 902 OTHER"),
        ("another type", declared({"CONFIG_OTHER": (OTHER, WEAK)}), "settings 903 CONFIG_OTHER"),
    ]
    for name, file, said in faults:
        asked = [said.replace("settings", action, 1) for action in ("config", "number", "define")]
        actions = ["open", "settings", "config=CONFIG_X", "number=CONFIG_X:1", "define"]
        yield CallsRow(f"settings: {name}", (file.bytes(), b"", b""), actions, ["open 0", said, *asked])


# Texts of a configuration, and the digits that an extern gets of it, or the refusal.
CONFIGURED = [
    ("CONFIG_FLAG", "y", "01"),
    ("CONFIG_FLAG", "n", "00"),
    ("CONFIG_FLAG", "m", 907),
    ("CONFIG_STATE", "m", "02000000"),
    ("CONFIG_LETTER", "m", "6d"),
    ("CONFIG_LETTER", "-1", "ff"),
    ("CONFIG_LETTER", "128", 908),
    ("CONFIG_COUNT", "0x10", "10000000"),
    ("CONFIG_COUNT", "010", "08000000"),
    ("CONFIG_COUNT", "4294967296", 908),
    ("CONFIG_COUNT", '"10"', 907),
    ("CONFIG_COUNT", "", 907),
    ("CONFIG_LONG", "-2", "feffffffffffffff"),
    ("CONFIG_TEXT", '"abc"', "6162630000000000"),
    ("CONFIG_TEXT", '"abcdefgh"', "6162636465666700"),
    ("CONFIG_TEXT", '"abc', 907),
]


def configured():
    file = declared(SETTINGS).bytes()
    for name, text, wanted in CONFIGURED:
        said = [f"found 1 {wanted}", "config 0"] if isinstance(wanted, str) else [f"config {wanted} {name}"]
        config = f"# a comment\nCONFIG_FLAG2=n\n{name}={text}\n{name}=7\n".encode()
        yield CallsRow(f"{name}={text}", (file, b"", config), ["open", f"config={name}"], ["open 0", *said])
    config = b"LINUX_KERNEL_VERSION=7\n# CONFIG_FLAG is not set\n"
    for name in ("CONFIG_FLAG", "LINUX_KERNEL_VERSION"):
        yield CallsRow(f"no line of {name}", (file, b"", config), ["open", f"config={name}"], ["open 0", "found 0 ", "config 0"])
    for name in ("CONFIG_NONE", "", "\udcff"):
        actions = ["open", f"config={name}", f"number={name}:1"]
        yield CallsRow(f"no extern {name!r}", (file, b"", config), actions, ["open 0", "config 8", "number 8"])
    yield CallsRow("a value of a closed handle", (file, b"", config), ["config=CONFIG_FLAG", "number=CONFIG_FLAG:1"], ["config 3", "number 3"])
    numbers = [
        ("LINUX_KERNEL_VERSION", 0x60C00, "000c0600"),
        ("LINUX_KERNEL_VERSION", 2**32, 908),
        ("CONFIG_FLAG", 1, "01"),
        ("CONFIG_FLAG", 2, 908),
        ("CONFIG_STATE", 1, 907),
        ("CONFIG_TEXT", 1, 907),
        ("CONFIG_LONG", 2**64 - 1, "ff" * 8),
    ]
    for name, number, wanted in numbers:
        said = [f"value {wanted}", "number 0"] if isinstance(wanted, str) else [f"number {wanted} {name}"]
        yield CallsRow(f"{name} of {number}", (file, b"", b""), ["open", f"number={name}:{number}"], ["open 0", *said])


def laid_out(values):
    """The value of the map of settings, and the value of each of them: zeros where none is given."""

    def rank(name):
        of, _ = SETTINGS[name]
        return -ALIGNED[of], LISTED[of][0], name.encode()

    data = b""
    for name in sorted(SETTINGS, key=rank):
        of, _ = SETTINGS[name]
        data += bytes(-len(data) % ALIGNED[of]) + values.get(name, bytes(LISTED[of][0]))
    return data


def defined():
    file = declared(SETTINGS).bytes()
    strong = {"CONFIG_FLAG": b"\1", "CONFIG_LETTER": b"n", "LINUX_KERNEL_VERSION": bytes([0, 12, 6, 0])}
    all_of = {**strong, "CONFIG_TEXT": b"abc".ljust(8, b"\0"), "CONFIG_STATE": bytes([2, 0, 0, 0]), "CONFIG_LONG": b"\xff" * 8, "CONFIG_COUNT": b"\3\0\0\0"}

    def action(rows):
        return "define=" + ",".join(f"{name}:{value.hex()}" for name, value in rows)

    def row(name, rows, values):
        data = laid_out(values)
        line = (
            f"map .kconfig section 0 kind 5 type 2 key 4:0 value {len(data)}:{section_id(SETTINGS)} entries 1 flags 128 "
            f"extra 0 pinning 0 data {data.hex()}"
        )
        return CallsRow(name, (file, b"", b""), ["open", action(rows), "listed"], ["open 0", "define 0", line])

    yield row("all settings", all_of.items(), all_of)
    yield row("settings without the weak ones", strong.items(), strong)
    yield row("a setting that no extern has", [("CONFIG_NONE", b"\1"), *strong.items()], strong)
    yield row("a later setting over an earlier one", [("CONFIG_FLAG", b"\0\0"), *strong.items()], strong)
    few = {name: value for name, value in strong.items() if name != "CONFIG_LETTER"}
    faults = [
        ("no value", few.items(), "define 904 CONFIG_LETTER"),
        ("another size", [*strong.items(), ("CONFIG_FLAG", b"\0\0")], "define 905 CONFIG_FLAG {size 1 other_size 2}"),
        ("a name that is no text", [("\udcff", b""), *few.items()], "define 6"),
    ]
    for name, rows, said in faults:
        yield CallsRow(f"settings: {name}", (file, b"", b""), ["open", action(rows), "listed"], ["open 0", said])
    yield CallsRow("settings are defined of a closed handle", (file, b"", b""), ["define=\udcff:01"], ["define 3"])
    yield CallsRow("no settings to define", (SMALL, b"", b""), ["open", "define=CONFIG_FLAG:01", "listed"], ["open 0", "define 0"])
    large = {"CONFIG_TEXT": (len(SCALARS) + 1, WEAK), "CONFIG_TEXT2": (len(SCALARS) + 1, WEAK)}
    held = declared(large, more=[array(4, 0xFFFFFFFF, 1)]).bytes()
    yield CallsRow("settings are too large", (held, b"", b""), ["open", "define"], ["open 0", "define 906"])


# ---- initial values of maps

# The types of two maps, in front of others: `inner`, an array, and `outer`, an array of such maps with three values.
INNER_SIZE, OUTER_SIZE, VALUES = 32, 48, 24


def declared_maps(size=OUTER_SIZE, kind=12, key=7):
    """The types of the section .maps: an array, and a map of maps that begins behind it. The type of its keys' size is 7
    for 4 bytes, and 3 for 2."""
    types = [
        integer("unsigned int", 4),
        array(1, 2),
        pointer(2),
        array(1, kind),
        pointer(4),
        array(1, 4),
        pointer(6),
        struct_of("inner", INNER_SIZE, ("type", 3, 0), ("key_size", 7, 64), ("value_size", 7, 128), ("max_entries", 7, 192)),
        pointer(8),
        ty("", ARRAY, 0, 9, 1, 0),
        struct_of("", VALUES, ("type", 5, 0), ("key_size", key, 64), ("max_entries", 7, 128), ("values", 10, 192)),
        variable("inner", 8),
        variable("outer", 11),
    ]
    entries = [12, 0, INNER_SIZE, 13, INNER_SIZE, size]
    return [*types, ty(".maps", DATASEC, 0, *entries, entries=2)]


def holding(relocations, types):
    """A file with these types. The symbols are `inner`, `outer`, `other` in the section .maps and `away` behind it."""
    file = File().section(".maps", PROGBITS, 3, bytes(INNER_SIZE + OUTER_SIZE))
    file.symbol("inner", OBJECT, 3, 0, INNER_SIZE).symbol("outer", OBJECT, 3, INNER_SIZE, OUTER_SIZE)
    file.symbol("other", OBJECT, 3, 8, 8).symbol("away", OBJECT, 4, 0, 8)
    file.data(".BTF", btf(*types))
    return file.relocations(3, [(place, symbol, ABSOLUTE) for place, symbol in relocations])


def initial():
    first = INNER_SIZE + VALUES
    actions = ["open", "initial"]

    def row(name, relocations, *lines, answer="initial 0"):
        files = holding(relocations, declared_maps()).bytes(), b"", b""
        return CallsRow(f"initial values: {name}", files, actions, ["open 0", *lines, answer])

    yield row("two", [(first + 16, 1), (first, 1)], "slot outer 0 map inner", "slot outer 2 map inner")
    yield row("two at one place", [(first, 2), (first, 1)], "slot outer 0 map inner")
    yield row("none", [])
    faults = [
        ("no symbol", [(first, 9)], f"initial 820 {{offset {first} symbol 9}}"),
        ("in no map", [(first + 24, 1)], f"initial 821 {{offset {first + 24}}}"),
        ("another type of map", [(8, 1)], "initial 822 inner {kind 2}"),
        ("not in the section", [(first, 4)], "initial 823 outer"),
        ("no such map", [(first, 3)], "initial 825 outer"),
        ("before the values", [(INNER_SIZE + 8, 1)], f"initial 829 outer {{offset {INNER_SIZE + 8}}}"),
        ("at no whole value", [(first + 4, 1)], f"initial 830 outer {{offset {first + 4}}}"),
    ]
    for name, relocations, answer in faults:
        yield row(name, relocations, answer=answer)
    yield CallsRow("initial values of a closed handle", (SMALL, b"", b""), ["initial"], ["initial 3"])
    yield CallsRow("no initial values", (SMALL, b"", b""), ["open", "initial"], ["open 0", "initial 0"])


# ---- types for the kernel

def typed(*types, sections=()):
    """A file with these types, and sections of 8 bytes."""
    file = File().data(".BTF", btf(*types))
    for section in sections:
        file.data(section, bytes(8))
    return file.bytes()


def without_symbol():
    """A file whose types have a global variable that no symbol has the name of."""
    return typed(integer("int", 4), variable("v", 1), datasec(".data", 2), sections=[".data"])


def for_kernel():
    crate = DRIVERS / "test_kernel_types"
    digits = (crate / "stdout").read_text().split("\n")[0]
    yield CallsRow("types for the kernel", (crate / "data/memdrop.o", b"", b""), ["kernel_types"], [f"bytes {digits}", "kernel_types 0"])

    def row(name, file, *lines):
        return CallsRow(f"types for the kernel: {name}", (file, b"", b""), ["kernel_types"], list(lines))

    held = integer("int", 4)
    yield row("none", File().bytes(), "bytes ", "kernel_types 0")
    yield row("no file", b"nothing", "kernel_types 700")
    yield row("another magic", bytes(64), "kernel_types 701")
    yield row("no types", File().data(".BTF", b"nothing").bytes(), "kernel_types 720")
    yield row("no section", typed(held, variable("v", 1), datasec(".data", 2)), "kernel_types 740 .data {type 3}")
    yield row("no variable", typed(held, datasec(".data", 1), sections=[".data"]), "kernel_types 741 int {type 1}")
    yield row("no symbol", without_symbol(), "kernel_types 742 v {type 2}")
    other = struct_of("s", 4, ("a", 1, 0))
    yield row("a setting", typed(held, other, variable("CONFIG_S", 2), datasec(".kconfig", 3)), "kernel_types 743 CONFIG_S {type 3}")


# ---- targets

TARGETS = btf(
    integer("int", 4), prototype(1), function("f", 2), function("bpf_lsm_g", 2), function("bpf_iter_h", 2), typedef("btf_trace_t", 1), typedef("f", 1), function("f", 2)
)


def targets():
    rows = [
        ("xdp", 0, 0),
        ("", 0, 0),
        ("fentry", 1, 0),
        ("fentry/f", 2, 3),
        ("?fexit.s/vmlinux:f", 2, 3),
        ("freplace/f", 2, 3),
        ("lsm/g", 2, 4),
        ("iter/h", 2, 5),
        ("tp_btf/t", 2, 6),
        ("tp_btf/f", 3, 0),
        ("fmod_ret/none", 3, 0),
    ]
    for name, answer, number in rows:
        wanted = [f"answer {answer} type {number}", "target 0"]
        yield CallsRow(f"the target of '{name}'", (SMALL, TARGETS, b""), [f"target={name}"], wanted)
    yield CallsRow("a target among no types", (SMALL, b"types", b""), ["target=fentry/f"], ["target 200"])
    yield CallsRow("a target of no text", (SMALL, b"types", b""), ["target=\udcff"], ["target 6"])


# ---- variables

def named():
    file = values.variables()
    lines = ["variable a in .data at 0 size 4", "variable b in .data at 2 size 2"]
    actions = ["open", "variables", "read=a", "read=b", "read=c", "read=past", "read=other", "read=\udcff"]
    wanted = ["open 0", *lines, "variables 0", "bytes 00000000", "read 0", "bytes 0000", "read 0", *["read 10"] * 4]
    yield CallsRow("variables", (file, b"", b""), actions, wanted)
    actions = ["open", "data=.data:01020304", "read=b", "data=.data:010203", "data=data:01020304", "read=a"]
    wanted = ["open 0", "data 0", "bytes 0304", "read 0", "data 9", "data 5", "bytes 01020304", "read 0"]
    yield CallsRow("data of a map", (file, b"", b""), actions, wanted)
    yield CallsRow("variables of a closed handle", (file, b"", b""), ["variables", "read=a", "data=.data:01020304"], ["variables 3", "read 3", "data 3"])


def loaded():
    """A file with two settings, and maps with initial values."""
    types = declared_maps()
    count, text = len(types) + 1, len(types) + 3
    more = [
        integer("unsigned int", 4),
        scalar("char", 1, SIGNED),
        array(count + 1, 8, 1),
        variable("CONFIG_COUNT", count),
        variable("CONFIG_NAME", text),
        datasec(".kconfig", count + 3, count + 4),
    ]
    file = holding([(INNER_SIZE + VALUES, 1), (INNER_SIZE + VALUES + 16, 1)], [*types, *more])
    return file.symbol("CONFIG_COUNT", STRONG, 0, 0, 0).symbol("CONFIG_NAME", WEAK, 0, 0, 0).bytes()


def rows():
    return [*setting_lists(), *configured(), *defined(), *initial(), *for_kernel(), *targets(), *named()]

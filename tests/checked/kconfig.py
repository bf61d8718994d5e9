"""Externs that the kernel's configuration gives, of `ebpf link` and `ebpf inspect`: where they stand, the words that give
them values, and the refusals."""
from pathlib import Path

from checked.linking import linked, told
from checked.listing import table
from checked.objects import GLOBAL, WEAK, address, object_of, program
from checked.page import shown_output
from checked.refusing import refused
from rows.btf import CONST, ENUM, INT, array, btf, datasec, integer, prototype, struct_of, ty, variable
from rows.btf import function as function_type
from rows.elf import EXIT

TOP = Path(__file__).parents[2]
OBJECTS = TOP / "tests" / "objects"
VERSION = "LINUX_KERNEL_VERSION"
LARGER = "declare it with a larger integer, or a signed one"
CONFIG = b"CONFIG_HZ=250\n# CONFIG_HZ_1000 is not set\nCONFIG_HZ_250=y\n"

# The types of values.
BOOL = ty("_Bool", INT, 1, 4 << 24 | 8)
BYTE, SHORT, NUMBER, LARGE = [integer(f"u{8 * size}", size) for size in [1, 2, 4, 8]]
TRISTATE = ty("libbpf_tristate", ENUM, 4, "TRI_NO", 0, "TRI_YES", 1, "TRI_MODULE", 2, entries=3)


def wanting(kind, name, binding=GLOBAL):
    """An object whose program loads the address of one extern of a type."""
    code = [program(address(1, name), EXIT)]
    return object_of(code, [kind, variable(name, 1), datasec(".kconfig", 2)], {name: binding})


def one():
    """What is printed of such an object."""
    return told(["p", "r1 = map_value .kconfig + 0", None, "exit"])


def pair(first=GLOBAL, second=WEAK):
    """An object that wants the version and a number of eight bytes of the configuration, and has a map."""
    types = [NUMBER, LARGE, variable(VERSION, 1), variable("CONFIG_HZ", 2), datasec(".kconfig", 3, 4)]
    code = [program(address(1, VERSION), address(2, "CONFIG_HZ"), address(3, "a"), EXIT)]
    return object_of(code, types, {VERSION: first, "CONFIG_HZ": second}, {"a": 1})


def placed(rows):
    """Where externs stand in the map, which has its descriptor before the object's other map; zeros of weak ones."""
    rows.write("config", CONFIG)
    both = ["--kernel", "6.12", "--kconfig", "config"]
    out = told(["p", "r1 = map_value .kconfig + 8", None, "r2 = map_value .kconfig + 0", None, "r3 = map a", None, "exit"])
    linked(rows, "a version and a weak number", pair(), out, words=["--kernel=6.12.3"])
    linked(rows, "a version and a number", pair(second=GLOBAL), out, words=both)
    linked(rows, "a number and a weak version", pair(WEAK, GLOBAL), out, words=both[2:])
    linked(rows, "two weak externs", pair(WEAK, WEAK), out)
    slots = [
        "18 21 00 00 01 00 00 00", "00 00 00 00 08 00 00 00", "18 22 00 00 01 00 00 00", "00 00 00 00 00 00 00 00",
        "18 13 00 00 02 00 00 00", "00 00 00 00 00 00 00 00", "95 00 00 00 00 00 00 00",
    ]
    lines = "".join(f"{line}\n" for line in ["program p slots 7", *slots])
    linked(rows, "externs, bytes", pair(second=GLOBAL), lines, words=[*both, "--bytes"])
    ran = rows.row("externs, inspected", ["inspect", "object", *both], 0)
    shown = table("MAPS", 2, "TYPE   NAME", "array  .kconfig", "hash   a")
    rows.expect("externs, inspected: maps", ran.stdout.endswith(shown), True)
    plain = object_of([program(EXIT)])
    linked(rows, "words of an object without such externs", plain, told(["p", "exit"]), words=both)


def compiled(rows):
    """Objects that clang made: a strong version, and a weak number and a weak text of the configuration."""
    queue = [integer("int", 4), struct_of("rq", 4, ("cpu", 1, 0)), ty("", CONST, 2), variable("runqueues", 3)]
    kernel = btf(*queue, prototype(0), function_type("bpf_rcu_read_lock", 5))
    rows.write("config", b'CONFIG_DEFAULT_HOSTNAME="(none)"\n' + CONFIG)
    for version in [14, 19]:
        data = (OBJECTS / f"kernel_parts_{version}.o").read_bytes()
        for words in [["--kernel", "6.12"], ["--kernel=6.12.3", "--kconfig=config"]]:
            ran = linked(rows, f"clang {version} {words}", data, None, kernel, words=words)
            for place in [0, 8, 12]:
                rows.expect(f"clang {version} {words}: {place}", f" = map_value .kconfig + {place}\n" in ran.stdout, True)
        words = ["inspect", "object", "--btf", "given.btf"]
        strong = f"no value for the strong extern {VERSION}"
        refused(rows, f"clang {version}, no version", words, 1, "object", strong, "kconfig", "NoValue", "--kernel 6.12")


def taken(rows):
    """Values that externs of types take, and ones that they don't."""
    clash = 'what the configuration says of "{}" does not suit its type in .kconfig'
    range_of = 'the number that the configuration gives "{}" is out of range'
    declared = "declare it with the type that the configuration's value has: what may be `m` is an `enum libbpf_tristate`"
    for name, kind, config, words, variant, help in [
        ("CONFIG_A", BOOL, b"CONFIG_A=y\n", [], None, None),
        ("CONFIG_A", BOOL, b"CONFIG_A=m\n", [], "UnsuitedValue", declared),
        ("CONFIG_A", TRISTATE, b"CONFIG_A=m\n", [], None, None),
        ("CONFIG_A", BYTE, b"CONFIG_A=255\n", [], None, None),
        ("CONFIG_A", BYTE, b"CONFIG_A=0x100\n", [], "ValueOutOfRange", LARGER),
        ("CONFIG_A", NUMBER, b'CONFIG_A="1"\n', [], "UnsuitedValue", declared),
        (VERSION, BYTE, b"", ["--kernel", "0.0.300"], None, None),
        (VERSION, BYTE, b"", ["--kernel", "0.1.0"], "ValueOutOfRange", LARGER),
        (VERSION, SHORT, b"", ["--kernel", "0.255.255"], None, None),
        (VERSION, SHORT, b"", ["--kernel", "1.0"], "ValueOutOfRange", LARGER),
        (VERSION, TRISTATE, b"", ["--kernel", "6.12"], "UnsuitedValue", "declare it as an integer"),
        ("LINUX_HAS_BPF_COOKIE", BOOL, b"", ["--kernel", "5.15"], None, None),
        ("LINUX_HAS_BPF_COOKIE", BYTE, b"", ["--kernel", "5.14.300"], None, None),
        ("LINUX_HAS_SYSCALL_WRAPPER", BOOL, b"", ["--kernel", "255.255"], None, None),
    ]:
        row = f"{name} {config} {words}"
        words = [*words, "--kconfig", rows.write("config", config)]
        data = wanting(kind, name)
        if variant is None:
            linked(rows, row, data, one(), words=words)
            continue
        sentence = (range_of if variant == "ValueOutOfRange" else clash).format(name)
        words = ["inspect", rows.write("object", data), *words]
        refused(rows, row, words, 1, "object", sentence, "kconfig", variant, help)


def lacking(rows):
    """Strong externs without a value, by the words that are given, and what one can do."""
    rows.write("config", CONFIG)
    config, unset = ["--kconfig", "config"], "this configuration doesn't set it: declare it `__weak`"
    version = ["--kernel", "6.12"]
    for name, words, help in [
        (VERSION, [], "--kernel 6.12"),
        (VERSION, config, "--kernel 6.12"),
        ("LINUX_HAS_BPF_COOKIE", [], "--kernel 6.12"),
        ("LINUX_HAS_SYSCALL_WRAPPER", config, "--kernel 6.12"),
        ("LINUX_OTHER", [*version, *config], "no loader gives it a value: declare it `__weak`"),
        ("CONFIG_HZ", [], "--kconfig /boot/config-6.12"),
        ("CONFIG_HZ", version, "--kconfig /boot/config-6.12"),
        ("CONFIG_HZ_1000", config, unset),
        ("CONFIG_HZ_25", [*version, *config], unset),
    ]:
        row = f"no value of {name} {words}"
        sentence = f"no value for the strong extern {name}"
        words = ["inspect", rows.write("object", wanting(NUMBER, name)), *words]
        refused(rows, row, words, 1, "object", sentence, "kconfig", "NoValue", help)
        linked(rows, f"{row}, weak", wanting(NUMBER, name, WEAK), one(), words=words[2:])
    rows.write("object", pair())
    ran = rows.run("link", "object")
    said = f"ebpf: object: no value for the strong extern {VERSION} (kconfig: NoValue)\n  help: --kernel 6.12\n"
    rows.expect("no value to link", (ran.returncode, ran.stdout, ran.stderr), (1, "", said))


def undeclared(rows):
    """Externs that can't be defined, whatever words give."""
    kinds = "bool, tristate, char, integer and array of char"
    long = [BYTE, array(1, 2**32 - 1), variable("CONFIG_A", 2), variable("CONFIG_B", 2), datasec(".kconfig", 3, 4)]
    for name, types, sentence, variant, help in [
        (
            "no variable", [NUMBER, datasec(".kconfig", 1)], "BTF type 1, which an entry of .kconfig names, is no variable", "NotAVariable",
            "declare it as a variable with `__kconfig`, not as a function",
        ),
        (
            "no name", [NUMBER, variable(0x1000, 1), datasec(".kconfig", 2)],
            "BTF has no string at offset 0x1000, the name of an extern of .kconfig", "UnreadableName",
            "the type information is damaged: look at it with `bpftool btf dump file FILE`",
        ),
        (
            "another name", [NUMBER, variable("HZ", 1), datasec(".kconfig", 2)],
            'the extern "HZ" of .kconfig begins neither with CONFIG_ nor with LINUX_', "UnknownName",
            "name it as the kernel's configuration does, or as a value that loaders know",
        ),
        (
            "another type", [struct_of("s", 4), variable("CONFIG_S", 1), datasec(".kconfig", 2)],
            f'the extern "CONFIG_S" of .kconfig is of another type than {kinds}', "UnsupportedType",
            "declare it as `bool`, `enum libbpf_tristate`, `char`, an integer or `char NAME[N]`",
        ),
    ]:
        words = ["inspect", rows.write("object", object_of([program(EXIT)], types)), "--kernel", "6.12"]
        refused(rows, f"externs: {name}", words, 1, "object", sentence, "kconfig", variant, help)
    held = {"CONFIG_A": WEAK, "CONFIG_B": WEAK}
    words = ["inspect", rows.write("object", object_of([program(EXIT)], long, held))]
    sentence = "the externs of .kconfig are too large together: a map's value has 32 bits of size"
    refused(rows, "externs: too large", words, 1, "object", sentence, "kconfig", "TooLarge", "declare shorter arrays of char")


def versions(rows):
    """Versions that can't be read, and other words."""
    rows.write("object", wanting(NUMBER, VERSION))
    for text in ["6", "", "6.", ".12", "6.12.", "6.256", "256.0", "6.12.3.4", "v6.12", "6.12.3-rc1", "6.+12", "+6.12", "6.12.+3", "6.-1", "6.12.4294967296", " 6.12"]:
        said = f"ebpf: --kernel takes a version, as 6.12 or 6.12.3, and not {text}"
        for verb in ["link", "inspect"]:
            rows.row(f"{verb}: version {text!r}", [verb, "object", f"--kernel={text}"], 2, "", said)
    for text in ["0.0", "6.12", "6.12.0", "6.12.255", "6.12.256", "6.12.4294967295", "255.255.255", "06.012"]:
        rows.row(f"version {text!r}", ["link", "object", "--kernel", text], 0, one())
    for words, sentence in {
        ("link", "object", "--kernel"): "--kernel needs a value",
        ("link", "object", "--kconfig"): "--kconfig needs a value",
        ("inspect", "object", "--kernel=6.1", "--kernel=6.1"): "--kernel is given twice",
        ("inspect", "object", "--kconfig=a", "--kconfig", "b"): "--kconfig is given twice",
        ("list", "object", "--kernel=6.1"): "no option --kernel=6.1",
        ("check", "object", "--kconfig", "a"): "no option --kconfig",
    }.items():
        rows.row(f"words {words}", words, 2, "", f"ebpf: {sentence}")


def configurations(rows):
    """Configurations that can't be read, also of an object that wants none, and one of no line."""
    nowhere = ("No such file or directory (os error 2)", "file", "CannotRead")
    for name, data in {"object": wanting(NUMBER, "CONFIG_HZ"), "plain": object_of([program(EXIT)])}.items():
        rows.write(name, data)
        rows.write("config.gz", b"\x1f\x8b\x08")
        packed = ("compressed (gzip)", "file", "Compressed", "gzip -dc config.gz >config")
        refused(rows, f"{name}: a packed configuration", ["inspect", name, "--kconfig", "config.gz"], 2, "config.gz", *packed)
        refused(rows, f"{name}: no such configuration", ["inspect", name, "--kconfig=nowhere"], 2, "nowhere", *nowhere)
    for text in [b"CONFIG_HZ=1", b"#\n\nCONFIG_HZ=0x3E8\n", b"CONFIG_HZ=-1\nCONFIG_HZ=x\n", b"\xff\n\0\nCONFIG_HZ=0\n"]:
        rows.write("config", text)
        data = wanting(LARGE, "CONFIG_HZ")
        linked(rows, f"configuration {text}", data, one(), words=["--kconfig", "config"])


def documented(rows):
    """The example of docs/CLI.md."""
    said = shown_output("ebpf link tests/objects/kernel_parts_19.o")
    name = rows.write("tests/objects/kernel_parts_19.o", (OBJECTS / "kernel_parts_19.o").read_bytes())
    ran = rows.run("link", name)
    rows.expect("docs/CLI.md: a strong extern", (ran.returncode, ran.stdout, ran.stderr), (1, "", said))


ROWS = [placed, compiled, taken, lacking, undeclared, versions, configurations, documented]

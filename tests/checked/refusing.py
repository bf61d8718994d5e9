"""Refusals: the sentence of each, its stage and its error's name, what one can do, and the same as JSON."""
import json
from pathlib import Path

from checked.objects import GLOBAL, WEAK, Asks, Code, address, call, function, object_of, program
from rows.btf import btf, datasec, ext, integer, prototype, struct_of, variable
from rows.btf import function as function_type
from rows.core_sides import OFFSET, S
from rows.elf import BIG, CALL32, CALL_CODE, EXIT, FUNCTION, LOAD64, NOBITS, NOTHING, OBJECT, PROGBITS, File, changed, slot

TOP = Path(__file__).parents[2]
FINE = program(EXIT)

DAMAGED = "the file is cut or damaged: make it again, and look at it with `readelf -S`"
TYPES_DAMAGED = "the type information is damaged: look at it with `bpftool btf dump file FILE`"
LICENSE = 'declare `char LICENSE[] SEC("license") = "GPL";`'
STRIPPED = "don't strip symbols"
GIVE_TYPES = "give the kernel's types: `--btf /sys/kernel/btf/vmlinux`"
AS_THIS_KERNEL = "declare it as this kernel has it, or `__weak`"


def refused(rows, name, words, status, file, sentence, stage, variant, help=None):
    """A row of a refusal, as text and as JSON."""
    place = "" if stage == "file" else f" ({stage}: {variant})"
    said = f"ebpf: {file}: {sentence}{place}\n" + (f"  help: {help}\n" if help else "")
    ran = rows.run(*words)
    rows.expect(name, (ran.returncode, ran.stdout, ran.stderr), (status, "", said))
    ran = rows.run(*words, "--json")
    rows.expect(f"{name}, JSON: status and errors", (ran.returncode, ran.stderr), (status, said))
    rows.expect(f"{name}, JSON: one line", ran.stdout.count("\n"), 1)
    error = {"file": file, "stage": stage, "variant": variant, "text": sentence, "help": help}
    rows.expect(f"{name}, JSON", json.loads(ran.stdout), {"version": 2, "error": error})


def tiny():
    """A program of one slot, in section 3; its symbol is the first."""
    return File().code("kprobe/p", EXIT).symbol("p", FUNCTION, 3, 0, 8)


def text_section(*functions, size=16):
    """A text section of so many bytes, which is section 3, with functions at places with sizes."""
    file = File().code(".text", EXIT * (size // 8))
    for at, (place, length) in enumerate(functions):
        file.symbol(f"f{at}", FUNCTION, 3, place, length)
    return file.bytes()


def files():
    """Files that can't be parsed: the file, the sentence, the error and what one can do."""
    fine = tiny().bytes()
    big = File(BIG).code("kprobe/p", EXIT).symbol("p", FUNCTION, 3, 0, 8)
    of_maps = lambda name, size: tiny().section(name, PROGBITS, 3, bytes(size)).symbol("m", OBJECT, 4, 0, size).bytes()
    elf = lambda sentence, help=DAMAGED: (sentence, "ElfError", help)
    return {
        "empty": (b"", *elf("the file has fewer than the 64 bytes of an ELF header")),
        "no ELF file": (
            bytes(64),
            *elf("the file is no ELF file: it does not begin with 7f 45 4c 46", "give the object that `clang -g -O2 -target bpf -c` writes"),
        ),
        "of 32 bits": (changed(fine, 4, b"\1"), *elf("the file is no 64-bit ELF file", "compile with `-target bpf`")),
        "of no byte order": (changed(fine, 5, b"\3"), *elf("the file's byte order is neither little nor big endian")),
        "cut": (fine[:-64], *elf("the table of section headers passes the end of the file, or its headers have not 64 bytes")),
        "many sections": (
            changed(fine, 60, b"\0\0"),
            *elf("the file has extended section numbers, which are not read", "compile to fewer than 65,280 sections"),
        ),
        "short license": (
            tiny().data("license", b"G").bytes(),
            "the license, of 1 bytes, is no text with its only null byte at the end", "InvalidLicense", LICENSE,
        ),
        "open license": (
            tiny().data("license", b"GPL").bytes(),
            "the license, of 3 bytes, has no null byte at its end", "MissingLicenseNullTerminator", LICENSE,
        ),
        "short version": (
            tiny().data("version", b"abc").bytes(),
            "the section version has 3 bytes, and not 4", "InvalidKernelVersion",
            'declare `__u32 version SEC("version") = ..;`, or leave it out',
        ),
        "a section past the end": (
            tiny().data("mine", b"", size=1 << 20).bytes(),
            'section 4 "mine": a section\'s data pass the end of the file', "SectionError", DAMAGED,
        ),
        "a relocation of no symbol": (
            tiny().relocations(3, [(0, 0, CALL32)]).bytes(),
            'a relocation of section 3 "kprobe/p" names no symbol', "UnsupportedRelocationTarget", "compile the object again",
        ),
        "no whole slots": (
            File().code("kprobe/p", EXIT + bytes(4)).symbol("p", FUNCTION, 3, 0, 12).bytes(),
            'function "p" (symbol 1) of section 3 "kprobe/p" has 12 bytes, which are no whole slots', "InvalidProgramCode",
            "compile the object again",
        ),
        "two at one place": (
            text_section((0, 8), (0, 8)),
            'two functions of section 3 ".text" are at address 0x0', "SymbolTableConflict",
            "leave one of the two names of the function out",
        ),
        "a gap": (
            text_section((0, 8)),
            'no function of section 3 ".text" is at address 0x8, where its code goes on', "UnknownSymbol", STRIPPED,
        ),
        "past its section": (
            text_section((0, 24)),
            'symbol 1 "f0" has no bytes, or some outside its section', "InvalidSymbol",
            "`readelf -s` shows the symbol's address and size",
        ),
        "a short map": (
            of_maps("maps", 12),
            'the definition of the map "m" is too short or too large, or asks for another pinning than 0 and 1',
            "InvalidMapDefinition",
            "a map needs 20 bytes or more and pinning 0 or 1; a section of variables fewer than 4 GiB",
        ),
        "no symbol": (File().code("kprobe/p", EXIT).bytes(), 'no symbol is in the section "kprobe/p"', "NoSymbolsForSection", STRIPPED),
        "maps without types": (
            of_maps(".maps", 32),
            "maps are declared by BTF types, and the object has no section .BTF", "NoBTF", "compile with `-g`, and don't strip `.BTF`",
        ),
        "the other byte order": (big.bytes(), "the file is big-endian and has code", "BigEndianCode", "compile with `-target bpfel`"),
        "cut types": (
            tiny().data(".BTF", b"\x9f\xeb").bytes(),
            "the header of .BTF or .BTF.ext is cut or has another magic, or a part of it passes the end", "BtfError", TYPES_DAMAGED,
        ),
    }


def unparsed(rows):
    """Files that can't be parsed, of each command."""
    for name, (data, sentence, variant, help) in files().items():
        rows.write("object", data)
        for verb in ["inspect", "list", "check"]:
            refused(rows, f"{verb}: {name}", [verb, "object"], 1, "object", sentence, "parse", variant, help)


def packed(rows):
    """Compressed files, by their first bytes alone."""
    starts = {"gzip": (b"\x1f\x8b\x08", ".gz"), "xz": (b"\xfd7zXZ\0", ".xz"), "zstd": (b"\x28\xb5\x2f\xfd", ".zst")}
    rows.write("object", object_of([FINE]))
    for by, (start, end) in starts.items():
        commands = {
            f"a{end}": f"{by} -dc a{end} >a",
            "packed": f"{by} -dc packed >packed.unpacked",
            f"here.btf.tar{end}": f"tar -xf here.btf.tar{end}",
            f"a b{end}": f"{by} -dc 'a b{end}' >'a b'",
            f"it's{end}": f"""{by} -dc 'it'"'"'s{end}' >'it'"'"'s'""",
        }
        for name, help in commands.items():
            rows.write(name, start)
            sentence = f"compressed ({by})"
            for words in [["inspect", name], ["list", name], ["check", name, "object"], ["inspect", "object", "--btf", name]]:
                refused(rows, f"compressed {words}", words, 2, name, sentence, "file", "Compressed", help)
            refused(rows, f"compressed symbols {name}", ["inspect", "object", "--kallsyms", name], 2, name, sentence, "file", "Compressed", help)
            ran = rows.run("check", "object", name)
            rows.expect(f"a compressed kernel {name}", (ran.returncode, ran.stderr), (2, f"ebpf: {name}: {sentence}\n  help: {help}\n"))
            told = json.loads(rows.run("check", "object", name, "-j").stdout)
            rows.expect(f"a compressed kernel {name}, JSON", told["kernels"], [{"name": name, "error": sentence}])
    rows.write("-a.gz", b"\x1f\x8b")
    refused(rows, "a name that begins with a dash", ["inspect", "object", "--btf", "-a.gz"], 2, "-a.gz", "compressed (gzip)", "file", "Compressed", "gzip -dc ./-a.gz >./-a")


def unread(rows):
    """Files that can't be read, kernels' types that are none, and programs that aren't there."""
    nowhere = ("No such file or directory (os error 2)", "file", "CannotRead")
    rows.write("object", object_of([FINE, Code("xdp", "q\n", [EXIT])]))
    for words in [["inspect", "nowhere"], ["list", "nowhere"], ["check", "nowhere", "object"], ["inspect", "object", "--btf", "nowhere"]]:
        refused(rows, f"no such file {words}", words, 2, "nowhere", *nowhere)
    refused(rows, "no such symbols", ["inspect", "object", "--kallsyms=nowhere"], 2, "nowhere", *nowhere)
    (rows.folder / "folder").mkdir()
    refused(rows, "a folder", ["inspect", "folder"], 2, "folder", "Is a directory (os error 21)", "file", "CannotRead")
    for verb in ["inspect", "check"]:
        words = [verb, "object", "--program", "p", "--program", "r"]
        ran = rows.run(*words)
        rows.expect(f"{verb}: no such program", (ran.returncode, ran.stderr), (2, "ebpf: object: no program r\n  help: its programs: p, q\\x0a\n"))
        told = json.loads(rows.run(*words, "--json").stdout)["error"]
        wanted = {"file": "object", "stage": "file", "variant": "NoProgram", "text": "no program r", "help": "its programs: p, q\n"}
        rows.expect(f"{verb}: no such program, JSON", told, wanted)
    rows.write("bare", object_of([function("f", EXIT)]))
    refused(rows, "an object without programs", ["inspect", "bare", "--program=p"], 2, "bare", "no program p", "file", "NoProgram", "it has no program")
    kernels = {
        "none": (b"none", "neither BTF nor an ELF file", "NoTypes", "give /sys/kernel/btf/vmlinux, or a copy of another kernel's"),
        "code": (tiny().bytes(), "no section .BTF", "NoSection", "`pahole -J FILE` adds a section .BTF to a kernel that has debug information"),
        "turned": (btf(integer("int", 4), order=BIG), "types of the other byte order than the object's", "OtherByteOrder", None),
        "elf": (b"\x7fELF", "the file has fewer than the 64 bytes of an ELF header", "ElfError", None),
        "cut": (btf(integer("int", 4))[:20], "the header of .BTF or .BTF.ext is cut or has another magic, or a part of it passes the end", "InvalidHeader", None),
    }
    for name, (data, sentence, variant, help) in kernels.items():
        rows.write("kernel", data)
        refused(rows, f"types: {name}", ["inspect", "object", "--btf", "kernel"], 2, "kernel", sentence, "file", variant, help)


VOID = prototype(0)
TYPED = [integer("int", 4), VOID, function_type("kf", 2), datasec(".ksyms", 3)]
UNTYPED = [integer("int", 4), variable("kv", 0), datasec(".ksyms", 2)]
TYPED_VARIABLE = [integer("int", 4), variable("kv", 1), datasec(".ksyms", 2)]
SETTING = [integer("int", 4), variable("CONFIG_HZ", 1), datasec(".kconfig", 2)]
NEITHER = [integer("int", 4), VOID, function_type("other", 2), variable("other", 1)]
OTHER_TYPES = [integer("int", 4), prototype(1), function_type("kf", 2), struct_of("s", 4, ("a", 1, 0)), variable("kv", 4)]


def passes():
    """Objects that a pass refuses: the object, words, the kernel's types and symbols, the sentence, the stage, the error and
    what one can do."""
    kf = object_of([program(call("kf"), EXIT)], TYPED, {"kf": GLOBAL})
    kv = object_of([program(EXIT, address(1, "kv"), EXIT)], UNTYPED, {"kv": GLOBAL})
    typed = object_of([program(address(1, "kv"), EXIT)], TYPED_VARIABLE, {"kv": GLOBAL})
    weak_load = File().code("kprobe/p", slot(0x18, 1)).data(".BTF", btf(*UNTYPED)).symbol("kv", WEAK, 0, 0, 0).symbol("p", FUNCTION, 3, 0, 8)
    lost = File().code("kprobe/p", slot(0x18, 1) + NOTHING + EXIT).symbol("p", FUNCTION, 3, 0, 24)
    lost = lost.data("lirc_mode2/maps", bytes(24)).symbol("state_map", OBJECT, 4, 0, 24)
    far = File().code("kprobe/p", slot(0x18, 1, imm=0x7FFFFFFF) + NOTHING + EXIT).symbol("p", FUNCTION, 3, 0, 24)
    far = far.section(".bss", NOBITS, 3, b"", size=16).symbol("far", OBJECT, 4, 8, 8)
    unnamed = File().code("kprobe/p", slot(CALL_CODE, 0x10, imm=-1) + EXIT).symbol("p", FUNCTION, 3, 0, 16)
    unnamed = unnamed.code(".text", EXIT).symbol("f", FUNCTION, 4, 0, 8).symbol("g", OBJECT, 4, 0, 8)
    fields = object_of([program(Asks(slot(0x95), OFFSET, 2, "0:1"))])
    missing = "give the kernel's symbols, read as root: `--kallsyms /proc/kallsyms`; or declare it `__weak`"
    symbols = "give the lines of /proc/kallsyms: address, letter, name"
    lacks = "this kernel's types lack it (a module's aren't searched): declare it `__weak`"
    untold = "`readelf -r` shows the relocation, `llvm-objdump -d` the instruction"
    return {
        "types": (
            fields, btf(*S), None, 'section "kprobe/p": CO-RE relocation 0 is at instruction 0, and code 0x95 can\'t carry 4',
            "types", "InvalidInstruction", "read the field by `BPF_CORE_READ`",
        ),
        "no map": (
            lost.relocations(3, [(0, 2, LOAD64)]).bytes(), None, None,
            'function "p", slot 0: section 4 "lirc_mode2/maps" has symbol 2 "state_map" and no map',
            "maps", "SectionNotFound", 'maps stand in ".maps" or "maps", variables in ".data", ".rodata" or ".bss"',
        ),
        "a place in a map": (
            far.relocations(3, [(0, 2, LOAD64)]).bytes(), None, None,
            'function "p", slot 0: the load at offset 0x0 of section 3 "kprobe/p" refers to a place in a map past 2147483647',
            "maps", "MapAddressOverflow", "what is referred to lies 2 GiB or more into its section",
        ),
        "a type without types": (
            kf, None, None, 'the extern "kf" has a type, and the kernel\'s BTF is not given', "externs", "TypedKsymRequiresKernelBtf", GIVE_TYPES,
        ),
        "a function that isn't there": (
            kf, btf(*NEITHER), None, 'the kernel has no function "kf"', "externs", "FunctionNotFound",
            f"{lacks}, and ask `bpf_ksym_exists`",
        ),
        "another signature": (
            kf, btf(*OTHER_TYPES), None, 'the kernel\'s function "kf" has another signature', "externs", "IncompatibleFunctionSignature", AS_THIS_KERNEL,
        ),
        "a variable that isn't there": (typed, btf(*NEITHER), None, 'the kernel has no variable "kv"', "externs", "VariableNotFound", lacks),
        "another type": (
            typed, btf(*OTHER_TYPES), None, 'the kernel\'s variable "kv" has another type', "externs", "IncompatibleVariableType", AS_THIS_KERNEL,
        ),
        "a variable without symbols": (kv, None, None, 'the kernel has no variable "kv"', "externs", "VariableNotFound", missing),
        "a variable that symbols lack": (
            kv, None, b"0 T other\n", 'the kernel has no variable "kv"', "externs", "VariableNotFound",
            "these symbols lack it, or have no addresses (read /proc/kallsyms as root): declare it `__weak`",
        ),
        "two addresses": (
            kv, None, b"1000 D kv\n2000 D kv\n", 'the kernel\'s symbols have "kv" at 0x1000 and at 0x2000', "externs", "AmbiguousResolution",
            "the kernel has two things of that name: take another",
        ),
        "no address": (
            kv, None, b"here D kv\n", "a line of the kernel's symbols can't be parsed: invalid address: here", "externs", "KallsymsParseError", symbols,
        ),
        "no text": (
            kv, None, b"\xff\n", "the kernel's symbols can't be read: stream did not contain valid UTF-8", "externs", "KallsymsAccessError", symbols,
        ),
        "an extern that isn't declared": (
            object_of([program(EXIT, call("x"), EXIT)], externs={"x": GLOBAL}), None, None,
            'function "p", slot 1: no extern "x" is declared in the BTF section .ksyms', "externs", "ExternNotFound",
            "declare it with `__ksym` and compile with `-g`",
        ),
        "a setting": (
            object_of([program(EXIT, EXIT, address(1, "CONFIG_HZ"), EXIT)], SETTING, {"CONFIG_HZ": GLOBAL}), None, None,
            "no value for the strong extern CONFIG_HZ", "kconfig", "NoValue", "--kconfig /boot/config-6.12",
        ),
        "an extern on a lone slot": (
            weak_load.relocations(3, [(0, 1, LOAD64)]).bytes(), None, None,
            'function "p", slot 0: relocation 0 of section 3 "kprobe/p" is at offset 0x0, where no instruction can carry it',
            "externs", "InvalidRelocationOffset", untold,
        ),
        "a call of no id": (
            object_of([program(call("kv"), EXIT)], UNTYPED, {"kv": GLOBAL}), None, b"1000 D kv\n",
            'function "p", slot 0: the extern "kv" has no id or address of the kernel that its instruction needs', "externs", "UnresolvableSymbol",
            f"{GIVE_TYPES}; or declare it `__weak`",
        ),
        "a function elsewhere": (
            object_of([program(slot(CALL_CODE, 0x10, imm=5), EXIT)]), None, None,
            'function "p": "p" refers to address 0x30, where no function begins', "calls", "UnknownFunction",
            "the function isn't in this file: link the objects first, by `bpftool gen object`",
        ),
        "a symbol that is no function": (
            unnamed.relocations(3, [(0, 3, CALL32)]).bytes(), None, None,
            'function "p": a reference leads to symbol 3 "g", which names no function', "calls", "UnsupportedTextSymbol",
            "`readelf -s` shows the symbol; take the address of a function",
        ),
    }


def unprepared(rows):
    """Objects that a pass refuses."""
    for name, (data, kernel, symbols, sentence, stage, variant, help) in passes().items():
        words = ["inspect", rows.write("object", data)]
        if kernel is not None:
            words += ["--btf", rows.write("kernel", kernel)]
        if symbols is not None:
            words += ["--kallsyms", rows.write("symbols", symbols)]
        refused(rows, f"inspect: {name}", words, 1, "object", sentence, stage, variant, help)


def names(rows):
    """Names that would speak to a terminal, in refusals."""
    ran = rows.run("inspect", "no\x1b[31m\\where")
    rows.expect("a refused name", ran.stderr, "ebpf: no\\x1b[31m\\x5cwhere: No such file or directory (os error 2)\n")
    rows.write("a\u202e.xz", b"\xfd7zXZ\0")
    ran = rows.run("list", "a\u202e.xz", "--json")
    shown = r"a\xe2\x80\xae"
    rows.expect("a compressed name", ran.stderr, f"ebpf: {shown}.xz: compressed (xz)\n  help: xz -dc '{shown}.xz' >'{shown}'\n")
    rows.expect("a compressed name, JSON", json.loads(ran.stdout)["error"]["file"], "a\u202e.xz")
    rows.expect("a compressed name, JSON: no marks", "\u202e" in ran.stdout, False)
    rows.write("object", File().code("x\x1b/y", EXIT).bytes())
    ran = rows.run("list", "object", "--json")
    rows.expect("a refused section", json.loads(ran.stdout)["error"]["text"], 'no symbol is in the section "x\\u{1b}/y"')


ROWS = [unparsed, packed, unread, unprepared, names]

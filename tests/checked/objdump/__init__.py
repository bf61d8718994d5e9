"""What `llvm-objdump` 19 says of objects and of single instructions.

The texts beside this file are its own: `python3 -m checked.objdump LLVM_OBJDUMP`, run in tests/, writes them anew. Where
`llvm-objdump-19` is found, or the environment has another path of it in LLVM_OBJDUMP, the tests compare them with what it
says."""
import os
import re
import shutil
import subprocess
import tempfile
from dataclasses import dataclass
from pathlib import Path

from rows.elf import EXIT, FUNCTION, File, slot

HERE = Path(__file__).parent
CRATES = HERE.parents[2] / "crates"
DRIVERS = HERE.parents[1] / "drivers"

# The objects that crates have in data/, each once.
OBJECTS = {
    "call": CRATES / "ebpf_link/data/call.o",
    "counter": DRIVERS / "test_rows/data/counter.o",
    "memdrop": CRATES / "ebpf/data/memdrop.o",
    "references": DRIVERS / "test_rows/data/references.o",
    "watch": CRATES / "example_library/data/watch.o",
}

# Registers, offsets and numbers that each code is told with: destination 1 and source 2, among them offsets that change what
# an operation does, and a destination and a source that are no registers.
FIELDS = [
    (0x21, 0, 0), (0x21, 16, 7), (0x21, 1, 16), (0x21, 8, 32), (0x21, 32, 64), (0x21, -8, -1), (0x21, -0x8000, -0x80000000),
    (0xBB, 0, 1), (0x2C, 0, 16), (0xC1, 0, 16),
]

# Codes of atomic operations, the operations, and numbers that are none.
ATOMIC = [0xC3, 0xDB]
OPERATIONS = [0x00, 0x01, 0x40, 0x41, 0x50, 0x51, 0xA0, 0xA1, 0xE1, 0xF1]
NO_OPERATIONS = [0x02, 0xE0, 0x100]

# The code of a load of 64 bits.
WIDE = 0x18


def instructions():
    """Instructions of each code, each once; loads of 64 bits with an upper half."""
    found = []
    for code in range(256):
        for registers, offset, number in FIELDS:
            second = slot(0, imm=-1) if code == WIDE and offset == 0 and registers & 15 < 12 else b""
            found.append(slot(code, registers, offset, number) + second)
    for code in ATOMIC:
        for operation in [*OPERATIONS, *NO_OPERATIONS]:
            found += [slot(code, 0x21, 8, operation), slot(code, 0x21, -8, operation)]
    return list(dict.fromkeys(found))


@dataclass
class Line:
    """An instruction in a function, by its slot there."""

    slot: int
    text: str


def read(text):
    """The functions of what `llvm-objdump -d --no-show-raw-insn` says, by their names: labels within them aren't functions."""
    functions, lines, start = {}, None, 0
    for line in text.split("\n"):
        head = re.fullmatch(r"([0-9a-f]{16}) <(.+)>:", line)
        told = re.fullmatch(r" *(\d+):\t(.*)", line)
        if head and not head[2].startswith("LBB"):
            start = int(head[1], 16) // 8
            lines = functions.setdefault(head[2], [])
        elif told:
            lines.append(Line(int(told[1]) - start, told[2]))
    return functions


def disassembled(tool, path, *options):
    """What the tool says of an object, without the line that names the file."""
    words = [tool, "-d", "--no-show-raw-insn", *options, str(path)]
    told = subprocess.run(words, capture_output=True, encoding="utf-8", check=True, timeout=120).stdout
    return "\n".join(line for line in told.split("\n") if "file format" not in line).strip("\n") + "\n"


def code_of(slots):
    """An object with these instructions, each before an `exit`."""
    data = b"".join(each + EXIT for each in slots)
    return File().code("kprobe/p", data).symbol("p", FUNCTION, 3, 0, len(data)).bytes()


def told_each(tool, slots, *options):
    """What the tool says of each instruction."""
    with tempfile.NamedTemporaryFile(suffix=".o") as file:
        Path(file.name).write_bytes(code_of(slots))
        [lines] = read(disassembled(tool, file.name, *options)).values()
    return texts_of(lines, slots)


def texts_of(lines, slots):
    """The texts of instructions that stand each before an `exit`, by their slots, without where jumps lead."""
    by_slot = {line.slot: line.text for line in lines}
    texts, at = [], 0
    for each in slots:
        texts.append(without_target(by_slot.get(at, "")))
        at += len(each) // 8 + 1
    return texts


def without_target(text):
    """An instruction without where it leads."""
    return re.sub(r" <[^<> ]*>$", "", text) if text != "<unknown>" else text


def stored(name):
    return (HERE / name).read_text()


def stored_texts(name, slots):
    """What is stored of instructions: those that aren't are unknown."""
    known = dict(line.split(" ", 1) for line in stored(name).split("\n") if line)
    return [known.get(each.hex(), "<unknown>") for each in slots]


def tool():
    """The path of `llvm-objdump` 19, where there is one."""
    path = os.environ.get("LLVM_OBJDUMP") or shutil.which("llvm-objdump-19")
    if not path:
        return None
    version = subprocess.run([path, "--version"], capture_output=True, encoding="utf-8", timeout=60).stdout
    return path if "version 19." in version else None


def write_texts(name, slots, texts):
    """Stores what is said of instructions, but for those that are unknown."""
    told = zip(slots, texts)
    (HERE / name).write_text("".join(f"{each.hex()} {text}\n" for each, text in told if text != "<unknown>"))


def write(tool):
    """Stores what the tool says."""
    for name, path in OBJECTS.items():
        (HERE / f"{name}.txt").write_text(disassembled(tool, path))
    slots = instructions()
    write_texts("instructions.txt", slots, told_each(tool, slots))
    atomic = [each for each in slots if each[0] in ATOMIC]
    write_texts("atomics_v4.txt", atomic, told_each(tool, atomic, "--mcpu=v4"))

"""Objects that stand in executables: which are found, which is read, and what is said where none is chosen."""
import struct

from checked.listing import FINE
from checked.objects import object_of
from rows.elf import BIG, File

X86_64, AARCH64, BPF, NONE = 62, 183, 247, 0
EXECUTABLE, RELOCATABLE = 2, 1

# What is said of an object whose section headers end behind its file.
CUT = "ebpf: file: the table of section headers passes the end of the file, or its headers have not 64 bytes (parse: ElfError)"


def header(machine, kind=EXECUTABLE, order="<", wide=True):
    """The header of an ELF file without sections."""
    ident = bytes([0x7F, *b"ELF", 2 if wide else 1, 1 if order == "<" else 2, 1])
    return ident.ljust(16, b"\0") + struct.pack(f"{order}HHI", kind, machine, 1) + bytes(40)


def executable(*parts, machine=X86_64, order="<"):
    """An executable that holds parts, each at another offset from a multiple of 8."""
    data = header(machine, order=order)
    for number, part in enumerate(parts):
        data += b"\xcc" * (33 + number) + part
    return data + b"\xcc" * 100


def read(rows, name, data, wanted, *words, status=0):
    """A row of a file from which one object is read."""
    rows.write("file", data)
    rows.row(name, ["list", "file", *words], status, wanted)


def refused(rows, name, data, line, *words, status=2):
    """A row of a file from which none is read, for each command that reads one."""
    rows.write("file", data)
    said = f"ebpf: file: {line}\n"
    for command in ("list", "check", "inspect", "link"):
        ran = rows.row(f"{name}, {command}", [command, "file", *words], status, "", said.split("\n")[0])
        rows.expect(f"{name}, {command}: what is said", ran.stderr, said)


def listed(rows, data):
    """What is listed of an object by itself, as of the file `file`."""
    rows.write("file", data)
    return rows.row("an object by itself", ["list", "file"], 0).stdout


def found(rows):
    """One object, at whatever offset, of either order; one behind what looks like another."""
    first = object_of([FINE])
    wanted = listed(rows, first)
    read(rows, "one in an executable", executable(first), wanted)
    read(rows, "one in an executable, by its number", executable(first), wanted, "--object", "1")
    read(rows, "one in a big-endian executable", executable(first, machine=22, order=">"), wanted)
    read(rows, "one up to the end", header(AARCH64) + first, wanted)
    read(rows, "an object by its number", first, wanted, "--object=1")
    other = header(X86_64, RELOCATABLE)
    read(rows, "behind the header of another machine", executable(other, first), wanted)
    read(rows, "behind an executable for eBPF", executable(header(BPF), first), wanted)
    read(rows, "behind one of 32 bits", executable(header(BPF, RELOCATABLE, wide=False), first), wanted)
    read(rows, "in an executable of 32 bits", header(3, wide=False) + first, wanted)
    big = File(BIG).data("license", b"GPL\0").bytes()
    read(rows, "a big-endian one", executable(big), listed(rows, big))


def several(rows):
    """Two objects: neither is read without a number."""
    first, second = object_of([FINE]), object_of([FINE, FINE])
    data = executable(first, second)
    wanted = listed(rows, first)
    read(rows, "the first of two", data, wanted, "--object", "1")
    at = data.index(second)
    places = f"--object 1 ({len(first)} bytes at {data.index(first):#x}), --object 2 ({len(second)} bytes at {at:#x})"
    said = "is for x86-64 (machine 62) and holds 2 eBPF objects"
    refused(rows, "two", data, f"{said}\n  help: {places}")
    refused(rows, "the third of two", data, f"{said}, no object 3\n  help: {places}", "--object", "3")
    refused(rows, "number 0", data, f"{said}, no object 0\n  help: {places}", "--object", "0")


def none(rows):
    """No object, one that is cut short, and numbers that an object by itself lacks."""
    refused(rows, "none", executable(), "is for x86-64 (machine 62) and holds no eBPF object", status=1)
    refused(rows, "none, of a machine without a name", executable(machine=999), "is for machine 999 and holds no eBPF object", status=1)
    refused(rows, "a second of one", object_of([FINE]), "is one eBPF object, no object 2", "--object", "2")
    data = object_of([FINE])
    rows.write("file", header(X86_64) + data[:-8])
    rows.row("one cut short", ["list", "file"], 1, "", CUT)
    for word in ("x", "-1", "1x", ""):
        said = f"ebpf: --object takes a number, and not {word}"
        rows.row(f"the number {word!r}", ["list", "file", "--object", word], 2, "", said)


ROWS = [found, several, none]

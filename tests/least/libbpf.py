"""The test cases in the form that libbpf takes, and what it makes of them."""
import re
import struct

from least.runs import ENDLESS, run

SECONDS = 5

SYMTAB, REL, PROGBITS, ENTRIES = 2, 9, 1, {2: 24, 9: 16}

# What libbpf says of an instruction that doesn't have the object's own value.
OTHER_VALUE = re.compile(rb"prog 'p': relo #\d+: unexpected insn #(\d+) \([\w/]+\) value: got (?:\d+), exp (\d+) ->")


def headers(data):
    """Yields where each section header is."""
    (table,) = struct.unpack_from("<Q", data, 40)
    (count,) = struct.unpack_from("<H", data, 60)
    for number in range(count):
        if table + 64 * number + 64 <= len(data):
            yield table + 64 * number


def with_entry_sizes(data):
    """Returns an object whose sections have alignments and sizes of entries, as libelf asks for."""
    made = bytearray(data)
    for at in headers(data):
        (kind,) = struct.unpack_from("<I", data, at + 4)
        struct.pack_into("<QQ", made, at + 48, 8 if kind in (SYMTAB, REL, PROGBITS) else 1, ENTRIES.get(kind, 0))
    return bytes(made)


def first_code(data):
    """Returns where the section behind the tables is: the program, where there is one."""
    return struct.unpack_from("<Q", data, list(headers(data))[3] + 24)[0]


def with_value(data, slot, value):
    """Returns an object with another immediate or offset in a slot of its program."""
    at = first_code(data) + 8 * slot
    made = bytearray(data)
    if data[at] & 7 in (1, 2, 3):
        struct.pack_into("<H", made, at + 2, value & 0xFFFF)
        return bytes(made)
    struct.pack_into("<I", made, at + 4, value & 0xFFFFFFFF)
    if data[at] == 0x18:
        struct.pack_into("<I", made, at + 12, value >> 32)
    return bytes(made)


def slots(dump, held, types):
    """Returns what libbpf gives of an object over types: a status, slots and what it says."""
    ran = run(dump, held, "--btf", types, seconds=SECONDS)
    return ran.status, ran.out, ran.said.replace(str(types).encode(), b"TYPES")


def prepared(dump, data, held, kernel):
    """Writes an object whose instructions have its own values, as far as libbpf says them: it compares these."""
    data = with_entry_sizes(data)
    for _ in range(64):
        held.write_bytes(data)
        found = OTHER_VALUE.search(slots(dump, held, kernel)[2])
        if not found:
            return
        data = with_value(data, int(found[1]), int(found[2]))


def over(given, pair, folder, least):
    """Yields how libbpf's slots of a test case over the least types, and over those of bpftool, compare with its slots over
    the kernel's types: `same`, or what differs. Nothing where libbpf doesn't take the object over the kernel's types."""
    dump, held, kernel = given.dump[-1], folder / "object.o", folder / "kernel.btf"
    prepared(dump, pair.data, held, kernel)
    wanted = slots(dump, held, kernel)[:2]
    if wanted[0]:
        return
    if least:
        (folder / "least.btf").write_bytes(least)
        yield "ebpf", "same" if slots(dump, held, folder / "least.btf")[:2] == wanted else "other slots"
    if given.bpftool:
        made = run("bpftool", "gen", "min_core_btf", kernel, folder / "theirs.btf", held, seconds=SECONDS)
        if made.status:
            yield "bpftool", "no end" if made.status == ENDLESS else "no types"
        else:
            yield "bpftool", "same" if slots(dump, held, folder / "theirs.btf")[:2] == wanted else "other slots"

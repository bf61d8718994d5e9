"""Maps of struct_ops and arenas: the objects of tests/drivers/test_object_calls, and kernels whose types are made here."""
import re

from c_interface.builds import TOP
from c_interface.runs import CallsRow
from rows.btf import btf, integer, pointer, prototype, struct_of

DRIVER = TOP / "tests/drivers/test_object_calls/src"


def held(name):
    """The bytes of the object of a source of the driver."""
    text = re.search(r"const OBJECT: \[&str; \d+\] = \[(.*?)\];", (DRIVER / name).read_text(), re.DOTALL)[1]
    return bytes.fromhex("".join(re.findall(r'"([0-9a-f]+)"', text)))


def changed(data, *fields):
    """The bytes with some numbers in them changed: offset, width, value."""
    data = bytearray(data)
    for offset, width, value in fields:
        data[offset : offset + width] = value.to_bytes(width, "little")
    return bytes(data)


INT, LONG, POINTER, FUNCTION, STRUCT = 1, 2, 3, 5, 6
# Where the bytes of `linked` are, and `extra` of it as zero, which a kernel without this member asks for.
LINKED = 0x88
NO_EXTRA = (LINKED + 12, 4, 0)
# Where the relocations of `.struct_ops` are, and the index of a relocation's symbol in it.
RELOCATIONS, SYMBOL = 0x4D8, 12


def kernel(of_flags=INT, of_first=FUNCTION, fourth="flags", data=STRUCT, size=40, value=True):
    """`struct small_ops` with `flags` at 0, `first` at 8 and `second` at 16; it is at 8 of its value."""
    members = [("flags", of_flags, 0), ("first", of_first, 64), ("second", FUNCTION, 128), (fourth, INT, 192)]
    types = [integer("int", 4), integer("long", 8), pointer(0), prototype(0), pointer(4), struct_of("small_ops", 32, *members)]
    if value:
        types.append(struct_of("bpf_struct_ops_small_ops", size, ("extra", data, 64)))
    return btf(*types)


def row(name, fields, types, *lines):
    files = changed(held("struct_ops.rs"), *fields), types, b""
    return CallsRow(f"struct_ops: {name}", files, ["open_broad", "struct_ops"], ["open_broad 0", *lines])


def maps():
    plain = ["struct_ops plain link 0 struct 6 value 7", "program first at 16 for 1", "program second at 24 for 2"]
    linked = ["struct_ops linked link 1 struct 6 value 7", "program second at 24 for 2"]
    flags = "00000000000000000700000000000000" + 48 * "0"
    yield row("two maps", [NO_EXTRA], kernel(), *plain, flags, *linked, 80 * "0", "struct_ops 0")
    extra = 64 * "0" + "0300000000000000"
    yield row("a member more", [], kernel(fourth="extra"), *plain, flags, *linked, extra, "struct_ops 0")


def refusals():
    for name, types, answer in [
        ("another size", kernel(of_flags=LONG), "1287 flags"),
        ("another kind", kernel(of_flags=POINTER), "1284 flags"),
        ("no function", kernel(of_first=POINTER), "1286 first"),
        ("a short value", kernel(size=28), "1288 second"),
        ("no struct in the value", kernel(data=LONG), "1223 plain"),
        ("no value", kernel(value=False), "1222 bpf_struct_ops_small_ops"),
    ]:
        yield row(name, [NO_EXTRA], types, f"struct_ops {answer}")
    yield row("a missing member", [], kernel(), "struct_ops 1283 extra")
    yield row("no program", [NO_EXTRA, (LINKED + 7, 1, 1)], kernel(), "struct_ops 1285 first")
    yield row("another use", [NO_EXTRA, (RELOCATIONS + 32, 8, 0)], kernel(), "struct_ops 1224 second")
    for name, field, number, place in [
        ("no symbol", (RELOCATIONS + SYMBOL, 4, 99), 1260, 0),
        ("outside variables", (RELOCATIONS, 8, 24), 1261, 24),
        ("no member", (RELOCATIONS, 8, 4), 1262, 4),
        ("no pointer to a function", (RELOCATIONS, 8, 8), 1263, 8),
        ("no program", (RELOCATIONS + SYMBOL, 4, 7), 1264, 0),
        ("another program", (RELOCATIONS + SYMBOL, 4, 6), 1265, 0),
    ]:
        yield row(f"a relocation with {name}", [field], kernel(), f"struct_ops {number} {{offset {place}}}")


def arenas():
    data = held("arenas.rs")
    for name, fields, page, lines in [
        ("the data of an arena", [], 4096, ["complete 0", "arena arena section 5 extra 17592186044416 070000000800000009000000", "arenas 0"]),
        ("a page that is too small", [], 8, ["complete 1123 arena {size 12}", "arena arena section 6 extra 17592186044416 ", "arenas 0"]),
        ("no arena", [(0x168, 4, 2)], 4096, ["complete 1122", "arenas 0"]),
    ]:
        actions = ["open_broad", f"complete={page}", "arenas"]
        yield CallsRow(f"arenas: {name}", (changed(data, *fields), b"", b""), actions, ["open_broad 0", *lines])
    files = changed(data, (0x248, 4, 33)), b"", b""
    yield CallsRow("arenas: a second arena", files, ["open_broad", "complete=4096"], ["open_broad 0", "complete 1121 counts"])


def rows():
    return [*maps(), *refusals(), *arenas()]

"""An object whose file has the highest byte of each number first. Its instructions, its map structs and its relocations
by types are little endian all the same."""
from rows.btf import BIG, INT, Strings, btf, ext, struct_of, ty, type_words, with_strings, words
from rows.case import Case
from rows.core_sides import INT_4, LOAD, OFFSET
from rows.elf import CALL, CALL32, EXIT, FUNCTION, OBJECT, PROGBITS, File

# Types 1 and 2: an int, and `struct s { int a; int b; }`. In the kernel `b` stands 8 bytes behind the beginning.
S = [ty("int", INT, 4, 0x01000020), struct_of("s", 8, ("a", 1, 0), ("b", 1, 32))]
KERNEL = btf(INT_4, struct_of("s", 12, ("a", 1, 0), ("x", 1, 32), ("b", 1, 64)))

# The words of a map struct, and its id.
STRUCT = words([1, 2, 3, 4, 5, 0x80706])


def whole():
    """A program that loads `b` and calls a function; the map `m`, types, a relocation by types, and a version."""
    strings = Strings()
    numbers = type_words(S, strings)
    section, path = strings.offset("kprobe/p"), strings.offset("0:1")
    relocations = ext(relocations=[16, section, 1], records=[0, 2, path, OFFSET], order=BIG)
    file = File(BIG).code("kprobe/p", LOAD + CALL + EXIT).code(".text", EXIT).section("maps", PROGBITS, 3, STRUCT)
    file.data("version", b"\0\0\4\xd2").data(".BTF", with_strings(numbers, strings.data, BIG))
    file.data(".BTF.ext", relocations)
    file.symbol("p", FUNCTION, 3, 0, 24).symbol("f", FUNCTION, 4, 0, 8).symbol("m", OBJECT, 5, 0, 24)
    return file.relocations(3, [(8, 2, CALL32)]).bytes()


def member(name_at, bits):
    return f"BtfMember {{ name_offset: {name_at}, btf_type: 1, offset: {bits} }}"


def cases():
    load, types_relocated, end = "61 12 00 00 00 00 00 00", "61 12 08 00 00 00 00 00", "95 00 00 00 00 00 00 00"
    members = f"[{member(7, 0)}, {member(9, 32)}]"
    return [
        Case(
            "a big endian object",
            {"object": whole(), "kernel": KERNEL},
            {
                "parsed license_and_version programs functions symbols relocations": """
                    [71, 80, 76] Some(1234)
                    program p KProbe at 3 0
                    function p at 3 0 offset 0 slots 3
                    function f at 4 0 offset 0 slots 1
                    symbol 1 Text in Some(3) size 24 defined true
                    symbol 2 Text in Some(4) size 8 defined true
                    symbol 3 Data in Some(5) size 24 defined true
                    relocation at 3 8 size 32 symbol 2
                """,
                "types 1": f"""
                    1 int: Int {{ name_offset: 1, size: 4, int_data: 16777248 }}
                    2 s: Struct {{ name_offset: 5, size: 8, kind_flag: false, members: {members} }}
                """,
                "parsed maps map_ids": """
                    map m type 1 key 2 value 3 entries 4 flags 5 None symbol Some(3) data []
                    map m id 526086
                """,
                "parsed type_relocations": """
                    in Ok("kprobe/p")
                    0 at 0 type 2 Ok("0:1") FieldByteOffset
                """,
                "types_relocated kernel": f"Ok {types_relocated}, 85 10 00 00 ff ff ff ff, {end}, {end}",
                "linked slots": "\n".join(["program p slots 4", load, "85 10 00 00 01 00 00 00", end, end]),
            },
        )
    ]

"""Files as they are read as stated, and broadly: every section of code is a program's, whatever its name."""
from rows.btf import ENUM, ENUM64, INT, array, btf, datasec, pointer, prototype, struct_of, ty, typedef, variable, words
from rows.case import Case
from rows.core_sides import MOVE, TYPE_MATCHES, TYPE_SIZE, moved, one_of, shown, type_parts
from rows.btf_defined_maps import NUMBERS, declaring, named, unexpected
from rows.elf import BIG, EXIT, FUNCTION, OBJECT, PROGBITS, SECTION, File, changed
from rows.loaded_names import ROWS
from rows.names import CGROUPS, NETWORK, PROBES
from rows.records import table

STATED = PROBES | NETWORK | CGROUPS

# Of these names one piece says the kind, whatever stands behind it.
ONE_PIECE = set(PROBES) | {"socket", "sk_msg", "sockops", "classifier", "lirc_mode2", "sk_lookup", "flow_dissector"}

# Names beside those that loaders know.
OTHERS = (
    ["", "?", "??tc", "?tc", "?kprobe/f", "?kprobe", "?xdp/f", "?license", "kprobe/f/g", "kprobe/", "struct_ops/x", "socket1", "xdp/", "xdp/f"]
    + ["xdp/cpumap/f", "sk_skb/", "sk_skb/stream_parser/f", "cgroup", "cgroup/", "cgroup/connect4/f", "tcx", "tc/ingress/f", "usdt/lib:a:b"]
    + ["fmod_ret/f", "kprobe.multi/f*", "ksyscall/open", "lwt_xmit", "netfilter", "a name", "KPROBE"]
)


NAMES = list(dict.fromkeys([*ROWS, *OTHERS]))


def stated(name):
    """The kind of a section's name, by its first piece or its first two; None where it says none."""
    pieces = name.split("/")
    if pieces[0] in ONE_PIECE:
        return STATED[pieces[0]]
    return STATED.get("/".join(pieces[:2]))


def broad(name):
    """The kind of a name whose loader may pass it over by a `?` before it."""
    return stated(name) or name.startswith("?") and stated(name[1:]) or "Other"


def refused(name):
    return f'InvalidProgramSection {{ section: "{name}" }}'


def both(name, data, table, as_stated, broadly):
    return Case(name, data, {f"parsed {table}": as_stated, f"broadly parsed {table}": broadly})


def program_of(name):
    """A section of code of a name, number 3, and its program `foo` of a slot."""
    file = File().code(name, EXIT, **({} if name else {"name_at": 0}))
    return file.symbol("foo", FUNCTION, 3, 0, 8).bytes()


def named_programs():
    for name in NAMES:
        kind = stated(name)
        given = f"program foo {kind} at 3 0" if kind else refused(name)
        yield both(f'both readings of "{name}"', program_of(name), "programs", given, f"program foo {broad(name)} at 3 0")


def sections():
    two = File().code("tc", EXIT).code("tc", EXIT + EXIT)
    two = two.symbol("foo", FUNCTION, 3, 0, 8).symbol("bar", FUNCTION, 4, 8, 8).bytes()
    alone = 'NoSymbolsForSection { section_name: "tc" }'
    return [
        both(
            "two sections of an unknown name",
            two,
            "programs functions",
            refused("tc"),
            """
            program bar Other at 4 8
            program foo Other at 3 0
            function foo at 3 0 offset 0 slots 1
            function bar at 4 8 offset 8 slots 1
            """,
        ),
        both("an unknown name without a symbol", File().code("tc", EXIT).bytes(), "programs", refused("tc"), alone),
        both("an unknown name behind a fault", File().code("tc", b"\0").symbol("foo", FUNCTION, 3, 0, 1).bytes(), "programs", refused("tc"), "InvalidProgramCode"),
    ]


def recorded():
    """The program `p` of two slots in `tc`, with records on its functions and lines."""
    names = b"\0tc\0"
    funcs, lines = table(8, [(1, [0])], [5]), table(16, [(1, [0, 8])], [0, 0, 21])
    said = words([0x1EB9F, 24, 0, len(funcs), len(funcs), len(lines)]) + funcs + lines
    file = File().code("tc", EXIT + EXIT).symbol("p", FUNCTION, 3, 0, 16)
    return file.data(".BTF", btf(strings=names)).data(".BTF.ext", said).bytes()


def relocated():
    """The program `p` in `tc` with a relocation by types that asks for the size of a struct."""
    held, said = type_parts([struct_of("s", 8)], ("tc", [(0, TYPE_SIZE, 1, "0")]))
    return File().code("tc", MOVE).data(".BTF", held).data(".BTF.ext", said).symbol("p", FUNCTION, 3, 0, 8).bytes()


def said_of_programs():
    kernel = btf(struct_of("s", 24))
    return [
        both("records of an unknown name", recorded(), "records", refused("tc"), "records p of 8 and 16 bytes: 0 of 1, 0/21 1/21 of 2"),
        Case(
            "types of an unknown name",
            {"object": relocated(), "kernel": kernel},
            {"types_relocated kernel": refused("tc"), "broadly types_relocated kernel": f"Ok {shown([moved(24)])}"},
        ),
    ]


INT_32 = ty("", INT, 4, 0x01000020)


def matched(name, kernel, value):
    """The program `p` with a relocation that asks whether `struct s { int a; }` matches: by strict reading the object is
    none, whatever the kernel."""
    data = one_of([INT_32, struct_of("s", 4, ("a", 1, 0))], TYPE_MATCHES, 2, "0")
    fault = "BtfError(InvalidRelocationKind { kind: 12 })"
    gives = {"types_relocated kernel": fault, "broadly types_relocated kernel": f"Ok {shown([moved(value)])}"}
    return Case(name, {"object": data, "kernel": btf(*kernel)}, gives)


def type_matches():
    unsigned = ty("", INT, 4, 32)
    of_int, of_unsigned = struct_of("s___one", 8, ("b", 1, 0), ("a", 1, 32)), struct_of("s", 4, ("a", 2, 0))
    past = one_of([INT_32, struct_of("s", 4, ("a", 1, 0))], 13, 2, "0")
    none = "BtfError(InvalidRelocationKind { kind: 13 })"
    return [
        matched("a type that matches", [INT_32, of_int], 1),
        matched("a type that matches one of two", [INT_32, unsigned, of_unsigned, of_int], 1),
        matched("a type that matches none of its name", [INT_32, unsigned, of_unsigned], 0),
        matched("a type of no name to match", [INT_32], 0),
        both("a relocation behind type matches", past, "programs", none, none),
    ]


def held_programs(*types, element=8):
    """A map that holds what the element of its `values` points to, beside these types from 7 on."""
    count = 6 + len(types)
    values = [array(element, 0), struct_of("", 16, ("type", 4, 0), ("values", count + 1, 64)), variable("m", count + 2)]
    return declaring(*NUMBERS, *types, *values, datasec(".maps", count + 3))


def maps():
    plain = "map m in 3 symbol 1 type 1 key 0:0 value 4:0 entries 0 flags 0 extra 0 None"
    programs = [
        ("an array of programs", [prototype(1, 1), pointer(7)], 8, unexpected(1), plain),
        ("an array of programs of a name", [prototype(0), typedef("t", 7), pointer(8), typedef("u", 9)], 10, unexpected(0), plain),
        ("an array of numbers in the place of programs", [pointer(1)], 7, unexpected(0), unexpected(0)),
        ("an array of what is no pointer", [prototype(1)], 7, unexpected(1), unexpected(1)),
    ]
    rows = [
        both(name, held_programs(*types, element=element), "btf_defined_maps", given, broadly)
        for name, types, element, given, broadly in programs
    ]
    one = declaring(*NUMBERS, prototype(1), pointer(7), array(8, 1), struct_of("", 8, ("values", 9, 0)), variable("m", 10), datasec(".maps", 11))
    spec = named("InvalidValuesSpec")
    unsaid = declaring(*NUMBERS, struct_of("", 8, ("type", 4, 0)), variable("m", 7), datasec(".maps", 8))
    alone = "map m in 3 symbol 1 type 1 key 0:0 value 0:0 entries 0 flags 0 extra 0 None"
    rows.append(both("an array of one program", one, "btf_defined_maps", spec, spec))
    rows.append(both("a map without values", unsaid, "btf_defined_maps", alone, alone))
    return rows


def extra(*types, member=7):
    """A map whose `map_extra` is of a type, beside these from 7 on."""
    count = 6 + len(types)
    return declaring(*NUMBERS, *types, struct_of("", 8, ("map_extra", member, 0)), variable("m", count + 1), datasec(".maps", count + 2))


def extras():
    said = lambda number: f"map m in 3 symbol 1 type 0 key 0:0 value 0:0 entries 0 flags 0 extra {number} None"
    enum = lambda value, flag=0: ty("e", ENUM, 4, "v", value, entries=1, flag=flag)
    wide = lambda low, high, flag=0: ty("e", ENUM64, 8, "v", low, high, entries=1, flag=flag)
    none, two = ty("e", ENUM, 4), ty("e", ENUM, 4, "v", 1, "w", 2, entries=2)
    faulty = [
        ("an extra of no value", [none], 7),
        ("an extra of two values", [two], 7),
        ("an extra that is a struct", [struct_of("s", 8)], 7),
    ]
    good = [
        ("an extra of 32 bits", [enum(7)], 7, 7),
        ("an extra of 32 bits below zero", [enum(2**32 - 2)], 7, 2**64 - 2),
        ("an extra of 32 bits below zero with a sign", [enum(2**32 - 2, flag=1)], 7, 2**64 - 2),
        ("an extra of 64 bits", [wide(5, 0x12345678)], 7, 0x12345678 << 32 | 5),
        ("an extra of 64 bits with a sign", [wide(2**32 - 1, 2**32 - 1, flag=1)], 7, 2**64 - 1),
    ]
    # The wanted type of strict parsing is a pointer: what none points to is told by the type that it stands for, if any.
    rows = [both(name, extra(*types, member=member), "btf_defined_maps", unexpected(0), said(number)) for name, types, member, number in good]
    rows += [both(name, extra(*types, member=member), "btf_defined_maps", unexpected(0), unexpected(0)) for name, types, member in faulty]
    rows.append(both("an extra of a named type", extra(enum(7), typedef("t", 7), member=8), "btf_defined_maps", unexpected(7), said(7)))
    rows.append(both("an extra of an array", extra(member=6), "btf_defined_maps", said(64), said(64)))
    return rows


def licenses():
    def license(data):
        return File().data("license", data).bytes()

    invalid = lambda data: f"InvalidLicense {{ bytes: {list(data)} }}"
    missing = "MissingLicenseNullTerminator { bytes: [71, 80, 76] }"
    rows = [
        ("a license with bytes behind it", b"GPL\0\0\0\0", invalid(b"GPL\0\0\0\0"), "[71, 80, 76] None"),
        ("a license with a text behind it", b"A\0B\0", invalid(b"A\0B\0"), "[65] None"),
        ("a license of one zero", b"\0", invalid(b"\0"), "[] None"),
        ("a license of no byte", b"", invalid(b""), "[] None"),
        ("a license of one byte", b"G", invalid(b"G"), invalid(b"G")),
        ("a license that has no end", b"GPL", missing, missing),
        ("a usual license", b"GPL\0", "[71, 80, 76] None", "[71, 80, 76] None"),
    ]
    return [both(name, license(data), "license_and_version", given, broadly) for name, data, given, broadly in rows]


def orders():
    """Files with the highest byte first, with and without code."""
    code = File(BIG).code("kprobe/p", EXIT).symbol("p", FUNCTION, 3, 0, 8).bytes()
    text = File(BIG).code(".text", EXIT).symbol("f", FUNCTION, 3, 0, 8).bytes()
    none = File(BIG).section("maps", PROGBITS, 3, bytes(20)).symbol("m", OBJECT, 3, 0, 20).bytes()
    map_m = "map m type 0 key 0 value 0 entries 0 flags 0 None symbol Some(1) data []"
    function_f = "function f at 3 0 offset 0 slots 1"
    return [
        both("a program with the highest byte first", code, "programs", "program p KProbe at 3 0", "BigEndianCode"),
        both("a function with the highest byte first", text, "functions", function_f, "BigEndianCode"),
        both("no code and the highest byte first", none, "maps", map_m, map_m),
    ]


def machines():
    """Files for other machines (e_machine, the two bytes at 18): lenient parsing takes eBPF's and none."""
    little = File().code("kprobe/p", EXIT).symbol("p", FUNCTION, 3, 0, 8).bytes()
    big = File(BIG).code("kprobe/p", EXIT).symbol("p", FUNCTION, 3, 0, 8).bytes()
    program_p = "program p KProbe at 3 0"
    rows = [
        ("a file for no machine", little, "0000", program_p),
        ("a file for machine 246", little, "f600", "OtherMachine { machine: 246 }"),
        ("a file for machine 248", little, "f800", "OtherMachine { machine: 248 }"),
        ("a file for x86-64", little, "3e00", "OtherMachine { machine: 62 }"),
        ("a big-endian file for x86-64", big, "003e", "OtherMachine { machine: 62 }"),
        ("a big-endian file with eBPF's number in the other order", big, "f700", "OtherMachine { machine: 63232 }"),
    ]
    return [both(name, changed(file, 18, bytes.fromhex(machine)), "programs", program_p, broadly) for name, file, machine, broadly in rows]


def cases():
    return [*named_programs(), *sections(), *said_of_programs(), *type_matches(), *maps(), *extras(), *licenses(), *orders(), *machines()]

"""Each public call that takes memory: inputs that end in Ok, and refused ones whose errors hold texts."""
from growths import inputs
from growths.call_row import CallRow
from growths.inputs import COUNTER, KERNEL, LINES, REFERENCES, SMALL, TASKS
from rows import externs, fds_written, resolved, values
from rows.btf import btf, datasec, function, integer, prototype, struct_of, variable
from rows.core_sides import INT_4, OFFSET, S, one_of
from rows.elf import CALL, CALL32, EXIT, LOAD64, NOTHING, PROGBITS, File
from rows.fds_written import LOAD_8
from rows.records import PROGRAM, TEXT
from rows.resolved import GLOBAL

NOTHING_ELSE = b"", b""

ALL = REFERENCES, KERNEL, LINES

PASSES = ["relocate_maps", "resolve_externs", "relocate_externs", "relocate_calls"]


def on_file(name, data, *calls, **other):
    return CallRow(name, (data, *NOTHING_ELSE), *calls, **other)


def parsing():
    return [
        on_file("parse, the small object", SMALL, "parse"),
        on_file("parse, two calls with records", inputs.two_calls(), "parse"),
        on_file("parse, an object of clang", COUNTER, "parse"),
        on_file("parse, all kinds of references", REFERENCES, "parse"),
        CallRow("prepare, the small object", (SMALL, *NOTHING_ELSE), "prepare", "c"),
        CallRow("prepare, two calls with records", (inputs.two_calls(), *NOTHING_ELSE), "prepare", "mec"),
        CallRow("prepare, an object of clang", (COUNTER, TASKS, b""), "prepare", "tmec"),
        CallRow("prepare, all kinds of references", ALL, "prepare", "tmec"),
        CallRow("inspect, the small object", (SMALL, *NOTHING_ELSE), "inspect", "c"),
        CallRow("inspect, two calls with records", (inputs.two_calls(), *NOTHING_ELSE), "inspect", "mec"),
        CallRow("inspect, an object of clang", (COUNTER, TASKS, b""), "inspect", "tmec"),
        CallRow("inspect, all kinds of references", ALL, "inspect", "tmec"),
    ]


def passing():
    core, core_types = inputs.core()
    rows = [
        CallRow("relocate_btf", (core, core_types, b""), "object", "relocate_btf"),
        CallRow("relocate_btf, an object of clang", (COUNTER, TASKS, b""), "object", "relocate_btf"),
        CallRow("relocate_calls, two calls with records", (inputs.two_calls(), b"", b""), "object", "relocate_calls"),
        CallRow("relocate_calls, the small object", (SMALL, b"", b""), "object", "relocate_calls"),
        CallRow("resolve_lines", ALL, "object", "resolve_lines"),
        CallRow("resolve_text", ALL, "object", "resolve_text"),
    ]
    for count, call in enumerate(PASSES, 1):
        rows.append(CallRow(f"{call}, all kinds of references", ALL, "object", *PASSES[:count]))
    variables = File().section(".data", PROGBITS, 3, bytes(8))
    variables = variables.symbol("a", 0x11, 3, 0, 4).symbol("b", 0x11, 3, 4, 4).bytes()
    rows.append(CallRow("patch_map_data", (variables, b"", b"\1\2\3\4"), "object", "patch_map_data=a,b,none?"))
    return rows


def copying():
    rows = [
        CallRow(f"clone, {name}", (data, b"", b""), "object", "clone")
        for name, data in [("the small object", SMALL), ("all kinds of references", REFERENCES), ("clang", COUNTER)]
    ]
    kept = ["kept_inner=tables", "kept_map=tables", "kept_map=.rodata", "kept_funcs=.text", "kept_lines=.text"]
    kept += ["kept_found_funcs=.text", "kept_found_lines=.text", "kept_ext", "kept_text_sections", "kept_link_map=on_packet"]
    return rows + [on_file(f"{call}, an object of clang", COUNTER, "object", call) for call in kept]


def code():
    text = inputs.section(COUNTER.read_bytes(), "xdp")
    return [
        on_file("copy_instructions", text, "code", "slots"),
        on_file("copy_instructions, no whole slots", text[:9], "code", "slots", starts="Err"),
        on_file("ProgramSection::from_str", b"", "code", "program_section=uprobe.multi.s/f"),
        on_file("ProgramSection::from_str, no kind", b"", "code", "program_section=nothing/f", starts="Err"),
        on_file("Section::from_elf", COUNTER, "code", "section=xdp"),
        on_file("Section::from_elf, .text", REFERENCES, "code", "section=.text"),
        on_file("BtfExt::parse", COUNTER, "code", "ext"),
        on_file("BtfExt::parse, all kinds of references", REFERENCES, "code", "ext"),
    ]


# A STRUCT of a name that is not UTF-8, a name with a flavor, and one more.
ODD = btf(
    integer(1, 4),
    struct_of(5, 8, (9, 1, 0)),
    struct_of(11, 8, (9, 1, 0)),
    strings=b"\0int\0s\xffs\0m\0s___a\0",
)


def types():
    data = inputs.section(REFERENCES.read_bytes(), ".BTF")
    calls = ["add_string=name", "add_type=2", "string_at=5", "type_name=2", "err_type_name=1", "err_type_name=2"]
    calls += ["clone", "id_of=none", "index=s", "both=s", "fields=2"]
    starts = {"err_type_name=1": "Some", "err_type_name=2": "Some", "id_of=none": "Err"}
    rows = [
        CallRow(f"{call}, odd types", (b"", ODD, b""), "types", call, starts=starts.get(call, "Ok")) for call in calls
    ]
    rows += [
        CallRow(f"{call}, types of clang", (b"", data, b""), "types", call, starts=starts.get(call, "Ok"))
        for call in ["add_string=a_longer_name", "add_type=3", "clone", "index=rq", "both=rq"]
    ]
    for name, held in [("odd types", ODD), ("types of clang", data), ("a kernel's types", KERNEL)]:
        rows.append(CallRow(f"Btf::parse, {name}", (b"", held, b""), "parse_types"))
        rows.append(CallRow(f"Btf::from_vec, {name}", (b"", held, b""), "take_types"))
    return rows


def small():
    """One entry more than so many: where a list or a map grows depends on how many it has."""
    calls = ["by_name", "by_index", "by_key", "by_number", "extended", "copied"]
    rows = [on_file(f"{call}, {count}", b"", "small", f"{call}={count}") for call in calls for count in range(0, 30)]
    return rows + [on_file("a text", b"", "small", "text=some")]


def no_answer(name, files, *calls, starts="Err"):
    return CallRow(name, (*files, b"", b"")[:3], *calls, starts=starts)


def refused_files():
    """Files that are no objects, or have what no pass can do, with texts in the errors."""
    no_kind = File().code("nothing/p", bytes(8)).symbol("p", 0x12, 3, 0, 8).bytes()
    no_symbol = externs.declaring(variable("x", 0), datasec(".ksyms", 1))
    no_record = inputs.two_calls(funcs=[(PROGRAM, [0])])
    early = inputs.two_calls(lines=[(PROGRAM, [0]), (TEXT, [8, 0])])
    no_map = fds_written.referring([LOAD_8, NOTHING, EXIT], [(0, 5, LOAD64)])
    variables = values.variables()
    return [
        no_answer("parse, no kind of program", [no_kind], "parse", starts="Err(InvalidProgramSection"),
        no_answer("parse, no symbol", [no_symbol], "parse", starts="Err(BtfError"),
        no_answer("relocate_calls, no record", [no_record], "object", "relocate_calls"),
        no_answer("relocate_calls, a line too early", [early], "object", "relocate_calls"),
        no_answer("relocate_maps, no map", [no_map], "object", "relocate_maps"),
        no_answer("patch_map_data, no variable", [variables, b"", b"\1"], "object", "patch_map_data=c"),
        no_answer("patch_map_data, another length", [variables, b"", b"\1"], "object", "patch_map_data=a"),
        no_answer("prepare, no map", [no_map], "prepare", "mec", starts="Err(Maps"),
        no_answer("prepare, no record", [no_record], "prepare", "c", starts="Err(Calls"),
        no_answer("inspect, no record", [no_record], "inspect", "c", starts="Err(Calls"),
        no_answer("link_map, no record", [no_record], "object", "kept_link_map=p"),
    ]


def refused_types():
    """Relocations by types that can't be done."""
    kernel = btf(integer("int", 4), struct_of("s", 12, ("a", 1, 0)), struct_of("s___b", 12, ("b", 1, 0), ("a", 1, 32)))
    no_path, far, twice = (one_of(S, OFFSET, 2, path) for path in ("x", "0:7", "0:0"))
    return [
        no_answer("relocate_btf, no path", [no_path, kernel], "object", "relocate_btf"),
        no_answer("relocate_btf, a member too far", [far, kernel], "object", "relocate_btf"),
        no_answer("relocate_btf, two matches", [twice, kernel], "object", "relocate_btf"),
        no_answer("prepare, no path", [no_path, kernel], "prepare", "tmec", starts="Err(Types"),
    ]


def refused_externs():
    """Externs that are not found."""
    void, extern = variable("v", 0), datasec(".ksyms", 1)
    called = resolved.with_extern("v", GLOBAL, void, extern, slots=[CALL, EXIT], relocations=[(0, CALL32)])
    typed = resolved.with_extern("f", GLOBAL, prototype(0), function("f", 1), datasec(".ksyms", 2))
    wanted = resolved.with_extern("v", GLOBAL, void, extern)
    other = btf(INT_4, prototype(1), function("f", 2))
    twice, none, line = b"1 D v\n2 D v\n", b"not_hex D v\n", b"1 D v\n"
    both = "resolve_externs", "relocate_externs"
    return [
        no_answer("resolve_externs, no function", [typed, KERNEL], "object", "resolve_externs"),
        no_answer("resolve_externs, another function", [typed, other], "object", "resolve_externs"),
        no_answer("resolve_externs, no line", [wanted, b"", b"1 D w\n"], "object", "resolve_externs"),
        no_answer("resolve_externs, two addresses", [wanted, b"", twice], "object", "resolve_externs"),
        no_answer("resolve_lines, no address", [wanted, b"", none], "object", "resolve_lines"),
        no_answer("resolve_text, a line that is no text", [wanted, b"", b"\xff\n"], "object", "resolve_text"),
        no_answer("relocate_externs, a call of an address", [called, b"", line], "object", *both),
        no_answer("prepare, no line", [wanted], "prepare", "e", starts="Err(Ksyms"),
        no_answer("prepare, a call of an address", [called, b"", line], "prepare", "e", starts="Err(Externs"),
    ]


def rows():
    refused = refused_files() + refused_types() + refused_externs()
    return parsing() + passing() + copying() + code() + types() + small() + refused

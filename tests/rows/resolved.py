"""Externs that are found in a kernel: by its types, and by the addresses that it tells."""
from rows.btf import btf, datasec, function, integer, prototype, variable
from rows.case import Case
from rows.elf import CALL, CALL32, FUNCTION, LOAD64, NOTHING, File, slot

# Symbols without a section: of no type, and with the binding GLOBAL or WEAK.
GLOBAL, WEAK = 0x10, 0x20

INT = integer("int", 4)

LOAD = slot(0x18, 1)

FAR = 0xFFFFFFFF81000010


def with_extern(name, binding, *types, slots=(), relocations=()):
    """These types, the extern of a name, symbol 1, and a program of these slots with relocations of it."""
    file = File().code("kprobe/p", b"".join(slots)).data(".BTF", btf(*types)).symbol(name, binding, 0, 0, 0)
    file.symbol("p", FUNCTION, 3, 0, 8 * len(slots))
    return file.relocations(3, [(offset, 1, kind) for offset, kind in relocations]).bytes()


def variable_of_void(name, **program):
    """An object with a variable of the kernel without a type, which is type 1."""
    return with_extern(name, GLOBAL, variable(name, 0), datasec(".ksyms", 1), **program)


def function_of(name, binding):
    """An object with a function of the kernel, which is type 2."""
    return with_extern(name, binding, prototype(0), function(name, 1), datasec(".ksyms", 2))


def answers(answer, *externs):
    return "\n".join([answer] + [f"extern {text}" for text in externs])


def resolved(name, files, gives):
    return Case(name, files, {"resolved externs": gives, "resolved_text externs": gives})


def addresses():
    """Addresses of the variable `init_task`, line by line."""
    unknown = "init_task type 1 typed false weak false resolved false None None"
    name = 'name: "init_task"'
    rows = [
        (
            "two addresses of a variable",
            ["1000 D init_task", "3000 D other", "2000 D init_task"],
            answers(f"Err(AmbiguousResolution {{ {name}, first_addr: 4096, second_addr: 8192 }})", unknown),
        ),
        ("an address of 0", ["0000000000000000 D init_task"], answers(f"Err(VariableNotFound {{ {name} }})", unknown)),
        (
            "an address twice",
            ["1000 D init_task", "3000 D other", "1000 D init_task"],
            answers("Ok(())", "init_task type 1 typed false weak false resolved true None Some(4096)"),
        ),
        (
            "no address",
            ["not_hex D init_task"],
            answers('Err(KallsymsParseError("invalid address: not_hex"))', unknown),
        ),
        # A no-break space is no blank.
        (
            "a name with a no-break space",
            ["1000 D init_task\u00a0x", "2000 D init_task"],
            answers("Ok(())", "init_task type 1 typed false weak false resolved true None Some(8192)"),
        ),
    ]
    return [
        resolved(name, {"object": variable_of_void("init_task"), "kallsyms": "\n".join(lines).encode()}, gives)
        for name, lines, gives in rows
    ]


def types():
    """Functions and variables that are looked up in the kernel's types."""
    bar = with_extern("bar___v2", GLOBAL, INT, variable("bar___v2", 1), datasec(".ksyms", 2))
    return [
        resolved(
            "a function by its name before the underscores",
            {"object": function_of("foo___v2", GLOBAL), "kernel": btf(INT, prototype(0), function("foo", 2))},
            answers("Ok(())", "foo___v2 type 2 typed true weak false resolved true Some(3) None"),
        ),
        # A variable is looked up by its whole name.
        resolved(
            "a variable by its whole name",
            {"object": bar, "kernel": btf(INT, variable("bar", 1))},
            answers(
                'Err(VariableNotFound { name: "bar___v2" })',
                "bar___v2 type 2 typed true weak false resolved false None None",
            ),
        ),
        resolved(
            "a weak function without a kernel's types",
            {"object": function_of("f", WEAK)},
            answers("Ok(())", "f type 2 typed true weak true resolved false None Some(0)"),
        ),
        # The lines are no UTF-8, and are not read.
        resolved(
            "lines that nothing is looked up in",
            {"object": function_of("f", WEAK), "kallsyms": b"\xff\n"},
            answers("Ok(())", "f type 2 typed true weak true resolved false None Some(0)"),
        ),
        # Type 1 is an INT.
        Case(
            "an extern that is neither a function nor a variable",
            {"object": with_extern("v", GLOBAL, INT), "kernel": btf(INT)},
            {
                "resolved externs v=strong": answers(
                    'Err(InvalidExternType { name: "v" })',
                    "v type 1 typed true weak false resolved false None None",
                )
            },
        ),
    ]


def slots():
    """Externs that are found by their addresses, and then written."""
    said = f"{FAR:x} D v\n".encode()
    load = variable_of_void("v", slots=[LOAD, NOTHING], relocations=[(0, LOAD64)])
    call = variable_of_void("v", slots=[CALL], relocations=[(0, CALL32)])
    unresolvable = 'UnresolvableSymbol { name: "v" }'
    return [
        Case(
            "a load of an address that the kernel tells",
            {"object": load, "kallsyms": said},
            {
                "resolved externs": answers("Ok(())", f"v type 1 typed false weak false resolved true None Some({FAR})"),
                "resolved slots": "Ok(())\nOk(()) 18 01 00 00 10 00 00 81, 00 00 00 00 ff ff ff ff",
            },
        ),
        Case(
            "a call of an address that the kernel tells",
            {"object": call, "kallsyms": said},
            {
                "resolved slots": (
                    'Ok(())\nErr(EbpfRelocationError { function: "p", error: '
                    + unresolvable
                    + " }) 85 10 00 00 ff ff ff ff"
                )
            },
        ),
    ]


def cases():
    return addresses() + types() + slots()

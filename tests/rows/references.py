"""An object that clang made, with references of every kind: what llvm-objdump says of its slots, and what bpftool says of
its externs. Its source stands beside it."""
from pathlib import Path

from rows.btf import btf, function, prototype, struct_of, variable
from rows.case import Case

FILE = Path(__file__).parents[2] / "tests/drivers/test_rows/data/references.o"

# Where the executable sections stand, one behind the other: .text with `look` and `each`, and one section for each of
# the two programs.
TEXT = range(0x40, 0x310)
IN_TEXT, ON_ENTER, ON_EXIT = 0, 36, 65

DESCRIPTORS = {".bss": 1, ".data": 2, ".rodata": 3, "counts": 4, "slots": 5}

# Slots that get the descriptors, and the slots behind them, which get the place in the map's data. The relocations of
# these loads are to `slots`, `counts`, .data + 8, .bss, `seen` and `limits`; .data + 8, `total` and `limits`; `limits`,
# `total` and .bss.
MAPPED = {
    IN_TEXT + 3: "18 11 00 00 05 00 00 00",
    IN_TEXT + 9: "18 11 00 00 04 00 00 00",
    IN_TEXT + 13: "18 21 00 00 02 00 00 00",
    IN_TEXT + 14: "00 00 00 00 08 00 00 00",
    IN_TEXT + 18: "18 22 00 00 01 00 00 00",
    IN_TEXT + 25: "18 22 00 00 01 00 00 00",
    IN_TEXT + 26: "00 00 00 00 08 00 00 00",
    IN_TEXT + 28: "18 21 00 00 03 00 00 00",
    ON_ENTER + 6: "18 21 00 00 02 00 00 00",
    ON_ENTER + 7: "00 00 00 00 08 00 00 00",
    ON_ENTER + 19: "18 22 00 00 02 00 00 00",
    ON_ENTER + 24: "18 21 00 00 03 00 00 00",
    ON_EXIT + 0: "18 21 00 00 03 00 00 00",
    ON_EXIT + 13: "18 21 00 00 02 00 00 00",
    ON_EXIT + 20: "18 21 00 00 01 00 00 00",
}

# In the kernel's types the function is type 2 and the variable type 4.
KERNEL = btf(prototype(0), function("bpf_rcu_read_lock", 1), struct_of("rq", 4), variable("runqueues", 3))

KALLSYMS = b"ffffffff82a0c940 D init_task\n"

# The calls of `bpf_rcu_read_lock` and of `bpf_no_such_function`, symbol 18, which the kernel lacks; loads of `runqueues`
# and of `init_task`. The loads of what the kernel lacks stay 0.
WRITTEN = {
    ON_ENTER + 0: "85 20 00 00 02 00 00 00",
    ON_ENTER + 5: "85 00 00 00 92 18 54 77",
    ON_ENTER + 13: "18 31 00 00 04 00 00 00",
    ON_ENTER + 17: "18 31 00 00 04 00 00 00",
    ON_EXIT + 10: "18 02 00 00 40 c9 a0 82",
    ON_EXIT + 11: "00 00 00 00 ff ff ff ff",
}


def slots(data, written):
    """All slots of the file, where some are written."""
    texts = [data[at : at + 8].hex(" ") for at in range(TEXT.start, TEXT.stop, 8)]
    return ", ".join(written.get(at, text) for at, text in enumerate(texts))


def externs(*known):
    """The externs by name, as the file's types have them, and what is known of the first ones."""
    rows = [
        ("bpf_no_such_function", 29, True, True),
        ("bpf_rcu_read_lock", 27, True, False),
        ("init_task", 47, False, False),
        ("no_such_symbol", 48, False, True),
        ("no_such_variable", 45, True, True),
        ("runqueues", 43, True, False),
    ]
    return "\n".join(
        f"extern {name} type {number} typed {str(typed).lower()} weak {str(weak).lower()} resolved {said}"
        for (name, number, typed, weak), said in zip(rows, known)
    )


def cases():
    data = FILE.read_bytes()
    words = " ".join(f"{name}={number}" for name, number in DESCRIPTORS.items())
    unknown, absent = "false None None", "false None Some(0)"
    found = externs(absent, "true Some(2) None", f"true None Some({0xFFFFFFFF82A0C940})", absent, absent, "true Some(4) None")
    return [
        Case(
            "references of an object of clang",
            {"object": data, "kernel": KERNEL, "kallsyms": KALLSYMS},
            {
                "parsed externs": externs(*[unknown] * 6),
                f"fds_written {words}": f"Ok(()) {slots(data, MAPPED)}",
                "resolved externs": f"Ok(())\n{found}",
                "resolved slots": f"Ok(())\nOk(()) {slots(data, WRITTEN)}",
            },
        )
    ]

"""What else a kernel may lack: functions and variables, helpers, types of maps, what programs are attached to."""
import json

from checked.objects import (
    GLOBAL,
    JEQ,
    WEAK,
    Code,
    address,
    call,
    found,
    function,
    helper,
    jump,
    move,
    object_of,
    one_kernel,
    program,
)
from rows.btf import btf, datasec, integer, pointer, prototype, struct_of, typedef, variable
from rows.btf import function as function_type
from rows.core_sides import S, enum64_of, enum_of
from rows.elf import EXIT

ZERO, OVER = move(6, 0), lambda by: jump(JEQ, 6, 0, by)

# A function `f` and a variable `v` of the kernel.
INT = integer("int", 4)
DECLARED = [INT, prototype(1), function_type("f", 2), variable("v", 1)]
FUNCTION = [*DECLARED, datasec(".ksyms", 3)]
VARIABLE = [*DECLARED, datasec(".ksyms", 4)]

HAS_BOTH = btf(*DECLARED)
NEITHER = btf(INT)
OTHERS = btf(INT, pointer(0), prototype(2), function_type("f", 3), variable("v", 2))
SWAPPED = btf(INT, prototype(1), function_type("v", 2), variable("f", 1))

NO_F = found("f  <ksym>  no such function (a module's?)")
NO_V = found("v  <ksym>  no such variable (a module's?)")
CALLED = "f  <ksym>  no such function (a module's?), and it is called"


def externs(rows):
    """A strong one that is absent refuses all programs."""
    calls = object_of([program(call("f"), EXIT)], FUNCTION, {"f": GLOBAL})
    loads = object_of([program(address(1, "v"), EXIT)], VARIABLE, {"v": GLOBAL})
    for name, kernel in [("absent", NEITHER), ("of the other kind", SWAPPED)]:
        one_kernel(rows, f"a function, {name}", calls, kernel, [NO_F])
        one_kernel(rows, f"a variable, {name}", loads, kernel, [NO_V])
    one_kernel(rows, "a function that is there", calls, HAS_BOTH)
    one_kernel(rows, "a variable that is there", loads, HAS_BOTH)
    one_kernel(rows, "a function of another signature", calls, OTHERS, [found("f  <ksym>  another signature")])
    one_kernel(rows, "a variable of another type", loads, OTHERS, [found("v  <ksym>  another type")])
    two = [program(ZERO, OVER(1), call("f"), EXIT), program(move(0, 0), EXIT, section="kprobe/q", name="q")]
    unreached = object_of(two, FUNCTION, {"f": GLOBAL})
    one_kernel(rows, "a function that isn't reached", unreached, NEITHER, [NO_F], breaking=2, count=2)


def extern_names(rows):
    """A function is looked up by what stands before three underscores, a variable by its whole name."""
    function = [INT, prototype(1), function_type("f___2", 2), datasec(".ksyms", 3)]
    calls = object_of([program(call("f___2"), EXIT)], function, {"f___2": GLOBAL})
    absent = [found("f___2  <ksym>  no such function (a module's?)")]
    one_kernel(rows, "a function of a flavor", calls, HAS_BOTH)
    one_kernel(rows, "a function of a flavor, absent", calls, NEITHER, absent)
    itself = btf(INT, prototype(1), function_type("f___2", 2))
    one_kernel(rows, "a function of a flavor that is the kernel's", calls, itself, absent)
    flavored = [INT, variable("v___2", 1), datasec(".ksyms", 2)]
    loads = object_of([program(address(1, "v___2"), EXIT)], flavored, {"v___2": GLOBAL})
    absent = [found("v___2  <ksym>  no such variable (a module's?)")]
    one_kernel(rows, "a variable with underscores", loads, btf(INT, variable("v___2", 1)))
    one_kernel(rows, "a variable with underscores, absent", loads, HAS_BOTH, absent)


def other_externs(rows):
    """One that nobody uses has to be there too; of one without a type nothing is said, and it is no known number."""
    unused = object_of([program(move(0, 0), EXIT)], FUNCTION, {"f": GLOBAL})
    one_kernel(rows, "a function that nobody calls", unused, NEITHER, [NO_F])
    one_kernel(rows, "a weak function that nobody calls", object_of([program(EXIT)], FUNCTION, {"f": WEAK}), NEITHER)
    untyped = [INT, variable("v", 0), datasec(".ksyms", 2)]
    either = program(address(1, "v"), jump(JEQ, 1, 0, 2), helper(8), EXIT, helper(9), EXIT)
    kernel = btf(INT, enum_of("bpf_func_id", ("BPF_FUNC_one", 1)))
    breaks = [found(f"helper {number}  <helper>  no such helper function", f"p slot {at}") for number, at in [(8, 3), (9, 5)]]
    for binding in [GLOBAL, WEAK]:
        loads = object_of([program(address(1, "v"), EXIT)], untyped, {"v": binding})
        one_kernel(rows, "a variable without a type", loads, NEITHER)
        asks = object_of([either], untyped, {"v": binding})
        one_kernel(rows, "a variable without a type that is asked for", asks, kernel, breaks)


def weak_externs(rows):
    """A weak one that is absent has the address 0, and breaks where it is called."""
    called = object_of([program(call("f"), EXIT)], FUNCTION, {"f": WEAK})
    one_kernel(rows, "a weak function that is called", called, NEITHER, [found(CALLED, "p slot 0")])
    one_kernel(rows, "a weak function that is there", called, HAS_BOTH)
    one_kernel(rows, "a weak function of another signature", called, OTHERS, [found(CALLED, "p slot 0")])
    unread = btf(INT, function_type("f", 99))
    refused = [found("f  <ksym>  there is no BTF type 99")]
    one_kernel(rows, "a weak function of no type", called, unread, refused)
    guarded = object_of([program(address(1, "f"), jump(JEQ, 1, 0, 1), call("f"), EXIT)], FUNCTION, {"f": WEAK})
    one_kernel(rows, "a weak function behind a question", guarded, NEITHER)
    turned = object_of([program(address(1, "f"), jump(5, 1, 0, 1), call("f"), EXIT)], FUNCTION, {"f": WEAK})
    one_kernel(rows, "a weak function behind the wrong question", turned, NEITHER, [found(CALLED, "p slot 3")])
    two = [program(call("f"), EXIT), program(ZERO, OVER(1), call("f"), EXIT, section="kprobe/q", name="q")]
    one = object_of(two, FUNCTION, {"f": WEAK})
    one_kernel(rows, "a weak function that one calls", one, NEITHER, [found(CALLED, "p slot 0")], count=2)
    inside = object_of([program(call("g"), EXIT), function("g", call("f"), EXIT)], FUNCTION, {"f": WEAK})
    one_kernel(rows, "a weak function that a function calls", inside, NEITHER, [found(CALLED, "p slot 2 (g+0)")])
    loaded = object_of([program(address(1, "v"), EXIT)], VARIABLE, {"v": WEAK})
    one_kernel(rows, "a weak variable", loaded, NEITHER)
    # It is known to be 0, so what stands behind the question is reached.
    asked = program(address(1, "v"), jump(JEQ, 1, 0, 1), EXIT, helper(2), EXIT)
    kernel = btf(INT, enum_of("bpf_func_id", ("BPF_FUNC_one", 1)))
    breaks = [found("helper 2  <helper>  no such helper function", "p slot 4")]
    one_kernel(rows, "a weak variable that is asked for", object_of([asked], VARIABLE, {"v": WEAK}), kernel, breaks)


def helpers(rows):
    """The numbers are those of the first `enum bpf_func_id`, but for the one at the end."""
    kernel = btf(enum_of("bpf_func_id", ("BPF_FUNC_one", 1), ("BPF_FUNC_two", 2), ("__BPF_FUNC_MAX_ID", 3)))
    calling = lambda *numbers: object_of([program(*map(helper, numbers), EXIT)])
    no = lambda number: f"helper {number}  <helper>  no such helper function"
    one_kernel(rows, "helpers that are there", calling(1, 2), kernel)
    one_kernel(rows, "a helper that isn't", calling(1, 9), kernel, [found(no(9), "p slot 1")])
    one_kernel(rows, "a helper twice", calling(9, 9), kernel, [found(no(9), "p slot 0", "p slot 1")])
    one_kernel(rows, "the number at the end", calling(3), kernel, [found(no(3), "p slot 0")])
    one_kernel(rows, "helpers without the enumeration", calling(1, 9), btf(INT))
    other = btf(enum64_of("bpf_func_id", ("BPF_FUNC_one", 1)))
    one_kernel(rows, "helpers beside an enumeration of 64 bits", calling(9), other)
    one_kernel(rows, "helpers of an empty enumeration", calling(1), btf(enum_of("bpf_func_id")), [found(no(1), "p slot 0")])
    first = btf(enum_of("bpf_func_id", ("BPF_FUNC_one", 1)), enum_of("bpf_func_id", ("BPF_FUNC_two", 2)))
    one_kernel(rows, "helpers of the second enumeration", calling(1, 2), first, [found(no(2), "p slot 1")])
    guarded = object_of([program(ZERO, OVER(1), helper(9), EXIT)])
    one_kernel(rows, "a helper that isn't reached", guarded, kernel)
    inside = object_of([program(call("g"), EXIT), function("g", helper(9), EXIT)])
    one_kernel(rows, "a helper that a function calls", inside, kernel, [found(no(9), "p slot 2 (g+0)")])
    # The object's own types name it.
    named = object_of([program(helper(9), EXIT)], [*S, enum_of("bpf_func_id", ("BPF_FUNC_trace_printk", 9))])
    breaks = [found("helper 9 (trace_printk)  <helper>  no such helper function", "p slot 0")]
    one_kernel(rows, "a helper with a name", named, kernel, breaks)


def map_types(rows):
    """A map's type counts where the map is used, reached or not."""
    kernel = btf(enum_of("bpf_map_type", ("BPF_MAP_TYPE_HASH", 1), ("BPF_MAP_TYPE_ARRAY", 2), ("__MAX_BPF_MAP_TYPE", 3)))
    using = lambda *names, **maps: object_of([program(*(address(1, name) for name in names), EXIT)], maps=maps)
    one_kernel(rows, "a map's type that is there", using("m", m=1), kernel)
    no = lambda name, number, slot: found(f"map {name}  <map_type>  no map type {number}", f"p slot {slot}")
    one_kernel(rows, "a map's type that isn't", using("m", m=9), kernel, [no("m", 9, 0)])
    one_kernel(rows, "the number of types", using("m", m=3), kernel, [no("m", 3, 0)])
    one_kernel(rows, "a map that no program uses", using("m", m=1, n=9), kernel)
    one_kernel(rows, "maps without the enumeration", using("m", m=9), btf(INT))
    one_kernel(rows, "two maps", using("n", "m", "n", m=9, n=8), kernel, [no("m", 9, 2), no("n", 8, 0)])
    unreached = object_of([program(ZERO, OVER(2), address(1, "m"), EXIT)], maps={"m": 9})
    one_kernel(rows, "a map that isn't reached", unreached, kernel, [no("m", 9, 2)])
    zeros = object_of([program(address(1, "v"), address(2, "m"), EXIT)], maps={"m": 1}, zeros="v")
    one_kernel(rows, "a map of data", zeros, kernel)
    without_arrays = btf(enum_of("bpf_map_type", ("BPF_MAP_TYPE_HASH", 1)))
    one_kernel(rows, "a map of data that isn't there", zeros, without_arrays, [no(".bss", 2, 0)])
    second = program(move(0, 0), EXIT, section="kprobe/q", name="q")
    one = object_of([program(address(1, "m"), EXIT), second], maps={"m": 9})
    one_kernel(rows, "a map that one program uses", one, kernel, [no("m", 9, 0)], count=2)


# Sections, and the name of the type that their programs are attached to, with whether it is a TYPEDEF.
ATTACHED = [
    ("fentry/x", "x", False),
    ("fentry.s/x", "x", False),
    ("fexit/x", "x", False),
    ("fexit.s/x", "x", False),
    ("fmod_ret/x", "x", False),
    ("fmod_ret.s/x", "x", False),
    ("fentry/vmlinux:x", "x", False),
    ("lsm/x", "bpf_lsm_x", False),
    ("lsm.s/x", "bpf_lsm_x", False),
    ("lsm_cgroup/x", "bpf_lsm_x", False),
    ("iter/x", "bpf_iter_x", False),
    ("iter.s/x", "bpf_iter_x", False),
    ("tp_btf/x", "btf_trace_x", True),
]

# What is loaded without a type of the kernel's, or names none.
FREE = ["kprobe/x", "kretprobe/x", "tracepoint/a/x", "raw_tp/x", "xdp", "tc", "freplace/x", "fentry", "tp_btf", "anything/x"]


def ends(section):
    return object_of([program(move(0, 0), EXIT, section=section)])


def attached(rows):
    """A FUNC or, of `tp_btf`, a TYPEDEF of the name. A program without a target doesn't break: a module may have it."""
    for section, name, is_typedef in ATTACHED:
        own, other = typedef(name, 1), function_type(name, 2)
        own, other = (own, other) if is_typedef else (other, own)
        absent = [found(f"{section}  <attach>  no such type {name} (a module's?)", "p")]
        one_kernel(rows, f"{section}, found", ends(section), btf(INT, prototype(1), own))
        without = btf(INT, prototype(1), struct_of(name, 4))
        one_kernel(rows, f"{section}, not found", ends(section), without, untargeted=absent)
        one_kernel(rows, f"{section}, of another kind", ends(section), btf(INT, prototype(1), other), untargeted=absent)
    for section in FREE:
        one_kernel(rows, f"{section}, not looked for", ends(section), NEITHER)
    module = [found("fentry/m:x  <attach>  no such type m:x (a module's?)", "p")]
    one_kernel(rows, "a module's function", ends("fentry/m:x"), btf(INT, prototype(1), function_type("x", 2)), untargeted=module)
    two = object_of([Code("fentry/x", "p", [EXIT]), Code("fexit/x", "q", [EXIT])])
    both = [
        found("fentry/x  <attach>  no such type x (a module's?)", "p"),
        found("fexit/x  <attach>  no such type x (a module's?)", "q"),
    ]
    one_kernel(rows, "two programs", two, NEITHER, untargeted=both, lacking=2, count=2)
    one_kernel(rows, "one of two programs, by name", two, NEITHER, untargeted=both[:1], words=["--program=p"])
    shared = object_of([Code("fentry/x", "p", [EXIT]), Code("fentry/x", "q", [EXIT])])
    absent = [found("fentry/x  <attach>  no such type x (a module's?)", "p", "q")]
    one_kernel(rows, "two programs of one section", shared, NEITHER, untargeted=absent, lacking=2, count=2)


def strict(rows):
    """With `--strict` a program without a target makes the status 1; what is printed is the same."""
    absent = [found("fentry/x  <attach>  no such type x (a module's?)", "p")]
    one_kernel(rows, "no target, strict", ends("fentry/x"), NEITHER, untargeted=absent, words=["--strict"], status=1)
    one_kernel(rows, "no target wanted, strict", ends("kprobe/x"), NEITHER, words=["--strict"])
    both = object_of([Code("fentry/x", "p", [EXIT]), program(helper(9), EXIT, section="kprobe/q", name="q")])
    kernel = btf(enum_of("bpf_func_id", ("BPF_FUNC_one", 1)))
    breaks = [found("helper 9  <helper>  no such helper function", "q slot 0")]
    one_kernel(rows, "no target beside a program that breaks", both, kernel, breaks, count=2, untargeted=absent, lacking=1)
    rows.write("object", both)
    rows.write("kernel", kernel)
    ran = rows.row("no target, JSON", ["check", "object", "kernel", "--json"], 1)
    told = json.loads(ran.stdout)
    rows.expect("no target, JSON: kernels", told["kernels"], [{"name": "kernel", "breaks": ["q"], "no_target": ["p"]}])
    rows.expect("no target, JSON: findings", [each["name"] for each in told["no_target"]], ["fentry/x"])


ROWS = [externs, extern_names, other_externs, weak_externs, helpers, map_types, attached, strict]

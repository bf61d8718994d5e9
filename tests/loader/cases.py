"""What is loaded, and what the loader has to say of it."""
import re

from loader import configuration, kernel_ids
from loader.kernel_ids import FUNC, TYPEDEF


class Case:
    """A run of the loader over an object: what it prints, or what stands in its refusal."""

    def __init__(self, name, source, words, printed=None, refusal=None, options=()):
        self.name, self.source, self.words, self.options = name, source, words, options
        self.printed, self.refusal = printed, refusal

    def fault(self, done):
        """What is wrong with a run that is done, or None."""
        if self.refusal is None:
            good = done.returncode == 0 and re.fullmatch(self.printed, done.stdout)
        else:
            good = done.returncode == 1 and self.refusal in done.stderr
        return None if good else f"status {done.returncode}, {(done.stdout + done.stderr)[-1500:]}"


def loaded(*programs):
    return "".join(rf"program {name} slots \d+\n" for name in programs)


def ran(programs, returned, rows=""):
    """What is printed where these programs are loaded, and one returns a number."""
    return loaded(*programs) + f"returned {returned}\n" + rows


def row(*parts):
    """A line of a map: the key 0, and a value of parts of bytes."""
    return "00000000 " + b"".join(parts).hex() + "\n"


def number(value, size):
    return value.to_bytes(size, "little")


CALLBACKS = ["sum_by_loop", "sum_of_map"]
LOCKS = ["count_in_data", "count_in_map"]
CALLS = ["answer", "enter", "enter_nothing", "other_answer"]
FUNCTIONS = ["find_own_task", "find_own_task_in_syscall"]
TRACED = ["on_enter", "on_task"]
SEEN = row(number(4, 4))

ALL = [
    Case("a callback of bpf_loop", "callbacks", ["sum_by_loop"], ran(CALLBACKS, 45)),
    Case("a callback of bpf_for_each_map_elem", "callbacks", ["sum_of_map"], ran(CALLBACKS, 42)),
    Case(
        "a timer",
        "timer",
        ["start", "elements"],
        ran(["start"], 0, row(bytes(16), number(42, 8))),
        options=["--wait", "300"],
    ),
    Case(
        "a lock in a map",
        "locks",
        ["count_in_map", "elements"],
        ran(LOCKS, 7, row(bytes(4), number(7, 4))),
    ),
    Case("a lock among variables", "locks", ["count_in_data", "locked_count"], ran(LOCKS, 42, "2a000000\n")),
    Case("a task's storage", "storage", ["count_for_task"], ran(["count_for_task"], 6)),
    Case("a map of maps with initial values", "nested", ["look_up"], ran(["look_up"], 243)),
    Case("an array of programs with initial values", "tail_calls", ["enter"], ran(CALLS, 42)),
    Case("the same at an empty place", "tail_calls", ["enter_nothing"], ran(CALLS, 1)),
    Case(
        "values of a configuration that is given",
        "configuration",
        ["read_configuration", "values"],
        ran(["read_configuration"], 0, row(configuration.values(configuration.OWN))),
        options=["--config", "own_config"],
    ),
    Case(
        "a value that the configuration lacks",
        "configuration_missing",
        ["read_configuration"],
        refusal='"CONFIG_NO_SUCH_OPTION" (904)',
    ),
    Case("functions of the kernel, in tc", "kernel_functions", ["find_own_task"], ran(FUNCTIONS, 1)),
    Case("the same in syscall", "kernel_functions", ["find_own_task_in_syscall"], ran(FUNCTIONS, 11)),
    Case("what the kernel may lack", "symbols", ["look"], ran(["look"], 1)),
    Case(
        "a program of tp_btf",
        "traced",
        ["on_enter", ".bss"],
        loaded(*TRACED) + "attached\n" + row(number(1, 8)),
        options=["--wait", "20"],
    ),
    Case("a program of iter", "traced", ["on_task"], loaded(*TRACED) + "found\n"),
    Case("a hidden function", "hidden", ["add"], ran(["add"], 100)),
    Case("the same function where it is global", "shown", ["add"], refusal="mem_or_null"),
    Case("no license", "unlicensed", ["count"], ran(["count"], 65)),
    Case("no license, and a helper under the GPL", "unlicensed", ["read_task"], refusal="GPL"),
    Case("the same with a license", "licensed", ["read_task"], ran(["count", "read_task"], 1)),
    Case("a ring buffer of 5,000 bytes", "sizes", ["ask_size"], ran(["ask_size"], 8192)),
    Case("variables", "constants", ["add", ".bss"], ran(["add"], 41, SEEN)),
    Case("the constant ones", "constants", ["add", ".rodata"], ran(["add"], 41, row(number(8, 4)))),
    Case("one variable", "constants", ["add", "start"], ran(["add"], 41, "1e000000\n")),
    Case("no variable", "constants", ["add", "none"], refusal="no map none, and no variable"),
    Case("a callback of exceptions", "exceptions", ["throwing"], refusal="exception callback"),
    Case("a target that the kernel lacks", "targets_lacking", ["on_nothing"], refusal="lack the target"),
    Case("a section that names no target", "targets_lacking", ["on_unnamed"], refusal="names no target"),
]


def of_kernel():
    """The case of the running kernel's configuration, where the kernel tells it."""
    text = configuration.text()
    if text is None:
        print("left out: the kernel tells its configuration neither in /boot nor in /proc/config.gz")
        return []
    wanted = ran(["read_configuration"], 0, row(configuration.values(text)))
    return [Case("values of the running kernel", "configuration", ["read_configuration", "values"], wanted)]


# Programs, their sections, and the types of the kernel that they are attached to.
TARGETS = [
    ("on_entry", "fentry/do_exit", FUNC, "do_exit"),
    ("on_exit", "?fexit.s/vmlinux:do_exit", FUNC, "do_exit"),
    ("on_nothing", "?fentry/no_such_function", FUNC, "no_such_function"),
    ("on_open", "lsm/file_open", FUNC, "bpf_lsm_file_open"),
    ("on_switch", "tp_btf/sched_switch", TYPEDEF, "btf_trace_sched_switch"),
    ("on_task", "iter.s/task", FUNC, "bpf_iter_task"),
    ("on_unnamed", "?fentry", FUNC, ""),
]


def targets():
    """What is printed of the ids of types; 0 where the kernel has none."""
    ids = kernel_ids.first_ids()
    rows = [f"target {name} {section} {ids.get((kind, of), 0)}\n" for name, section, kind, of in TARGETS]
    return re.escape("".join(rows))

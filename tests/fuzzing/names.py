"""Names of sections, of types and of what is extern."""
from rows.broad import OTHERS
from rows.loaded_names import ROWS
from rows.names import CGROUPS, NETWORK, PROBES

STATED = [*PROBES, *NETWORK, *CGROUPS]

# Of these a target may stand behind a slash.
WITH_TARGET = list(PROBES)

BROAD = [*ROWS, *OTHERS]

TARGETS = ["f", "do_exit", "sched/sched_switch", "x:y", "*", "/", "\u00e4"]

STRANGE = ["license", "version", "maps", ".maps", ".text", ".text.x", ".data", ".bss", ".BTF", "x" * 255, "tc" * 1500]
STRANGE += [b"\xff\xfe", b"tc\xc3", "kprobe/" + "y" * 4000, "struct_ops.link/ops", "socket" + "/" * 40]

# Of types, of members and of what may be extern. Some end in a flavor, one is long and one has no letters.
TYPES = ["s", "t", "u", "inner", "task_struct", "file", "rq", "e", "list", "data", "path"]
FLAVORS = ["___x", "___old", "___", "___x___y", "____z", "___" + "v" * 300]
LONG = "long_name_" * 300
MEMBERS = ["a", "b", "c", "pid", "tgid", "next", "prev", "state", "flags", "data", "a___x", "m" * 200]
VARIANTS = ["ONE", "TWO", "THREE", "ONE___x", "NONE", "E" * 200]
EXTERNS = ["bpf_rcu_read_lock", "init_task", "runqueues", "bpf_task_acquire", "no_such_symbol", "v", "f", "w", "jiffies"]
SETTINGS = ["LINUX_KERNEL_VERSION", "CONFIG_HZ", "CONFIG_BPF_SYSCALL", "CONFIG_DEFAULT_HOSTNAME", "LINUX_HAS_SYSCALL_WRAPPER"]


def of_program(chance, broad):
    """The name of a section of code: one that says a kind as stated, or any."""
    if broad:
        kind = chance.randrange(8)
        if kind == 0:
            return chance.choice(STRANGE)
        name = chance.choice(BROAD)
        if kind < 4:
            name = ("?" if kind < 3 else "??") + name
        return f"{name}/{chance.choice(TARGETS)}" if kind in (2, 5) else name
    if chance.random() < 0.5:
        return f"{chance.choice(WITH_TARGET)}/{chance.choice(TARGETS)}"
    return chance.choice(STATED)


def of_type(chance):
    """A type's name: one of few, so that names meet; some with a flavor, few without a name or long."""
    kind = chance.random()
    if kind < 0.1:
        return ""
    name = LONG if kind > 0.995 else chance.choice(TYPES)
    return name + chance.choice(FLAVORS) if chance.random() < 0.25 else name


def without_flavor(name):
    """The name before a flavor, as a kernel has it."""
    front, mark, _ = name.partition("___")
    return front if mark and front else name

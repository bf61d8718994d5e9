"""C sources of large inputs, by kind and count."""
import re
from pathlib import Path

from libbpf.kernel_types import KernelTypes

PLAIN = "#include <linux/bpf.h>\n#include <bpf/bpf_helpers.h>\n"
OF_KERNEL = '#include "vmlinux.h"\n#include <bpf/bpf_helpers.h>\n#include <bpf/bpf_core_read.h>\n'
LICENSE = 'char _license[] SEC("license") = "GPL";\n'
ALONE = "static __attribute__((noinline)) "
KEEP = 'asm volatile("" : "+r"(x));'
BARRIER = 'asm volatile("" ::: "memory");'


def program(body, section="socket", name="big"):
    return f'SEC("{section}") int {name}(void *c) {{ {body} }}\n'


def in_functions(front, terms, each, section="socket", kind="long"):
    """A program that calls functions, each of which has some of the terms."""
    parts = [terms[at : at + each] for at in range(0, len(terms), each)]
    bodies = [f"{ALONE}{kind} f{at}({kind} x) {{ {KEEP} {' '.join(part)} return x; }}\n" for at, part in enumerate(parts)]
    calls = " ".join(f"r += f{at}(r);" for at in range(len(parts)))
    return front + "".join(bodies) + program(f"{kind} r = 0; {calls} return r;", section) + LICENSE


def chain(count):
    """A program, and functions that each call the next."""
    text = PLAIN + f"{ALONE}long f{count - 1}(long x) {{ {KEEP} return x + 1; }}\n"
    for at in range(count - 2, -1, -1):
        text += f"{ALONE}long f{at}(long x) {{ {KEEP} return f{at + 1}(x) + {at % 97}; }}\n"
    return text + program("return f0(1);") + LICENSE


def worked_chain(count):
    """A program, and functions of some twenty slots on nine lines that each call the next."""
    steps = "".join(f"\tx = (x * {at * 2 + 3}) ^ (x >> {at + 1});\n\t{KEEP}\n" for at in range(4))
    text = PLAIN + f"{ALONE}long f{count - 1}(long x)\n{{\n{steps}\treturn x + 1;\n}}\n"
    for at in range(count - 2, -1, -1):
        text += f"{ALONE}long f{at}(long x)\n{{\n{steps}\treturn f{at + 1}(x) + {at % 97};\n}}\n"
    return text + program("return f0(1);") + LICENSE


def shared(count):
    """A program, and functions that each call the next two."""
    text = PLAIN
    for at in range(count - 1, -1, -1):
        calls = " + ".join(f"g{next_}(x)" for next_ in (at + 1, at + 2) if next_ < count) or "0"
        text += f"__attribute__((noinline)) long g{at}(long x) {{ {KEEP} return {calls} + {at}; }}\n"
    return text + program("return g0(1);") + LICENSE


def fan(count):
    """20 programs in 4 sections that all reach the same functions."""
    text = PLAIN
    for at in range(count - 1, -1, -1):
        call = f"h{at + 1}(x)" if at + 1 < count and at % 10 != 9 else "0"
        text += f"{ALONE}long h{at}(long x) {{ {KEEP} return {call} + {at}; }}\n"
    calls = " ".join(f"r += h{at}(r);" for at in range(0, count, 10))
    sections = "socket", "xdp", "classifier", "raw_tp/sys_enter"
    for at in range(20):
        text += program(f"long r = {at}; {calls} return r;", sections[at % 4], f"p{at}")
    return text + LICENSE


def maps(count):
    """References to 100 maps."""
    shape = "__uint(type, BPF_MAP_TYPE_ARRAY); __uint(max_entries, 4); __type(key, __u32); __type(value, __u64);"
    declared = "".join(f'struct {{ {shape} }} m{at} SEC(".maps");\n' for at in range(100))
    terms = [f"{{ __u32 k = x; x += (long)bpf_map_lookup_elem(&m{at * 7 % 100}, &k); }}" for at in range(count)]
    return in_functions(PLAIN + declared, terms, 50)


def data(count):
    """References to variables of .data, .bss and .rodata."""
    held = f"long d[{count}] = {{ 1 }}; long z[{count}]; const volatile long r[{count}] = {{ 2 }};\n"
    held += f"static volatile int s[{count}];\n"
    terms = [f"x += {'dzrs'[at % 4]}[{at}]; {BARRIER}" for at in range(count)]
    return in_functions(PLAIN + held, terms, 50)


def field(struct, member, kind):
    return f"x += __builtin_preserve_field_info(((struct {struct} *)0)->{member}, {kind}); {KEEP}"


def fields(count):
    """Records of fields, 5 for each struct."""
    rows = KernelTypes().structs((count + 4) // 5, 5)
    terms = [field(struct, member, 0) for struct, members in rows for member in members[:5]]
    return in_functions(OF_KERNEL, terms[:count], 100, "raw_tp/sys_enter")


def same(count):
    """Records of the fields of 20 structs."""
    rows = KernelTypes().structs(20, 10)
    all_ = [field(struct, member, kind) for struct, members in rows for member in members[:10] for kind in range(3)]
    return in_functions(OF_KERNEL, [all_[at % len(all_)] for at in range(count)], 100, "raw_tp/sys_enter")


def types(count):
    """Records of types, 3 for each struct."""
    rows = KernelTypes().structs((count + 2) // 3, 1)
    asked = "bpf_core_type_exists", "bpf_core_type_size", "bpf_core_type_id_kernel"
    terms = [f"x += {call}(struct {struct}); {KEEP}" for struct, _ in rows for call in asked]
    return in_functions(OF_KERNEL, terms[:count], 100, "raw_tp/sys_enter")


def symbols(count):
    """Symbols of the kernel without a type, each of one address."""
    seen = {}
    for line in Path("/proc/kallsyms").read_text().splitlines():
        words = line.split()
        if len(words) == 3 and words[1] in "TtD" and re.fullmatch(r"[a-z_]\w*", words[2]):
            seen[words[2]] = seen.get(words[2], 0) + 1
    names = [name for name, times in seen.items() if times == 1 and not name.startswith("__")][:count]
    declared = "".join(f"extern const void {name} __ksym;\n" for name in names)
    return in_functions(PLAIN + declared, [f"x += (long)&{name};" for name in names], 100)


def functions(count):
    """Functions of the kernel by their types."""
    names = KernelTypes().functions_of_int(count)
    declared = "".join(f"extern int {name}(int) __ksym;\n" for name in names)
    return in_functions(PLAIN + declared, [f"x += {name}(x);" for name in names], 100, "raw_tp/sys_enter", "int")


INPUTS = [(chain, 2000), (chain, 8000), (shared, 2000), (fan, 2000), (maps, 5000), (data, 5000), (fields, 5000)]
INPUTS += [(same, 5000), (types, 3000), (symbols, 1000), (functions, 200)]

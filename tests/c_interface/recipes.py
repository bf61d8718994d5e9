"""Objects that clang makes of tests/objects/broad.c and readings.c, and what both readings answer to each."""
import re
from dataclasses import dataclass, field

from c_interface.builds import TOP
from c_interface.told import output
from rows import broad
from rows.loaded_names import ROWS

SOURCES = TOP / "tests/objects"

# Names of sections beside those that loaders know. clang puts a function of the empty name into `.text`, so the
# assembler gives that one, in the place of another.
OTHERS = ["?tc", "?kprobe/f", "struct_ops/x", "socket1", "xdp/", ""]
UNNAMED = "unnamed"


@dataclass
class Recipe:
    """How an object is made: the names of its programs' sections, the compiler's further words, and a symbol that is then
    taken out; and what strict and lenient parsing answer, without the ids of types."""

    name: str
    sections: list = field(default_factory=lambda: ["xdp"])
    words: list = field(default_factory=list)
    stated: str = "0"
    broad: str = "0"
    source: str = "readings.c"
    target: str = "bpf"
    stripped: str = ""


def defined(**macros):
    return [f"-D{name}={text}" for name, text in macros.items()]


def of_names():
    """Programs in sections of the names that loaders know, and of others, together and alone."""
    names = [*ROWS, *OTHERS]
    known = [name for name in names if broad.stated(name)]
    unknown = [name for name in names if name not in known]
    yield Recipe("every name", names, stated=f"144 {unknown[0]}")
    yield Recipe("every name that both readings take", known)
    for name in unknown:
        yield Recipe(f"the section '{name}'", [name], stated=f"144 {name}".rstrip())
    yield Recipe("two sections of one name", ["tc", "tc"], defined(RECORDED=""), stated="144 tc")


def of_symbols():
    """A section of code without a symbol, and a function without one in a section that has one."""
    known, unknown = "tracepoint/x", "tc"
    yield Recipe("no symbol", words=defined(BARE=f'"{known}"'), stated=f"154 {known}", broad=f"154 {known}")
    yield Recipe("no symbol and no kind", words=defined(BARE=f'"{unknown}"'), stated=f"144 {unknown}", broad=f"154 {unknown}")
    yield Recipe("a section's symbol alone", ["xdp", "socket"], defined(RECORDED=""), stripped="program_1")


def of_maps():
    """Arrays of programs, and the ways to say a map's extra number."""
    values = "HELD(values, int(struct task_struct *))"
    yield Recipe("an array with its programs", words=defined(JUMPS=values, JUMPED="{ .values = { &program_0 } }"), stated="125")
    yield Recipe("an array of programs that has none", words=defined(JUMPS=values), stated="125")
    yield Recipe("an array without values", words=defined(JUMPS="NUMBER(value_size, 4)"))
    yield Recipe("an extra number by an array", words=defined(EXTRA="NUMBER(map_extra, 3)"))
    for value in [3, -3, 0x100000000000]:
        extra = f"enum {{ extra = {value} }} map_extra"
        yield Recipe(f"the extra number {value} by an enumeration", words=defined(EXTRA=extra), stated="125")


def of_licenses():
    for name, said, stated, broadly in [
        ("a padded license", '[16] SEC("license") = "GPL"', "141 {size 16}", "0"),
        ("a license of no byte", '[0] SEC("license")', "141 {size 0}", "0"),
        ("a license without a zero", "[3] SEC(\"license\") = { 'G', 'P', 'L' }", "140 {size 3}", "140 {size 3}"),
    ]:
        yield Recipe(name, words=defined(LICENSE=f"char _license{said}"), stated=stated, broad=broadly)


def of_orders():
    yield Recipe("code with the highest byte first", target="bpfeb", broad="156")
    yield Recipe("no code and the highest byte first", [], target="bpfeb")


def recipes():
    yield Recipe("broad.c", source="broad.c", stated="141 {size 16}")
    yield Recipe("readings.c")
    for of in [of_names, of_symbols, of_maps, of_licenses, of_orders]:
        yield from of()


def listing(sections):
    """The C of the programs. The second one of a name has a section of its own by the word `retain`."""
    for number, name in enumerate(sections):
        more = ", retain" if name in sections[:number] else ""
        yield f'#define ATTRIBUTES section("{name or UNNAMED}"), used{more}'
        yield f'#define INDEX {number}\n#include "program.h"\n'


def with_empty_name(text):
    """The assembler's text, where the section and what `.BTF.ext` says of it have the empty name."""
    (number,) = re.findall(rf'"{UNNAMED}"\s+# string offset=(\d+)', text)
    text = text.replace(f"\t.section\t{UNNAMED},", '\t.section\t"",')
    return re.sub(rf"\.long\t{number}(\s+# [\w ]+section string offset)", r".long\t0\1", text)


def make(recipe, version, path):
    """Has clang make the object."""
    listed = path.with_suffix(".h")
    listed.write_text("\n".join(listing(recipe.sections)))
    clang = [f"clang{version}", "-target", recipe.target, "-O2", "-g"]
    words = [f"-I{SOURCES}", f'-DLIST="{listed}"', *recipe.words, SOURCES / recipe.source]
    if "" in recipe.sections:
        text = path.with_suffix(".s")
        output(*clang, *words, "-S", "-o", text)
        text.write_text(with_empty_name(text.read_text()))
        words = [text]
    output(*clang, *words, "-c", "-o", path)
    if recipe.stripped:
        output(f"llvm-objcopy{version}", f"--strip-symbol={recipe.stripped}", path)

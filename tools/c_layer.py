#!/usr/bin/env python3
"""Makes the parts of the layer in C (c/) that follow from other files:
  - c/exact.h: the prototypes of the proved calls, of crates/capi_exports/src;
  - c/calls.c: those calls of include/ebpf.h that are the proved ones but for what the layer adds to each;
  - c/strerror.c: the texts beside the numbers of include/ebpf.h.

The proved calls take no null pointer, and those that can refuse by a name write it into a buffer. The layer adds:
  - a null array is given as an empty one, whatever its count;
  - a null handle is given as a closed one, so the call returns 3, and so are null types;
  - a null result (a count, a row) is given a place of the layer's own;
  - a refusal is kept in the handle, with its whole name: the call is made once more where that was cut;
  - a call that takes the handle without const drops the lists that the handle keeps.
The other calls are written by hand.
usage: c_layer.py [--check]      --check: writes nothing, and fails where one of them is another"""
import re
import sys
from pathlib import Path

TOP = Path(__file__).parents[1]
HEADER, EXPORTS = TOP / "include/ebpf.h", TOP / "crates/capi_exports/src"

# Types of Rattle with other names in C. The first two are laid out otherwise than the structs of the header.
NAMES = {
    "ebpf_descriptor": "exact_descriptor",
    "ebpf_value": "exact_value",
    "ebpf_handle": "exact_handle",
    "ebpf_types": "exact_btf",
    "bpf_insn": "ebpf_insn",
    "bpf_func_info": "ebpf_func_info",
    "bpf_line_info": "ebpf_line_info",
}
NUMBERS = {"u8": "void", "u32": "uint32_t", "u64": "uint64_t", "usize": "size_t", "i32": "int32_t"}

# What a proved call is given to say why it refuses; the header's calls have none of these.
TOLD = [("void *", "about"), ("size_t", "about_len"), ("struct ebpf_refusal *", "report")]


def named(kind):
    """A type of Rattle as C names it."""
    return NUMBERS.get(kind) or f"struct {NAMES.get(kind, kind)}"


def given(words):
    """The type and the name of each parameter of an export."""
    for name, kind in re.findall(r"(\w+): ([^,]+)", words):
        slice_of, one = re.fullmatch(r"(&(?:mut )?)\[(\w+)\]", kind), re.fullmatch(r"&mut (\w+)", kind)
        if kind == "Global":
            continue
        if slice_of:
            yield f"{'' if 'mut' in slice_of[1] else 'const '}{named(slice_of[2])} *", name
            yield "size_t", f"{name}_len"
        else:
            yield (f"{named(one[1])} *" if one else named(kind)), name


def exports():
    """What each export returns and is given, by its name without `exact_`."""
    found = {}
    for path in sorted(EXPORTS.glob("*.rt")):
        form = r'pub extern "C" fn exact_(\w+)\((.*?)\)\s*(-> u32)?\s*(?:ensures|\{)'
        for name, words, number in re.findall(form, path.read_text(), re.DOTALL):
            found[name] = "uint32_t" if number else "void", list(given(words))
    return found


def parts(parameter):
    """The type of a parameter, and its name."""
    kind, name = re.fullmatch(r"(.*?)(\w+)", parameter).groups()
    return kind.strip(), name


def prototypes(text):
    """The calls of the header: what each returns, its name and its parameters."""
    text = re.sub(r"/\*.*?\*/", "", text, flags=re.DOTALL)
    text = re.sub(r"^\s*#.*?$", "", text, flags=re.MULTILINE)
    form = r"^(?:EBPF_CHECKED )?((?:const )?(?:struct )?\w+ \*?)(ebpf_\w+)\(([^(){};]*)\)[^{};]*;"
    for result, name, words in re.findall(form, text, re.MULTILINE):
        yield result.strip(), name, [parts(" ".join(word.split())) for word in words.split(",") if word.strip() != "void"]


def in_exact(kind):
    """A type of the header as the proved call has it."""
    kind = re.sub(r"^(const )?(uint8_t|char) \*$", r"\1void *", kind)
    of_layer = re.fullmatch(r"(?:const )?struct ebpf_(handle|btf) \*", kind)
    return f"struct exact_{of_layer[1]} *" if of_layer else kind


def follows(call, of_exports):
    """Whether a call of the header is a proved one but for what the layer adds to each."""
    result, name, parameters = call
    if name not in of_exports:
        return False
    returned, words = of_exports[name]
    kinds = [kind for kind, _ in words]
    if kinds[-3:] == [kind for kind, _ in TOLD]:
        kinds = kinds[:-3]
    return returned == result == "uint32_t" and kinds == [in_exact(kind) for kind, _ in parameters] and name != "ebpf_number_name"


def is_told(name, of_exports):
    return of_exports[name][1][-3:] == TOLD


# ---- c/exact.h

EXACT_HEAD = """\
/* Made by tools/c_layer.py of crates/capi_exports/src: the proved calls. */
#ifndef EBPF_EXACT_H
#define EBPF_EXACT_H

#include "ebpf.h"

/* What the proved calls have of an object. */
struct exact_handle {
	void *at;
};

/* What they have of a kernel's types. */
struct exact_btf {
	void *at;
};

/* A map's name, a place in the text that is given beside the rows, and its descriptor. */
struct exact_descriptor {
	size_t name_at, name_len;
	int32_t descriptor;
};

/* A variable's name and its value: places in the text and in the bytes that are given beside the rows. */
struct exact_value {
	size_t name_at, name_len;
	size_t value_at, value_len;
	uint32_t must_exist;
};

"""


def spelt(kind, name):
    return f"{kind}{'' if kind.endswith('*') else ' '}{name}"


def wrapped(head, words, end, behind="\t\t"):
    """A prototype or a call in lines of at most 120 columns."""
    lines, line = [], f"{head}("
    for at, word in enumerate(words or [""]):
        piece = word + (", " if at + 1 < len(words) else end)
        if len(line.expandtabs(8)) + len(piece.rstrip()) > 118:
            lines.append(line.rstrip())
            line = behind
        line += piece
    return "\n".join([*lines, line])


def exact_made(of_exports):
    """The text of c/exact.h."""
    lines = [
        wrapped(f"{result} exact_{name}", [spelt(*word) for word in words] or ["void"], ");")
        for name, (result, words) in sorted(of_exports.items())
    ]
    return EXACT_HEAD + "\n".join(lines) + "\n\n#endif\n"


# ---- c/calls.c

CALLS_HEAD = """\
/* Made by tools/c_layer.py of include/ebpf.h. Each call gives the proved one no null pointer, and keeps its error. */
#include "layer.h"
"""


def passed(parameters):
    """What the proved call is given, the places that the layer has for what is null, and the handle."""
    words, places, held, at = [], [], None, 0
    while at < len(parameters):
        kind, name = parameters[at]
        behind = parameters[at + 1] if at + 1 < len(parameters) else ("", "")
        if in_exact(kind) == "struct exact_handle *":
            words.append(f"EBPF_EXACT({name})")
            places.append("struct exact_handle closed = { NULL };")
            held = kind
        elif in_exact(kind) == "struct exact_btf *":
            words.append(f"EBPF_TYPES({name})")
            places.append("struct exact_btf no_types = { NULL };")
        elif kind.endswith("*") and behind[0] == "size_t":
            words.append(f"EBPF_ARRAY({name}, {behind[1]})")
            at += 1
        elif kind.endswith("*"):
            words.append(f"{name} ? {name} : &no_{name}")
            one = kind.removesuffix("*").strip()
            places.append(f"{one} no_{name} = {'{ 0 }' if one.startswith('struct') else '0'};")
        else:
            words.append(name)
        at += 1
    return words, places, held


def call_made(call, of_exports):
    """A call over the proved one."""
    result, name, parameters = call
    words, places, held = passed(parameters)
    told = is_told(name, of_exports)
    end = f"ebpf_layer_{'end' if held and held.startswith('const') else 'change'}(handle, number, {'&told' if told else 'NULL'})"
    if told:
        places.append("struct ebpf_told told;")
        words.append("EBPF_TOLD(told)")
    if held:
        places.append("uint32_t number;")
    body = "".join(f"\t{place}\n" for place in places) + ("\n" if places else "")
    tabs = "\t\t" if told else "\t"
    made = wrapped(f"{tabs}{'number =' if held else 'return'} exact_{name}", words, ");", f"{tabs}\t") + "\n"
    if told:
        made = f"\tebpf_layer_begin(&told);\n\tdo\n{made}\twhile (ebpf_layer_is_cut(number, &told));\n"
    if held:
        made += f"\treturn {end};\n"
    head = wrapped(f"{result} {name}", [spelt(*word) for word in parameters] or ["void"], ")")
    return f"{head}\n{{\n{body}{made}}}\n"


def calls_made(text, of_exports):
    """The text of c/calls.c."""
    calls = [it for it in prototypes(text) if follows(it, of_exports)]
    return "\n".join([CALLS_HEAD, *[call_made(it, of_exports) for it in calls]])


# ---- c/strerror.c

TEXTS_HEAD = """\
/* Made by tools/c_layer.py of include/ebpf.h: what its numbers say. */
#include "ebpf.h"

const char *ebpf_strerror(uint32_t number)
{
\tswitch (number) {
"""


def texts_made(text):
    """The text of c/strerror.c."""
    [body] = re.findall(r"enum ebpf_number \{(.*?)\n\};", text, re.DOTALL)
    rows = re.findall(r"\t(EBPF_\w+) = \d+,\s*/\* (.*?) \*/", body)
    cases = "".join(f'\tcase {name}:\n\t\treturn "{says}";\n' for name, says in rows)
    return f'{TEXTS_HEAD}{cases}\tdefault:\n\t\treturn "an unknown number";\n\t}}\n}}\n'


def main():
    text, of_exports = HEADER.read_text(), exports()
    made = {
        "c/exact.h": exact_made(of_exports),
        "c/calls.c": calls_made(text, of_exports),
        "c/strerror.c": texts_made(text),
    }
    for name, said in made.items():
        if sys.argv[1:] != ["--check"]:
            (TOP / name).write_text(said)
        elif (TOP / name).read_text() != said:
            sys.exit(f"{name} is not what tools/c_layer.py makes of include/ebpf.h and crates/capi_exports")


if __name__ == "__main__":
    main()

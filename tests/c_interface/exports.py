"""Compares the header, the layer in C and the exports: the types of parameters, the fields of structs, and the names."""
import re
import sys
from pathlib import Path

TOP = Path(__file__).parents[2]
CRATES = TOP / "crates"
sys.path.append(str(TOP / "tools"))

import c_layer  # noqa: E402


def text_of(path):
    """The text of a file in C, without comments and lines of the preprocessor."""
    text = re.sub(r"/\*.*?\*/", "", path.read_text(), flags=re.DOTALL)
    return re.sub(r"^\s*#.*?$", "", text, flags=re.MULTILINE)


def layer():
    """The text of the layer."""
    return "".join(text_of(path) for path in sorted((TOP / "c").glob("*.c")))


def defined():
    """The head of each call that the layer defines, by its name: what it returns, and the types of its parameters."""
    form = r"^((?:const )?(?:struct )?\w+ \*?)(ebpf_\w+)\(([^(){};]*)\)\s*\{"
    for result, name, words in re.findall(form, layer(), re.MULTILINE):
        given = [c_layer.parts(" ".join(word.split())) for word in words.split(",") if word.strip() != "void"]
        yield name, (result.strip(), [kind for kind, _ in given])


def call_faults():
    """Each call of the header is defined by the layer, with the same types, and the layer defines no other for callers."""
    wanted = {name: (result, [kind for kind, _ in given]) for result, name, given in c_layer.prototypes(c_layer.HEADER.read_text())}
    found = {name: head for name, head in defined() if not name.startswith("ebpf_layer_")}
    for name in sorted(wanted.keys() | found.keys()):
        if wanted.get(name) != found.get(name):
            yield f"{name}: the layer has {found.get(name)}, the header {wanted.get(name)}"
    for name, (_, given) in wanted.items():
        if len(given) > 6:
            yield f"{name}: {len(given)} parameters"


def export_faults():
    """Each export is called by the layer. With which types its compiler checks, over c/exact.h."""
    text = layer()
    for name in sorted(c_layer.exports()):
        if not re.search(rf"\bexact_{name}\b", text):
            yield f"exact_{name}: no call of the layer makes it"


def fields_in_c():
    """The types of the fields of each struct of the header, and of those that the proved calls alone are given."""
    text = text_of(c_layer.HEADER) + text_of(TOP / "c/exact.h")
    for name, body in re.findall(r"^struct ((?:ebpf|exact)_\w+) \{(.*?)^\};", text, re.MULTILINE | re.DOTALL):
        fields = []
        for kind, names in re.findall(r"((?:struct )?\w+) ([\w, ]+);", body):
            fields += [kind] * len(names.split(","))
        yield name, fields


def fields_in_rattle():
    """The types of the fields of each struct that C reads or writes."""
    form = r"#\[repr\(C\)\]\s*(?:#\[[^\]]*\]\s*)*pub struct (ebpf_\w+) \{(.*?)^\}"
    for path in sorted(CRATES.glob("capi_*/src/*.rt")):
        for name, body in re.findall(form, path.read_text(), re.MULTILINE | re.DOTALL):
            kinds = re.findall(r"^\s*pub \w+: (\w+),", body, re.MULTILINE)
            yield c_layer.NAMES.get(name, name), [c_layer.named(kind) for kind in kinds]


def struct_faults():
    found = dict(fields_in_c())
    for name, wanted in fields_in_rattle():
        if found.get(name) != wanted:
            yield f"struct {name}: Rattle has {wanted}, C {found.get(name)}"


def faults():
    """Each difference."""
    return [*call_faults(), *export_faults(), *struct_faults()]

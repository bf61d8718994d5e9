#!/usr/bin/env python3
"""Makes of include/ebpf.h the raw declarations of examples/rust/ebpf-sys: its numbers, structs and calls, each with the
header's comment, and the layouts that its test compares with the header.
usage: rust_sys.py [--check]      --check: writes nothing, and fails where one of them is another"""
import re
import sys
import textwrap
from pathlib import Path

TOP = Path(__file__).parents[1]
HEADER = TOP / "include/ebpf.h"
CRATE = TOP / "examples/rust/ebpf-sys"
MADE = "// Made by tools/rust_sys.py of include/ebpf.h.\n"

TYPES = {
    "uint8_t": "u8",
    "int16_t": "i16",
    "uint32_t": "u32",
    "int32_t": "i32",
    "uint64_t": "u64",
    "size_t": "usize",
    "char": "c_char",
    "void": "c_void",
}

# Structs that begin with their size: src/lib.rs has their defaults.
WITH_SIZE = {"ebpf_open_options", "ebpf_prepare_inputs"}

ITEM = re.compile(
    r"""(?:^/\*(?P<doc>(?:(?!\*/).)*)\*/\n)?
    (?:^enum\ (?P<enum>\w+)\ \{\n(?P<numbers>.*?)^\};
    |^struct\ (?P<struct>\w+)\ \{\n(?P<fields>.*?)^\};
    |^struct\ (?P<hidden>\w+);
    |^\#define\ (?P<constant>EBPF_\w+)\ (?P<value>\d+|0x[0-9a-f]+u)$
    |^(?:EBPF_CHECKED\ )?(?P<result>(?:const\ )?(?:struct\ )?\w+\ \*?)(?P<call>ebpf_\w+)\((?P<given>[^()]*)\)[^;{}]*;)""",
    re.DOTALL | re.MULTILINE | re.VERBOSE,
)


def escaped(text):
    """A text as Markdown has it: what would be a mark is escaped, but for code. A pointer's target is code."""
    text = re.sub(r"(?<![\w*`])(\*[a-z]\w+)", r"`\1`", text)
    parts = re.split(r"(`[^`]*`)", text)
    return "".join(it if it.startswith("`") else re.sub(r"([*<>\[\]])", r"\\\1", it) for it in parts)


def paragraphs(comment):
    """The paragraphs and the items of a comment, each as one line; an item begins with `- `."""
    found = [""]
    for line in (re.sub(r"^\s*\*(?: |$)", "", it).rstrip() for it in comment.strip().split("\n")):
        is_item, goes_on = re.match(r" - ", line), line.startswith("   ")
        if not line.strip() or is_item or (found[-1].startswith("- ") and not goes_on):
            found.append("")
        found[-1] = f"{found[-1]} {line.strip()}".strip()
    return [it for it in found if it]


def sentence(text):
    """A text that begins with a capital and ends with a full stop."""
    return f"{text[0].upper()}{text[1:]}" + ("" if text.endswith((".", ":")) else ".")


def documented(comment, otherwise, indent=""):
    """The comment as lines of documentation."""
    if not comment or comment.strip(" \n*").startswith("----"):
        comment = otherwise
    lines, was_item = [], None
    for text in paragraphs(comment):
        is_item = text.startswith("- ")
        if lines and not (is_item and was_item):
            lines.append("")
        width = 116 - len(indent)
        wrapped = textwrap.wrap(escaped(sentence(text)), width, subsequent_indent="  " * is_item, break_on_hyphens=False)
        lines += wrapped
        was_item = is_item
    return "".join(f"{indent}/// {line}".rstrip() + "\n" for line in lines)


def rust_type(kind):
    """A type of C as Rust has it."""
    words = kind.split()
    stars, words = kind.count("*"), [it for it in words if it not in ("const", "struct", "enum") and "*" not in it]
    one = TYPES.get(words[0], words[0])
    for depth in range(stars):
        is_const = "*const" in kind if depth else "const " in kind
        one = f"*{'const' if is_const else 'mut'} {one}"
    return one


def declared(declaration):
    """The names of a declaration in C, each with its type."""
    kind, names = re.fullmatch(r"(.*?[ *])(\w+(?:, \w+)*)", " ".join(declaration.split())).groups()
    return [(f"{name}_" if name == "type" else name, kind.strip()) for name in names.split(", ")]


def number(name, value, comment, otherwise):
    """A constant."""
    return f"{documented(comment, otherwise)}pub const {name}: u32 = {value.rstrip('u')};\n"


def numbers_of(items):
    """The constants of the header."""
    yield f"//! The numbers of the header.\n{MADE}"
    for item in items:
        if item["constant"]:
            yield number(item["constant"], item["value"], item["doc"], f"`{item['constant']}` of the header.")
        if not item["enum"]:
            continue
        text = documented(item["doc"], f"A number of `enum {item['enum']}`.")
        yield f"{text}pub type {item['enum']} = u32;\n"
        for name, value, comment in re.findall(r"(EBPF_\w+) = (\d+),(?:\s*/\*(.*?)\*/)?", item["numbers"], re.DOTALL):
            yield number(name, value, comment, f"`{name}` of [`{item['enum']}`].")


def fields_of(body):
    """The fields of a struct: the name, the type in C and the comment of each."""
    for declaration, comment in re.findall(r"([\w *]+(?:, \w+)*);(?:[ \t]*/\*(.*?)\*/)?", body, re.DOTALL):
        for name, kind in declared(declaration.strip()):
            yield name, kind, comment


def struct(item):
    """A struct that the caller lays out."""
    fields = list(fields_of(item["fields"]))
    text = documented(item["doc"], f"`struct {item['struct']}` of the header.")
    # what has a pointer has no default, but for what the crate says
    default = "" if any("*" in kind for _, kind, _ in fields) or item["struct"] in WITH_SIZE else "Default, "
    text += f"#[repr(C)]\n#[derive(Clone, Copy, Debug, {default}PartialEq, Eq)]\npub struct {item['struct']} {{\n"
    for name, kind, comment in fields:
        if not comment:
            comment = next((other for _, _, other in fields if other and name.endswith("_at")), "")
        otherwise = f"The length in bytes of the text that begins at `{name[:-3]}at`." if name.endswith("_len") else f"The field `{name}`."
        text += documented(comment, otherwise, "    ") + f"    pub {name}: {rust_type(kind)},\n"
    return f"{text}}}\n"


def structs_of(items):
    """The structs of the header."""
    yield f"//! The structs of the header.\n{MADE}"
    for item in items:
        if item["hidden"]:
            text = documented(item["doc"], f"`struct {item['hidden']}`.")
            yield f"{text}#[repr(C)]\n#[derive(Debug)]\npub struct {item['hidden']} {{\n    _hidden: [u8; 0],\n    _stays: PhantomData<*mut u8>,\n}}\n"
        if item["struct"]:
            yield struct(item)


def calls_of(items):
    """The calls of the header."""
    yield f"//! The calls of the header.\n{MADE}"
    texts = []
    for item in filter(lambda it: it["call"], items):
        words = [word.strip() for word in item["given"].split(",") if word.strip() != "void"]
        given = [declared(word)[0] for word in words]
        result = "" if item["result"].strip() == "void" else f" -> {rust_type(item['result'].strip())}"
        text = documented(item["doc"], f"`{item['call']}` of the header.", "    ")
        texts.append(f"{text}    pub fn {item['call']}({', '.join(f'{name}: {rust_type(kind)}' for name, kind in given)}){result};\n")
    yield 'extern "C" {\n' + "\n".join(texts) + "}\n"


def layouts_of(items):
    """The layouts of the structs, as Rust has them."""
    yield f"//! The layouts of the structs.\n{MADE}"
    rows = []
    for item in filter(lambda it: it["struct"], items):
        names = ", ".join(name for name, _, _ in fields_of(item["fields"]))
        rows.append(f"    layout!({item['struct']}: {names}),\n")
    yield "pub const LAYOUTS: &[Layout] = &[\n" + "".join(rows) + "];\n"


USES = {
    "src/structs.rs": "use std::ffi::c_char;\nuse std::marker::PhantomData;\n",
    "src/calls.rs": "use crate::structs::*;\nuse std::ffi::c_char;\n",
    "tests/layout/table.rs": "use super::Layout;\nuse ebpf_sys::*;\nuse std::mem::{offset_of, size_of};\n",
}


def files(text):
    """The files that are made, with their texts before they are formatted."""
    items = list(ITEM.finditer(text))
    made = {"src/numbers.rs": numbers_of, "src/structs.rs": structs_of, "src/calls.rs": calls_of, "tests/layout/table.rs": layouts_of}
    for name, parts in made.items():
        head, *rest = parts(items)
        yield CRATE / name, "\n".join([head + USES.get(name, ""), *rest])


def formatted(text):
    """The text in lines of 120 columns: a call of many parameters has one on each line. rustfmt leaves these files as they
    are."""
    lines = []
    for line in text.split("\n"):
        head = re.fullmatch(r"    pub fn (\w+)\((.*)\)(.*);", line)
        if head and len(line) > 120:
            lines += [f"    pub fn {head[1]}(", *(f"        {it}," for it in head[2].split(", ")), f"    ){head[3]};"]
            continue
        row = re.fullmatch(r"    layout!\((\w+): (.*)\),", line)
        if row and len(line) > 120:
            lines += [f"    layout!(", *textwrap.wrap(f"{row[1]}: {row[2]}", 112, initial_indent=" " * 8, subsequent_indent=" " * 8), "    ),"]
            continue
        lines.append(line)
    return "\n".join(lines)


def main():
    for path, text in files(HEADER.read_text()):
        text = formatted(text)
        if sys.argv[1:] != ["--check"]:
            path.parent.mkdir(parents=True, exist_ok=True)
            path.write_text(text)
        elif not path.is_file() or path.read_text() != text:
            sys.exit(f"{path.relative_to(TOP)} is not what tools/rust_sys.py makes of include/ebpf.h")


if __name__ == "__main__":
    main()

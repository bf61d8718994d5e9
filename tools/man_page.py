#!/usr/bin/env python3
"""Makes manual pages: of docs/CLI.md ebpf(1), with a section for each of its headings, and of include/ebpf.h ebpf(3).

The first indented block of a page in docs/ becomes the synopsis. Read of Markdown: headings, paragraphs, indented
blocks, tables, lists, `code` and **bold**. Of the header: comments, and the declarations behind them.

usage: man_page.py VERSION PAGE.md > ebpf.1
       man_page.py VERSION ebpf.h > ebpf.3
"""
import re
import sys
from pathlib import Path

ITEM = re.compile(r"(?:- |(\d+\. ))")


def escaped(text):
    """Returns text as troff prints it: no character of it is a request or an escape."""
    text = text.replace("\\", "\\e").replace("-", "\\-").replace("'", "\\(aq")
    return "\\&" + text if text.startswith((".", "\\(aq")) else text


def marked(text):
    """Returns a line of Markdown with code in bold, bold in bold, and links as their text."""
    text = re.sub(r"\[([^]]*)\]\([^)]*\)", r"\1", text)
    # text, code and bold in turn; of the last two one is None
    parts = re.split(r"`([^`]+)`|\*\*([^*]+)\*\*", text)
    return "".join(f"\\fB{escaped(it)}\\fR" if at % 3 else escaped(it) for at, it in enumerate(parts) if it)


def blocks(lines):
    """Yields the blocks of a page, as (kind, lines)."""
    block, kind = [], None
    for line in [*lines, ""]:
        found = kind_of(line, kind)
        if block and (found != kind or kind == "heading"):
            while not block[-1].strip():
                block.pop()
            yield kind, block
            block = []
        if found:
            block.append(line)
        kind = found


def kind_of(line, before):
    """Returns what a line begins or goes on with."""
    if line.startswith("    ") and before not in ("list", "text"):
        return "code"
    if not line.strip():
        return "code" if before == "code" else None
    if re.match(r"#+ ", line):
        return "heading"
    if line.startswith("|"):
        return "table"
    if ITEM.match(line) or (before == "list" and line.startswith(" ")):
        return "list"
    return "text"


def code(lines):
    return [".PP", ".RS 4", ".nf", *(escaped(it[4:]) for it in lines), ".fi", ".RE"]


def items(lines):
    made = []
    for line in lines:
        item = ITEM.match(line)
        if item:
            made.append((item[1] or "").strip() or "\\(bu")
            made.append(line[item.end() :])
        else:
            made[-1] += " " + line.strip()
    return [f".IP {it} 3" if at % 2 == 0 else marked(it) for at, it in enumerate(made)]


def table(lines):
    """Returns a list in the place of a table: the first cell, and below it the others, each after its column's name."""
    rows = [[it.strip() for it in re.split(r"(?<!\\)\|", line.strip()[1:-1])] for line in lines]
    names, made = rows[0], []
    for row in rows[2:]:
        made += [".TP", marked(row[0]) or "\\&"]
        cells = [(name, cell) for name, cell in zip(names[1:], row[1:]) if cell]
        texts = [cell if len(names) == 2 or name == "Meaning" else f"{name}: {cell}" for name, cell in cells]
        made += [marked(it) + ("." if it != texts[-1] else "") for it in texts] or ["\\&"]
    return made


def page(version, text):
    """Returns the manual page of a page in docs/."""
    found = list(blocks(text.splitlines()))
    levels = [len(it[0].split()[0]) for kind, it in found[1:] if kind == "heading"]
    top = min(levels, default=1)
    at = next((number for number, (kind, _) in enumerate(found) if kind == "code"), None)
    synopsis = found.pop(at)[1] if at is not None else []
    made = [f'.TH EBPF 1 "" "ebpf {version}" "User Commands"', ".SH NAME"]
    made += ["ebpf \\- check, list, link and inspect eBPF object files, and cut BTF to their needs", ".SH SYNOPSIS", ".nf"]
    made += [*(escaped(it.strip()) for it in synopsis), ".fi", ".SH DESCRIPTION"]
    for kind, lines in found[1:]:
        if kind == "heading":
            level, title = lines[0].split(" ", 1)
            made.append(f".SH {marked(title.upper())}" if len(level) == top else f".SS {marked(title)}")
        elif kind == "text":
            made += [".PP", marked(" ".join(lines))]
        else:
            made += {"code": code, "list": items, "table": table}[kind](lines)
    made += [".SH SEE ALSO", ".BR ebpf\\-link (1),", ".BR ebpf\\-inspect (1),", ".BR ebpf (3);"]
    made.append("the pages in share/doc/ebpf")
    return "\n".join(made) + "\n"


def comment(text):
    """Returns a comment of C as paragraphs and lists."""
    inside = text.removeprefix("/*").removesuffix("*/").strip("\n")
    lines = [re.sub(r"^ ?\* ?", "", it).rstrip() for it in inside.splitlines()]
    made, before = [], ""
    for line in lines:
        is_item, goes_on = line.startswith(" - "), line.startswith("   ")
        if is_item or not before or (before.startswith(" ") and not goes_on):
            made.append(["\\(bu" if is_item else "", ""])
        if line.strip():
            made[-1][1] += line.removeprefix(" - ").strip() + " "
        before = line
    return [line for mark, it in made if it for line in (f".IP {mark} 3" if mark else ".PP", marked(it.strip()))]


def header_page(version, text):
    """Returns the manual page of the header: its first comment, then each comment with the declaration behind it."""
    made = [f'.TH EBPF 3 "" "ebpf {version}" "Library Functions"', ".SH NAME"]
    made += ["ebpf \\- read, relocate and link eBPF object files", ".SH LIBRARY", ".RI ( libebpf \", \\-lebpf)\""]
    made += [".SH SYNOPSIS", ".nf", "#include <ebpf.h>", ".fi", ".SH DESCRIPTION"]
    for chunk in re.split(r"\n{2,}", text):
        title = re.fullmatch(r"/\* -+ (.*?) \*/", chunk.strip())
        if title:
            made.append(".SH " + escaped(re.split("[;,]", title[1])[0].upper()))
            continue
        said = re.match(r"/\*.*?\*/", chunk, re.S)
        made += comment(said[0]) if said else []
        declared = chunk[said.end() if said else 0 :].strip("\n")
        if declared and not re.match(r"#(ifn?def|include|endif|define EBPF_H)|extern \"C\"|}$", declared):
            made += [".PP", ".RS 4", ".nf", *(escaped(it.expandtabs()) for it in declared.splitlines()), ".fi", ".RE"]
    made += [".SH SEE ALSO", ".BR ebpf (1);", "C.md in share/doc/ebpf/docs"]
    return "\n".join(made) + "\n"


def main():
    if len(sys.argv) != 3:
        sys.exit(__doc__[__doc__.index("usage:") :].rstrip())
    version, file = sys.argv[1:]
    print((header_page if file.endswith(".h") else page)(version, Path(file).read_text()), end="")


if __name__ == "__main__":
    main()

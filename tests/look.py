#!/usr/bin/env python3
"""Looks at what `ebpf` writes for people and for CI: the pages of `ebpf check` and `ebpf list` in Chromium, SARIF by its schema,
annotations, graphs, colours and the progress; with names that try to break out of each. Without Chromium
(`apt-get install chromium`) pages aren't looked at, which is printed. Ends with 'N passed, M failed', and with status 1 where one failed.
usage: look.py PROGRAM [--kernels N] [--screenshots FOLDER]      PROGRAM: the built program `ebpf`; N: of the large page
"""
import argparse
import html
import json
import re
import shutil
import subprocess
import sys
import tempfile
from pathlib import Path

from check_rows import EXAMPLE, Rows
from checked.objects import GONE, HAS_B, IS_THERE, LACKS_B, Code, address, call, object_of
from checked.ops import object_of_ops
from looked import page, sarif, schema_cases, terminal
from rows.elf import EXIT

# Names that mean something in HTML, JSON, Graphviz, Mermaid, annotations or a terminal. The name of a file has no slash.
HOSTILE = [
    "<script>fail()<!script>",
    "<img src=x onerror=fail()>",
    "\"quotes' and `more`",
    "back\\slash\\n",
    "new\nline",
    "esc\x1b[31m",
    "right\u202eto\u2066left\u200f",
    "%0A::error::100%, a:b",
    "&amp;#60;&lt;",
    "];end;--> x[\"y",
    "${1}{{2}}",
    "::stop-commands::token",
    "  ::stop-commands::token",
    "##[stop-commands]token",
    "  ##[error]more",
    "%%{wrap}%%",
    "$$x^2$$",
    "[text](target) [0](1)",
    "![image](target)",
    "- item",
    "1. item",
    "fa:fa-bug",
    "{0}",
]
# A line of source with them all.
SOURCE = "\tread(&one, \"two\\n\"); /* " + "".join(HOSTILE) + " */"
# Characters of a label of Mermaid, and what is behind a name in it.
MERMAID = r"(?:[A-Za-z0-9 ]|[^\x00-\x7f]|#\d+;)*(?:<br/>\d+ slots|<br/>map|: \d+ slots)"
# The line of the example that breaks.
LINE = {"startLine": 83, "snippet": {"text": "\tread(&running, queue->nr_running);"}}
# Characters that are seen by their effect alone.
UNSEEN = re.compile("[\x00-\x09\x0b-\x1f\x7f-\x9f\u061c\u200e\u200f\u2028-\u202e\u2066-\u2069]")


def visible(name, sign="\\x"):
    """A name with its controls, marks of direction and backslashes as bytes."""
    return "".join(
        "".join(f"{sign}{byte:02x}" for byte in c.encode()) if c in "\\\n" or UNSEEN.match(c) else c for c in name
    )


def visible_source(line):
    """A line of source as it is shown: backslashes and tabs are themselves."""
    return "".join(c if c in "\\\t" else visible(c) for c in line)


def hostile_object():
    """An object with a program, a function and a map for each hostile name, and a file of lines with them all."""
    functions, maps = [], {}
    for number, name in enumerate(HOSTILE):
        section = "kprobe/p" if number == 0 else f"kprobe/p{number}"
        functions.append(Code(section, name, [call(f"f{name}"), address(1, f"m{name}"), GONE, EXIT]))
        functions.append(Code(".text", f"f{name}", [EXIT]))
        maps[f"m{name}"] = 1
    lines = [(0, f"dir/{''.join(HOSTILE)}.c", 7, SOURCE)]
    return object_of(functions, maps=maps, lines=lines)


def hostile_ops():
    """An object with a map of struct_ops, its struct, a member and a program for each hostile name."""
    return object_of_ops({".struct_ops": [(f"m{name}", f"t{name}", {f"i{name}": f"p{name}"}) for name in HOSTILE]})


def expect_plain(rows, name, text):
    """Nothing in a text is seen by its effect alone."""
    rows.expect(f"{name}: unseen characters", UNSEEN.findall(text), [])


def example(rows):
    """The example of docs/CLI.md in each form."""
    words = ["check", "memdrop.o", "btf", "--html", "page.html", "--sarif", "log.sarif"]
    ran = rows.row("the example", words, 1)
    plain = rows.run("check", "memdrop.o", "btf").stdout
    rows.expect("files leave the text as it is", ran.stdout, plain)
    log = json.loads((rows.folder / "log.sarif").read_text())
    rows.expect("SARIF: schema", sarif.faults(log), [])
    [result] = log["runs"][0]["results"]
    place = result["locations"][0]["physicalLocation"]
    rows.expect("SARIF: line", (place["artifactLocation"]["uri"], place["region"]), ("memdrop.bpf.c", LINE))
    rows.expect("SARIF: successful", log["runs"][0]["invocations"], [{"executionSuccessful": True, "toolExecutionNotifications": []}])
    text = "struct cfs_rq.nr_running <byte_off> no such member; program on_tick slot 11; on 1 of 2 kernels: btf/6.18"
    rows.expect("SARIF: message", result["message"]["text"], text)
    ran = rows.row("annotations", ["check", "memdrop.o", "btf", "--format", "github"], 1)
    line = f"::error file=memdrop.bpf.c,line=83,title=ebpf check::{text}\n"
    rows.expect("annotations: output", ran.stdout, line)
    ok = rows.row("nothing breaks", ["check", "memdrop.o", "btf/5.18", "--sarif=none.sarif", "--format=github"], 0)
    rows.expect("nothing breaks: no annotation", ok.stdout, "")
    log = json.loads((rows.folder / "none.sarif").read_text())
    rows.expect("nothing breaks: SARIF", (sarif.faults(log), log["runs"][0]["results"]), ([], []))
    said = "ebpf: nowhere/page.html: cannot write: No such file or directory (os error 2)"
    words = ["check", "memdrop.o", "btf", "--html=nowhere/page.html", "--sarif=beside.sarif"]
    rows.row("no folder for the page", words, 2, plain, said)
    rows.expect("no folder for the page: SARIF", sarif.faults(json.loads((rows.folder / "beside.sarif").read_text())), [])
    said = "ebpf: /dev/full: cannot write: No space left on device (os error 28)"
    rows.row("no room for the page", ["check", "memdrop.o", "btf", "--html=/dev/full"], 2, plain, said)
    rows.row("no room for SARIF", ["check", "memdrop.o", "btf", "--sarif=/dev/full"], 2, plain, said)
    usage = "ebpf: --format takes text, json or github, and not xml"
    rows.row("another form", ["check", "memdrop.o", "btf", "--format", "xml"], 2, "", usage)
    usage = "ebpf: page.html is read and written, or written twice"
    rows.row("one file for two", ["check", "memdrop.o", "btf", "--html=page.html", "--sarif=page.html"], 2, "", usage)
    usage = "ebpf: memdrop.o is read and written, or written twice"
    rows.row("a page over FILE", ["check", "memdrop.o", "btf", "--html=memdrop.o"], 2, "", usage)
    rows.row("a list's page over FILE", ["list", "memdrop.o", "--html=memdrop.o"], 2, "", usage)
    rows.expect("no temporary file", list(rows.folder.glob("*.tmp")), [])
    rows.row("two forms", ["check", "memdrop.o", "btf", "--format=text", "-j"], 2, "", "ebpf: one of --format and --json")


def graphs(rows):
    """Graphs of the example: its nodes and edges."""
    dot = rows.row("--dot", ["inspect", "memdrop.o", "--dot", "--program", "on_tick"], 0).stdout
    wanted = [
        'label="on_tick: 35 slots";',
        'p0f0 [shape=box label="on_tick\\n21 slots"];',
        'p0f1 [shape=box label="count\\n14 slots"];',
        'p0m0 [shape=cylinder label="counts\\nmap"];',
        "p0f0 -> p0f1 [label=call];",
        "p0f1 -> p0m0 [style=dashed];",
    ]
    rows.expect("--dot: lines", [line.strip() for line in dot.split("\n")[3:9]], wanted)
    flow = rows.row("--mermaid", ["inspect", "memdrop.o", "--mermaid", "--program", "on_tick"], 0).stdout
    wanted = [
        "flowchart LR",
        'subgraph p0["on#95;tick: 35 slots"]',
        'p0f0["on#95;tick<br/>21 slots"]',
        'p0f1["count<br/>14 slots"]',
        'p0m0[("counts<br/>map")]',
        "p0f0 -->|call| p0f1",
        "p0f1 -.-> p0m0",
        "end",
        "",
    ]
    rows.expect("--mermaid: lines", [line.strip() for line in flow.split("\n")], wanted)
    rows.row("two graphs", ["inspect", "memdrop.o", "--dot", "--mermaid"], 2, "", "ebpf: one of --dot, --json and --mermaid")


def hostile_graphs(rows):
    """Each line of a graph with hostile names has the form of a line, and its labels read as the names."""
    rows.write("hostile.o", hostile_object())
    dot = rows.row("hostile --dot", ["inspect", "hostile.o", "--dot"], 0).stdout
    expect_plain(rows, "hostile --dot", dot)
    label = r'"(?:[^"\\]|\\\\|\\n)*"'
    form = re.compile(
        r"digraph programs \{|  rankdir=LR;|  subgraph cluster_\d+ \{|  \}|\}|"
        rf"    label={label};|    p\d+[fm]\d+ \[shape=\w+ label={label}\];|    p\d+f\d+ -> p\d+[fm]\d+ \[\w+=\w+\];"
    )
    rows.expect("hostile --dot: lines", [line for line in dot.split("\n")[:-1] if not form.fullmatch(line)], [])
    if not shutil.which("dot"):
        print("skipped: graphs in Graphviz, which isn't installed")
    else:
        drawn = subprocess.run(["dot", "-Tsvg"], input=dot, capture_output=True, encoding="utf-8")
        rows.expect("hostile --dot: Graphviz", (drawn.returncode, drawn.stderr), (0, ""))
        texts = [html.unescape(text).replace("\xa0", " ") for text in re.findall(r"<text[^>]*>(.*?)</text>", drawn.stdout)]
        rows.expect("hostile --dot: names", [name for name in HOSTILE if visible(name) not in texts], [])
        rows.expect("hostile --dot: elements", set(re.findall(r"<(\w+)", drawn.stdout)), {"svg", "g", "title", "polygon", "path", "text"})
    flow = rows.row("hostile --mermaid", ["inspect", "hostile.o", "--mermaid"], 0).stdout
    expect_plain(rows, "hostile --mermaid", flow)
    label = f'"{MERMAID}"'
    form = re.compile(
        rf"flowchart LR|  subgraph p\d+\[{label}\]|  end|    p\d+f\d+\[{label}\]|    p\d+m\d+\[\({label}\)\]|"
        r"    p\d+f\d+ (?:-->\|\w+\||-\.->) p\d+[fm]\d+"
    )
    rows.expect("hostile --mermaid: lines", [line for line in flow.split("\n")[:-1] if not form.fullmatch(line)], [])
    read = re.sub(r"#(\d+);", lambda code: chr(int(code[1])), flow)
    rows.expect("hostile --mermaid: names", [name for name in HOSTILE if visible(name).replace(":", "\\x3a") not in read], [])


def hostile_reports(rows):
    """SARIF and annotations with hostile names of programs, kernels and files."""
    for name in HOSTILE:
        rows.write(f"kernels/{name}", LACKS_B)
    words = ["check", "hostile.o", "kernels", "--html=hostile.html", "--sarif=hostile.sarif", "--format=github"]
    out = rows.row("hostile names", words, 1).stdout
    expect_plain(rows, "hostile annotations", out)
    lines = out.split("\n")[:-1]
    form = re.compile(r"::error (?:file=[^:,]*,line=7,)?title=ebpf check::.*")
    rows.expect("hostile annotations: one for each program", (len(lines), all(map(form.fullmatch, lines))), (len(HOSTILE), True))
    commands = [line for line in lines if line.lstrip().startswith("::") or "##[" in line]
    rows.expect("hostile annotations: commands", [line for line in commands if not line.startswith("::error ")], [])
    rows.expect("hostile annotations: percent", re.findall("%(?!25|3A|2C)", "".join(lines)), [])
    text = (rows.folder / "hostile.sarif").read_text()
    expect_plain(rows, "hostile SARIF", text)
    log = json.loads(text)
    rows.expect("hostile SARIF: schema", sarif.faults(log), [])
    results = log["runs"][0]["results"]
    said = "".join(result["message"]["text"] for result in results)
    expect_plain(rows, "hostile SARIF: messages", said)
    rows.expect("hostile SARIF: placeholders", re.findall("[{}]", re.sub(r"\{\{|\}\}", "", said)), [])
    rows.expect("hostile SARIF: links", re.findall(r"(?<!\\)(?:\\\\)*[\[\]]", said), [])
    read = re.sub(r"\\([\\\[\]])", r"\1", said).replace("{{", "{").replace("}}", "}")
    rows.expect("hostile SARIF: names", [name for name in HOSTILE if visible(name) not in read], [])
    places = [result["locations"][0]["physicalLocation"] for result in results]
    texts = {place["region"]["snippet"]["text"] for place in places if "region" in place}
    rows.expect("hostile SARIF: source", texts, {visible_source(SOURCE)})
    uris = [place["artifactLocation"]["uri"] for place in places]
    rows.expect("hostile SARIF: paths", [uri for uri in uris if not re.fullmatch(r"(?:[\w./~-]|%[0-9A-F]{2})*", uri, re.ASCII)], [])


def source_paths(rows):
    """Paths of source lines in SARIF and in annotations."""
    for path, uri, file in [
        ("/build//src/./a b.c", "file:///build/src/a%20b.c", "/build/src/a b.c"),
        ("././src/x.c", "src/x.c", "src/x.c"),
        ("../x:y.c", "../x%3Ay.c", "../x%3Ay.c"),
    ]:
        rows.write("path.o", object_of([Code("kprobe/p", "program", [GONE, EXIT])], lines=[(0, path, 7)]))
        rows.write("lacks", LACKS_B)
        out = rows.row(f"path {path}", ["check", "path.o", "lacks", "--sarif=path.sarif", "--format=github"], 1).stdout
        rows.expect(f"path {path}: annotation", out.split(",")[0], f"::error file={file}")
        log = json.loads((rows.folder / "path.sarif").read_text())
        rows.expect(f"path {path}: schema", sarif.faults(log), [])
        location = log["runs"][0]["results"][0]["locations"][0]["physicalLocation"]
        rows.expect(f"path {path}: URI", location["artifactLocation"]["uri"], uri)


def unread(rows):
    """A kernel that can't be read is in each form, and doesn't look like success."""
    rows.write("no::types", b"none")
    words = ["check", "memdrop.o", "no::types", "btf/5.18", "--sarif=unread.sarif", "--format=github"]
    ran = rows.row("unread", words, 2, None, "")
    said = "kernel no::types can't be read: "
    rows.expect("unread: one annotation", [line.split(said)[0] for line in ran.stdout.split("\n")], ["::error title=ebpf check::", ""])
    rows.expect("unread: standard error", ran.stderr, "")
    log = json.loads((rows.folder / "unread.sarif").read_text())
    rows.expect("unread: schema", sarif.faults(log), [])
    [invocation] = log["runs"][0]["invocations"]
    told = [it["message"]["text"].startswith(said) for it in invocation["toolExecutionNotifications"]]
    rows.expect("unread: SARIF", (invocation["executionSuccessful"], told), (False, [True]))


def other_logs(rows):
    """Logs over several kernels of which one can't be read, of an object that breaks on two and of one without programs."""
    for name, types in [("a/1", HAS_B), ("a/2", LACKS_B), ("a/3", LACKS_B), ("a/4", b"none")]:
        rows.write(name, types)
    functions = [Code("kprobe/p", "program", [GONE, EXIT]), Code("fentry/no_such_function", "other", [IS_THERE, EXIT])]
    rows.write("several.o", object_of(functions))
    rows.write("programless.o", object_of([Code("?kprobe/p", "program", [GONE, EXIT])]))
    said = "ebpf: a/4: neither BTF nor an ELF file"
    for name, wanted in [("several", (1, 1)), ("programless", (0, 1))]:
        rows.row(f"log of {name}", ["check", f"{name}.o", "a", f"--sarif={name}.sarif"], 2, None, said)
        log = json.loads((rows.folder / f"{name}.sarif").read_text())
        [run] = log["runs"]
        counts = len(run["results"]), len(run["invocations"][0]["toolExecutionNotifications"])
        rows.expect(f"log of {name}", (sarif.faults(log), counts), ([], wanted))


def all_logs(rows):
    """Each log that was written keeps to the schema."""
    logs = sorted(rows.folder.glob("*.sarif"))
    rows.expect("logs: some", len(logs) > 5, True)
    for log in logs:
        rows.expect(f"{log.name}: schema", sarif.faults(json.loads(log.read_text())), [])


def failing_output(rows):
    """Files are written also where the output can't be."""
    for form in ["text", "json", "github"]:
        words = [rows.program, "check", "memdrop.o", "btf", f"--format={form}", f"--html=full-{form}.html", f"--sarif=full-{form}.sarif"]
        with open("/dev/full", "w", encoding="utf-8") as full:
            ran = subprocess.run(words, cwd=rows.folder, stdout=full, stderr=subprocess.PIPE, encoding="utf-8")
        said = "ebpf: cannot write: No space left on device (os error 28)\n"
        rows.expect(f"no room for {form}", (ran.returncode, ran.stderr), (2, said))
        for name, whole in [(f"full-{form}.html", "page.html"), (f"full-{form}.sarif", "log.sarif")]:
            kept = [(rows.folder / it).read_text() if (rows.folder / it).exists() else None for it in (name, whole)]
            rows.expect(f"no room for {form}: {name}", kept[0] == kept[1], True)


def lists(rows):
    """The page of `ebpf list` leaves its text as it is, and has what the text has."""
    rows.write("hostile.o", hostile_object())
    rows.write("ops.o", hostile_ops())
    for name in ["memdrop.o", "hostile.o", "ops.o"]:
        plain = rows.run("list", name).stdout
        rows.row(f"list --html of {name}", ["list", name, "--html", f"list-{name}.html"], 0, plain)
        text = (rows.folder / f"list-{name}.html").read_text()
        expect_plain(rows, f"list --html of {name}", text)
        rows.expect(f"list --html of {name}: loads nothing", re.findall(r"<[^>]* (?:src|href)=|<script|<link|url\(|@import", text), [])
        heads = re.findall(r"^[A-Z][A-Z -]+ \d+$", plain, re.MULTILINE)
        rows.expect(f"list --html of {name}: tables", re.findall(r"<h2 id='table\d'>(.*?)</h2>", text), heads)
    shown = html.unescape((rows.folder / "list-ops.o.html").read_text())
    lines = [f"i{visible(name)}: p{visible(name)}" for name in HOSTILE]
    rows.expect("list --html of ops.o: programs", [line for line in lines if f"<td>{line}</td>" not in shown], [])
    said = "ebpf: nowhere/page.html: cannot write: No such file or directory (os error 2)"
    rows.row("list: no folder for the page", ["list", "memdrop.o", "--html=nowhere/page.html"], 2, None, said)


def large(rows, count):
    """An object of six programs over many kernels: of ten, three lack what four programs read, and one can't be read. The last
    program has a target that no kernel has."""
    codes = [[GONE, EXIT] if number % 3 else [IS_THERE, EXIT] for number in range(6)]
    sections = [*(f"kprobe/p{number}" for number in range(5)), "fentry/no_such_function"]
    functions = [Code(section, f"event_{number}", codes[number]) for number, section in enumerate(sections)]
    rows.write("large.o", object_of(functions))
    rows.write("none.o", object_of([Code("?kprobe/p", "program", [GONE, EXIT])]))
    rows.row("no programs", ["check", "none.o", "btf", "--html", "none.html"], 0)
    kinds = [HAS_B, HAS_B, LACKS_B] * 3 + [b"none"]
    for number in range(count):
        rows.write(f"large/{4 + number // 400}.{number // 20 % 20}.0-{number % 20}-generic", kinds[number % 10])
    ran = rows.run("check", "large.o", "large", "--html", "large.html")
    rows.expect("large page: status", ran.returncode, 2)


def pages(rows, count, screenshots):
    """The pages in Chromium."""
    browser = shutil.which("chromium") or shutil.which("chromium-browser")
    if not browser:
        print("skipped: the pages in Chromium, which isn't installed")
        return
    large(rows, count)
    page.small(rows, browser)
    page.without_programs(rows, browser)
    page.hostile(rows, browser, [visible(name) for name in HOSTILE], visible_source(SOURCE))
    page.many(rows, browser, count)
    page.listed(rows, browser, rows.run("list", "memdrop.o").stdout)
    page.hostile_list(rows, browser, [visible(name) for name in HOSTILE])
    if screenshots:
        page.screenshots(rows.folder, browser, screenshots)


def main():
    parser = argparse.ArgumentParser(usage=__doc__.split("usage: ")[1])
    parser.add_argument("program")
    parser.add_argument("--kernels", type=int, default=2000)
    parser.add_argument("--screenshots", type=Path)
    chosen = parser.parse_args()
    with tempfile.TemporaryDirectory() as folder:
        rows = Rows(str(Path(chosen.program).absolute()), None, None, Path(folder))
        shutil.copytree(EXAMPLE / "btf", rows.folder / "btf")
        shutil.copy(EXAMPLE / "memdrop.o", rows.folder)
        for part in [schema_cases.run, example, graphs, hostile_graphs, hostile_reports, source_paths, unread, other_logs]:
            part(rows)
        for part in [failing_output, all_logs, lists, terminal.colours, terminal.progress]:
            part(rows)
        pages(rows, chosen.kernels, chosen.screenshots)
    print(*rows.failures, sep="\n", end="\n" * bool(rows.failures))
    print(f"{rows.passed} passed, {len(rows.failures)} failed")
    return bool(rows.failures)


if __name__ == "__main__":
    sys.exit(main())

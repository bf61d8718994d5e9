"""Blocks that show a form: usage lines, words, and the keys of JSON. Each test yields what is wrong with a block."""
import json
import re
from dataclasses import dataclass

from shown.blocks import TOP, blocks_of
from shown.commands import folder_of

# The value of a key of a refusal.
TEXT_OR_NULL = r'(?:"(?:[^"\\]|\\.)*"|null)'


def trial(block, _room):
    """Compares the words and the folder of `rt try` with those of a command that the page shows with its output, and
    looks for the script of the second line. Both lines build, so neither is run."""
    folder, words = re.match(r"\(cd (\S+) && rt try -- ([^)]+)\)", block.lines[0]).groups()
    shown = [it for it in blocks_of(block.page) if it.lines[0] == f"$ ebpf {words}"]
    if [folder_of(it) for it in shown] != [folder]:
        yield f"no block shows what `ebpf {words}` prints in {folder}"
    script = block.lines[1].split()[0]
    if not (TOP / script).is_file():
        yield f"there is no {script}"


def synopsis(block, room):
    """Compares the commands of the synopsis with those that `ebpf --help` lists."""
    shown = re.fullmatch(r"ebpf ((?:\w+ \| )+\w+) FILE \[OPTION \.\.\]", block.lines[0])
    listed = re.findall(r"^  (\w+)  ", room.run("ebpf --help"), re.MULTILINE)
    if not shown or sorted(shown[1].split(" | ")) != sorted(listed):
        yield f"`ebpf --help` lists {listed}"


def plain_usage(block, room):
    """Compares the line with the usage that `ebpf-link` and `ebpf-inspect` print, each with its own name."""
    for program in ["ebpf-link", "ebpf-inspect"]:
        wanted = "usage: " + block.lines[0].replace("ebpf-link", program) + "\n"
        printed = room.run(program)
        if printed != wanted:
            yield f"`{program}` prints {printed!r} in place of {wanted!r}"


def job(block, room):
    """Compares the options of each `ebpf` command in a job of a workflow with those that its command has."""
    commands = re.findall(r"run: ebpf (\w+) (.*)", "\n".join(block.lines))
    if not commands:
        yield "no step runs `ebpf`"
    for command, words in commands:
        known = re.findall(r"^  (?:-\w, )?(--[\w-]+)", room.run(f"ebpf {command} --help"), re.MULTILINE)
        for option in re.findall(r"--[\w-]+", words):
            if option not in known:
                yield f"`ebpf {command} --help` lacks {option}"


def usage_in(path):
    """Returns the test that looks for the lines, without the folder `tools/`, in a file that states its usage."""

    def test(block, _room):
        text = (TOP / path).read_text()
        for line in block.lines:
            if line.removeprefix("tools/") not in text:
                yield f"{path} lacks {line}"

    return test


def kinds(block, _room):
    """Compares the words with those of the sources, and their order."""
    text = (TOP / "crates/cli_common/src/kinds.rt").read_text()
    words = re.findall(r'Kind::\w+ => "(\w+)"', text)
    if " ".join(block.lines).split() != words:
        yield f"crates/cli_common/src/kinds.rt has {words}"


def refusal(block, room):
    """Compares a refusal as JSON with the line, in which `..` stands for a text or `null`."""
    parts = re.split(r"(\.\.)", block.lines[0])
    pattern = "".join(TEXT_OR_NULL if part == ".." else re.escape(part) for part in parts)
    printed = room.run("ebpf inspect tests/objects/kernel_parts_19.o --json 2>/dev/null")
    if not re.fullmatch(pattern + r"\n", printed):
        yield f"a refusal is {printed}"


@dataclass
class Shape:
    """The keys of the objects in a JSON document, in their order, by the key that has these objects (`""`: the
    document), and the keys whose objects may lack some."""

    keys: dict
    partial: set


def shape_of(lines, first="file"):
    """Returns the shape that lines show. A document begins with its version and a key for what it is about.

    A line has keys of the document (`KEY ..`), the keys of the objects in lists (`KEY, .. [KEY ..]`) or those of one
    object (`KEY {KEY ..}`). It is indented where these are in objects of the line above; a key that an earlier line has is
    then `ABOVE.KEY`. Parentheses hold remarks: `only if known` and `, if some` of keys of the line's objects that may lack,
    `KEY: if some` of one of the document."""
    shape, above = Shape({"": ["version", first]}, set()), ""
    for line in lines:
        text = re.sub(r" *\([^)]*\)", "", line)
        held = re.fullmatch(r" *(\w+(?:, \w+)*) [\[{]([\w ]+)[\]}]", text)
        names = held[1].split(", ") if held else text.split()
        if not line.startswith(" "):
            shape.keys[""] += names
            above = names[-1]
        else:
            names = [f"{above}.{name}" if name in shape.keys else name for name in names]
        if held:
            shape.keys.update(dict.fromkeys(names, held[2].split()))
        if held and ("only if known" in line or ", if some" in line):
            shape.partial |= set(names)
        if ": if some" in line:
            shape.partial.add("")
    return shape


def objects_in(value, name="", above=""):
    """Yields the objects in a JSON value, each behind the key of the object that has it and its own key."""
    if isinstance(value, dict):
        yield above, name, value
        for key, held in value.items():
            yield from objects_in(held, key, name)
    elif isinstance(value, list):
        for held in value:
            yield from objects_in(held, name, above)


def differences(shape, documents):
    """Yields the objects of documents whose keys differ from the shape, and the keys that no document has."""
    lacking = {name: set(keys) for name, keys in shape.keys.items()}
    for above, own, value in [found for document in documents for found in objects_in(document)]:
        name = f"{above}.{own}" if f"{above}.{own}" in shape.keys else own
        keys = shape.keys.get(name, [])
        wanted = [key for key in keys if key in value] if name in shape.partial else keys
        if list(value) != wanted:
            yield f"an object of the key {name!r} has the keys {' '.join(value)}"
        lacking[name] = lacking.get(name, set()) - set(value)
    for name, keys in lacking.items():
        if keys:
            yield f"no object of the key {name!r} was seen with {' '.join(sorted(keys))}"


def json_of(*given, first="file"):
    """Returns the test that compares what `ebpf WORDS --json` prints with the keys of a block, and with the version
    that the page states."""

    def test(block, room):
        documents = [json.loads(room.run(f"ebpf {words} --json")) for words in given]
        yield from dict.fromkeys(differences(shape_of(block.lines, first), documents))
        stated = re.findall(r"`version` \((\d+)\)", (TOP / block.page).read_text())
        for document in documents:
            if [str(document.get("version"))] != stated:
                yield f"version {document.get('version')}, and the page states {stated}"

    return test

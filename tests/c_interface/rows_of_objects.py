"""The rows of the other test programs, by the C interface: what `tests/rows` says of their files."""
import re

from c_interface import refusals
from c_interface.kinds import numbers_of
from c_interface.map_ids import created_with
from c_interface.runs import CallsRow
from rows.case import outcome_lines
from rows.printed import function_sizes

# The errors of parsing that a row of what is parsed may begin with.
PARSING = ["ElfError", "SectionError", "BtfError", *refusals.PARSING]


def refused(action, fault):
    number, told = fault
    return f"{action} {number} {told}".rstrip()


def slot_digits(text):
    """Slots with commas between them, as lines."""
    return [slot.replace(" ", "") for slot in text.split(", ")]


def program_lines(text):
    """The lines of programs, with the slots as `calls` prints them."""
    return [line if line.startswith("program ") else line.replace(" ", "") for line in outcome_lines(text)]


def parsed_program(line):
    name, kind, section, address = re.fullmatch(r"program (.*?) (\w+(?: \{.*\}|\(.*\))?) at (\d+) (\d+)", line).groups()
    return f"program {name} {numbers_of(kind)} section {section} address {address}"


def parsed_map(line):
    found = re.fullmatch(
        r"map (.*) type (\d+) key (\d+) value (\d+) entries (\d+) flags (\d+) (\w+) symbol .* data \[(.*)\]", line
    )
    name, kind, key, value, entries, flags, pinning, data = found.groups()
    data = "".join(f"{int(byte):02x}" for byte in data.split(", ") if byte)
    return name, kind, key, value, entries, flags, "1" if pinning == "ByName" else "0", data


def listed_map(line):
    found = re.fullmatch(
        r"map (.*) section \d+ kind \d+ type (\d+) key (\d+):\d+ value (\d+):\d+ entries (\d+) flags (\d+) extra 0 "
        r"pinning (\d) data (\w*)",
        line,
    )
    return found and found.groups()


def declared_map(line):
    head, kind, key, key_id, value, value_id, entries, flags, extra, pinning = re.fullmatch(
        r"((?:map|inner) .*) type (\d+) key (\d+):(\d+) value (\d+):(\d+) entries (\d+) flags (\d+) extra (\d+) (\w+)", line
    ).groups()
    pinning = "1" if pinning == "ByName" else "0"
    key_id, value_id = created_with(int(kind), int(key_id), int(value_id))
    shape = f"type {kind} key {key}:{key_id} value {value}:{value_id} entries {entries} flags {flags} extra {extra} pinning {pinning}"
    if head.startswith("inner "):
        return f"inner {shape}"
    name, section = re.fullmatch(r"map (.*) in (\d+) symbol \d+", head).groups()
    return f"map {name} section {section} kind 2 {shape} data "


def parsed_extern(line):
    name, kind, typed, weak, resolved, known, address = re.fullmatch(
        r"extern (.*) type (\d+) typed (\w+) weak (\w+) resolved (\w+) (\S+) (\S+)", line
    ).groups()
    bits = {"true": 1, "false": 0}
    known = re.sub(r"\D", "", known) or "0"
    has_address = int(address != "None")
    address = re.sub(r"\D", "", address) or "0"
    return (
        f"extern {name} type {kind} typed {bits[typed]} weak {bits[weak]} resolved {bits[resolved]} id {known} "
        f"address {has_address} {address}"
    )


def parsed_license_and_version(text):
    license_bytes, version = re.fullmatch(r"\[(.*)\] (\S+)", text).groups()
    digits = "".join(f"{int(byte):02x}" for byte in license_bytes.split(", ") if byte)
    number = re.sub(r"\D", "", version)
    version = f"{int(version != 'None')} {number or 0}"
    return rf"info big \d version {version} types \d relocations \d typed \d license {digits}"


def with_line(pattern):
    """The last line has to be of this form."""
    return lambda lines: None if re.fullmatch(pattern, lines[-1]) else f"{lines} in place of {pattern}"


def is_declared(line):
    """Whether a line is of a BTF-defined map, or of one inside such a map."""
    return line.startswith("inner ") or " kind 2 type " in line


def with_maps(wanted):
    """The maps without what types alone say of them."""

    def judge(lines):
        found = [listed_map(line) for line in lines[1:] if line.startswith("map ")]
        return None if found == wanted else f"{lines} in place of {wanted}"

    return judge


def with_btf_defined_maps(wanted):
    def judge(lines):
        found = [line for line in lines[1:] if is_declared(line)]
        return None if found == wanted else f"{lines} in place of {wanted}"

    return judge


def places(line):
    """The places of a line of records, without the counts and the sizes."""
    name, rest = re.fullmatch(r"records (.*?)(?: of \d+ and \d+ bytes)?:(.*)", line).groups()
    return name, re.sub(r" of \d+", "", rest).split(",")


def with_records(lines_wanted):
    """Of the functions that are programs, the records have to be these."""
    wanted = dict(places(line) for line in lines_wanted)

    def judge(lines):
        found = dict(places(line) for line in lines if line.startswith("records "))
        wrong = [name for name in found if found[name] != wanted.get(name)]
        return f"{lines} in place of {lines_wanted}" if wrong or not found else None

    return judge


def of_parsing(case, words, text):
    """What a file holds, or why it is none."""
    files = case.files["object"], b"", b""
    lines = outcome_lines(text)
    if lines and refusals.word(lines[0]) in PARSING:
        yield CallsRow(case.name, files, ["open"], [refused("open", refusals.of_parsing(lines[0]))])
        return
    if "programs" in words:
        wanted = [parsed_program(line) for line in lines if line.startswith("program ")]
        yield CallsRow(case.name, files, ["open", "programs"], ["open 0", *wanted])
    if words == ["maps"]:
        wanted = [parsed_map(line) for line in lines]
        yield CallsRow(case.name, files, ["open", "listed"], with_maps(wanted))
    if words == ["btf_defined_maps"]:
        yield CallsRow(case.name, files, ["open", "listed"], with_btf_defined_maps([declared_map(line) for line in lines]))
    if words == ["externs"]:
        yield CallsRow(case.name, files, ["open", "declared"], ["open 0", *map(parsed_extern, lines)])
    if words == ["license_and_version"]:
        yield CallsRow(case.name, files, ["open", "info"], with_line(parsed_license_and_version(text)))
    if "sections" in words:
        wanted = [line for line in lines if line.startswith("section ")]
        yield CallsRow(case.name, files, ["open", "sections"], ["open 0", *wanted])
    if "records" in words:
        wanted = [line for line in lines if line.startswith("records ")]
        yield CallsRow(case.name, files, ["open", "records"], with_records(wanted))


def of_linking_programs(case, words, text):
    files = case.files["object"], b"", b""
    lines = outcome_lines(text)
    if lines and lines[0].startswith("EbpfRelocationError"):
        fault = refusals.of_slots("calls", lines[0])
        yield CallsRow(case.name, files, ["open", "calls"], ["open 0", refused("calls", fault)])
    elif words == ["slots"]:
        yield CallsRow(case.name, files, ["open", "calls", "slots"], ["open 0", "calls 0", *program_lines(text)])
    elif words == ["records"]:
        yield CallsRow(case.name, files, ["open", "calls", "records"], with_records(lines))


def is_lone(case, slots):
    """Whether these are all slots of the object, and of one program."""
    return function_sizes(case.files["object"]) == [8 * len(slots)]


def of_fds(case, words, text):
    """Descriptors, and the slots of a lone program."""
    files = case.files["object"], b"", b""
    given = ",".join(word.replace("=", ":") for word in words)
    answer, _, slots = re.fullmatch(r"(Ok\(\(\)\)|Err\((.*)\)) ([0-9a-f ,]*)", text).groups()
    said = "maps 0" if answer.startswith("Ok") else refused("maps", refusals.of_slots("maps", answer))
    slots = slot_digits(slots)

    def judge(lines):
        maps = [line.split()[1] for line in lines if line.startswith("map ")]
        unknown = [name for name in (word.partition("=")[0] for word in words) if name not in maps]
        missing = [line.rpartition(" ")[2] for line in lines if line.startswith("slot ")]
        incomplete = [f"maps 321 {name}" for name in unknown] + [f"maps 320 {name}" for name in missing]
        wanted = [incomplete[0] if incomplete else said]
        if is_lone(case, slots) and not incomplete:
            wanted += [f"program p slots {len(slots)}", *slots]
        behind = lines[lines.index("missing 0") + 1 :]
        return None if behind[: len(wanted)] == wanted else f"{lines} in place of {wanted}"

    yield CallsRow(case.name, files, ["open", "listed", f"missing={given}", f"maps={given}", "slots"], judge)


def of_resolving(case, words, text):
    files = case.files["object"], case.files.get("kernel", b""), case.files.get("kallsyms", b"")
    lines = outcome_lines(text)
    found = re.fullmatch(r"(Ok\(\(\))\)|Err\((.*)\)", lines[0])
    said = "resolve 0" if found[1] else refused("resolve", refusals.of_finding(found[2]))
    if words == ["externs"]:
        wanted = ["open 0", said, *map(parsed_extern, lines[1:])]
        yield CallsRow(case.name, files, ["open", "resolve", "declared"], wanted)
    elif words == ["slots"] and lines[1].startswith("Err"):
        fault = refused("externs", refusals.of_slots("externs", lines[1]))
        yield CallsRow(case.name, files, ["open", "resolve", "externs"], ["open 0", said, fault])
    elif words == ["slots"] and lines[1].startswith("Ok(())"):
        slots = slot_digits(lines[1].removeprefix("Ok(()) "))
        actions, wanted = ["open", "resolve", "externs"], ["open 0", said, "externs 0"]
        if is_lone(case, slots):
            actions, wanted = [*actions, "slots"], [*wanted, f"program p slots {len(slots)}", *slots]
        yield CallsRow(case.name, files, actions, wanted)


def of_type_relocation(case, words, text):
    """Functions that are relocated to a kernel's types."""
    if len(words) != 1:
        return
    files = case.files["object"], case.files[words[0]], b""
    if text.startswith("Ok"):
        yield CallsRow(case.name, files, ["open", "types"], ["open 0", "types 0"])
    elif refusals.word(text) in PARSING:
        yield CallsRow(case.name, files, ["open"], [refused("open", refusals.of_parsing(text))])
    else:
        yield CallsRow(case.name, files, ["open", "types"], ["open 0", refused("types", refusals.of_type_relocation(text))])


def of_patching(case, words, text):
    """The value of one variable; `words` is its name and whether it has to be there."""
    if len(words) != 2:
        return
    name, must = words
    value = case.files.get(name, b"").hex()
    files = case.files["object"], b"", b""
    found = re.fullmatch(r"(?:Ok\(\(\)\)|Err\((.*)\)) \[(.*)\]", text)
    said = refused("value", refusals.of_parsing(found[1])) if found[1] else "value 0"
    digits = "".join(f"{int(byte):02x}" for byte in found[2].split(", ") if byte)

    def judge(lines):
        data = "".join(line.rpartition(" data ")[2] for line in lines[2:] if line.startswith("map "))
        return None if lines[1] == said and digits in data else f"{lines} in place of {said}, {digits}"

    yield CallsRow(case.name, files, ["open", f"value={name}:{must}:{value}", "listed"], judge)


def of_sanitizing(case, words, text):
    files = case.files["object"], b"", b""
    wanted = text.partition(" asked")[0].split()

    def judge(lines):
        found = [str(int.from_bytes(bytes.fromhex(line[8:16]), "little")) for line in lines if line.startswith("8500")]
        return None if found == wanted else f"{lines} in place of {wanted}"

    yield CallsRow(case.name, files, ["open", f"sanitize={int(words[0] == 'newer')}", "slots"], judge)


def of_linking(case, words, text):
    """What `ebpf-link` prints, by one call and by each pass of its own."""
    options = dict(word.split("=") for word in words)
    if "program" in options:
        return
    types = case.files[options["types"]] if "types" in options else b""
    files = case.files["object"], types, case.files.get("kallsyms", b"")
    status, *lines = text.split("\n")
    passes = ["open", *(["types"] if types else []), "maps", "resolve", "externs", "calls"]
    if status == "status 0":
        slots = program_lines("\n".join(lines))
        yield CallsRow(case.name, files, ["prepare", "slots"], ["prepare 0", *slots])
        yield CallsRow(case.name, files, [*passes, "slots"], [*(f"{name} 0" for name in passes), *slots])
        return
    names, wanted = refusals.variants(), lines[0].removeprefix("ebpf-link: ")

    def number_of(line):
        return names.get(int(line.split()[1]))

    def judge_one(lines):
        return None if number_of(lines[0]) == wanted else f"{lines} in place of {wanted}"

    def judge_passes(lines):
        first = next((line for line in lines if line.split()[1] != "0"), "none 0")
        return None if number_of(first) == wanted else f"{lines} in place of {wanted}"

    yield CallsRow(case.name, files, ["prepare"], judge_one)
    if not wanted.startswith("btf"):
        yield CallsRow(case.name, files, passes, judge_passes)


OF = {
    "parsed": of_parsing,
    "linked": of_linking_programs,
    "fds_written": of_fds,
    "resolved": of_resolving,
    "types_relocated": of_type_relocation,
    "patched": of_patching,
    "sanitized": of_sanitizing,
    "link": of_linking,
}


def rows_of(case):
    """What a case says that the C interface can be asked too."""
    if "object" not in case.files:
        return
    for action, text in case.gives.items():
        name, *words = action.split()
        if name in OF:
            yield from OF[name](case, words, text)

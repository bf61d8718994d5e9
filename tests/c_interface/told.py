"""What the tools of LLVM and bpftool tell of an object that clang made, and what its `.BTF.ext` says."""
import json
import re
import struct
import subprocess
import tempfile
from dataclasses import dataclass
from functools import cached_property
from pathlib import Path

# The numbers that the members of a map's struct say, by where they are listed.
NUMBERS = {"type": "type", "key_size": "key", "value_size": "value", "max_entries": "entries", "map_flags": "flags", "map_extra": "extra"}


def output(*words):
    return subprocess.run([str(word) for word in words], capture_output=True, text=True, check=True).stdout


@dataclass
class Symbol:
    name: str
    section: int
    address: int


@dataclass
class Field:
    """A CO-RE record; its place is counted in slots."""

    place: int
    type_id: int
    path: str
    kind: int


@dataclass
class Records:
    """The records of one section's name: the places of functions, counted in slots, those of lines with their positions,
    and the fields that are asked for."""

    functions: list
    lines: list
    fields: list


class Told:
    """An object, and what is told of it by the tools whose names end in a version."""

    def __init__(self, version, path):
        self.version, self.path = version, path

    def llvm(self, tool, *words):
        return output(f"llvm-{tool}{self.version}", *words, self.path)

    @cached_property
    def is_big(self):
        return "big endian" in self.llvm("readelf", "-h")

    @cached_property
    def sections(self):
        """The names of the sections, in the order of their indices."""
        rows = re.findall(r"^ +\[ *\d+\] (.*?) +[A-Z_]+ +[0-9a-f]{16} ", self.llvm("readelf", "-S", "-W"), re.MULTILINE)
        return [name.strip() for name in rows]

    @cached_property
    def functions(self):
        """The symbols of functions."""
        rows = re.findall(r"^ +\d+: ([0-9a-f]+) +\d+ FUNC +\w+ +\w+ +(\d+) (\S+)$", self.llvm("readelf", "-s", "-W"), re.MULTILINE)
        return [Symbol(name, int(section), int(address, 16)) for address, section, name in rows]

    @cached_property
    def slots(self):
        """The slots of each function as the disassembler has them, by name."""
        found, name = {}, None
        for line in self.llvm("objdump", "-d").splitlines():
            if head := re.fullmatch(r"[0-9a-f]{16} <(?!LBB)(.*)>:", line):
                name = head[1]
            elif row := re.match(r"\s+\d+:\t((?:[0-9a-f]{2}\s)+)", line):
                data = bytes.fromhex(row[1])
                found.setdefault(name, []).extend(data[at : at + 8] for at in range(0, len(data), 8))
        return found

    def bytes_of(self, section):
        with tempfile.NamedTemporaryFile() as out:
            output(f"llvm-objcopy{self.version}", f"--dump-section={section}={out.name}", self.path, "/dev/null")
            return Path(out.name).read_bytes()

    @cached_property
    def types(self):
        return {row["id"]: row for row in json.loads(output("bpftool", "-j", "btf", "dump", "file", self.path))["types"]}

    def size(self, kind):
        """The size of a type, which others may name."""
        of = self.types[kind]
        return of["size"] if "size" in of else self.size(of["type_id"])

    def number(self, member):
        """What a member of a map's struct says: where it is listed, and what stands there."""
        of, name = self.types[member["type_id"]], member["name"]
        if name == "values":
            return {"value": 4}
        if name in ("key", "value"):
            return {name: self.size(of["type_id"]), f"{name} id": of["type_id"]}
        if of["kind"].startswith("ENUM"):
            return {NUMBERS[name]: of["values"][0]["val"] % 2**64}
        return {NUMBERS[name]: self.types[of["type_id"]]["nr_elems"]}

    @cached_property
    def maps(self):
        """The BTF-defined maps, by name: for each the numbers that its struct says."""
        entries = [row["vars"] for row in self.types.values() if row["kind"] == "DATASEC" and row["name"] == ".maps"]
        variables = [self.types[entry["type_id"]] for held in entries for entry in held]
        members = {row["name"]: self.types[row["type_id"]]["members"] for row in variables}
        return {name: {at: value for member in held for at, value in self.number(member).items()} for name, held in members.items()}

    def named(self, field):
        """The struct's name and the member's, of a record on a member of a struct."""
        of, (_, member) = self.types[field.type_id], field.path.split(":")
        return of["name"], of["members"][int(member)]["name"]

    def offset(self, struct_name, member_name):
        """Where the member of a struct begins, in bytes."""
        (of,) = [row for row in self.types.values() if row["kind"] == "STRUCT" and row["name"] == struct_name]
        return next(row["bits_offset"] for row in of["members"] if row["name"] == member_name) // 8

    def records_of(self, function):
        """The records of a function's section."""
        return self.records.get(self.sections[function.section], Records([], [], []))

    @cached_property
    def records(self):
        """The records of `.BTF.ext`, by the names of their sections."""
        if ".BTF.ext" not in self.sections:
            return {}
        order = ">" if self.is_big else "<"
        data, types = self.bytes_of(".BTF.ext"), self.bytes_of(".BTF")
        head, strings = struct.unpack_from(order + "I8xI", types, 4)
        text = lambda at: types[head + strings + at :].split(b"\0", 1)[0].decode()
        parts, found = parts_of(order, data), {}
        for part, name, rows in [(part, *block) for part in parts for block in blocks(order, parts[part])]:
            records = found.setdefault(text(name), Records([], [], []))
            if part == "functions":
                records.functions += [place // 8 for place, *_ in rows]
            elif part == "lines":
                records.lines += [(place // 8, position) for place, _, _, position in rows]
            else:
                records.fields += [Field(place // 8, of, text(path), kind) for place, of, path, kind in rows]
        return found


def parts_of(order, data):
    """The parts of `.BTF.ext`, by what their records are about."""
    head, *words = struct.unpack_from(order + "I6I", data, 4)
    ranges = zip(["functions", "lines", "fields"], words[::2], words[1::2])
    return {name: data[head + at : head + at + size] for name, at, size in ranges}


def blocks(order, part):
    """The blocks of such a part: the offset of a section's name, and the words of each record."""
    at = 4
    while at < len(part):
        (width,) = struct.unpack_from(order + "I", part)
        name, count = struct.unpack_from(order + "II", part, at)
        yield name, [struct.unpack_from(f"{order}{width // 4}I", part, at + 8 + width * row) for row in range(count)]
        at += 8 + width * count

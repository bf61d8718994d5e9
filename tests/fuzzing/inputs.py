"""Inputs by number: an object, types and symbols. Those with even numbers are made from parts, the others are damaged."""
import os
from pathlib import Path

import make_rows
from fuzzing import limits
from fuzzing.chances import Chance
from fuzzing.changes import changed, changed_lines, changed_types
from fuzzing.objects import Maker
from growths.inputs import section
from rows import references
from rows.btf import btf, integer, struct_of
from rows.btf_one_int import count_types

TOP = Path(__file__).parents[2]

LINES = b"ffffffff82a0c940 D init_task\n1000 D v\n2000 T f\n3000 D w [m]\nffffffff81000010 t other\n"

# The longest object, and the longest types and symbols.
LONGEST = 65536


# Names of sections that lenient parsing takes alone, and stated ones of the same length.
RENAMED = {b"\0tc\0": b"\0tp\0", b"?kprobe/": b"kprobe//", b"struct_ops/": b"uprobe/ops/"}


def renamed(data):
    for name, stated in RENAMED.items():
        data = data.replace(name, stated)
    return data


def own_types(data):
    """The types of an object, or None."""
    try:
        return section(data, ".BTF")
    except (IndexError, KeyError, ValueError):
        return None


def data_files(name):
    """The files of this name in the data of crates and test drivers."""
    return [*sorted(TOP.glob(f"crates/*/data/{name}")), *sorted(TOP.glob(f"tests/drivers/*/data/{name}"))]


class Files:
    """The real files that are damaged, and types to go with them."""

    def __init__(self):
        cases = make_rows.cases_of(make_rows.OBJECTS + make_rows.CORE + make_rows.TYPES)
        paths = [*data_files("*.o"), *sorted(TOP.glob("tests/objects/*.o"))]
        found = [path.read_bytes() for path in paths]
        self.compiled = list(dict.fromkeys([*found, *map(renamed, found)]))
        self.small = row_files(cases, "object")
        self.own = {data: own_types(data) for data in [*self.compiled, *self.small]}
        tasks = struct_of("task_struct", 16, ("state", 1, 0), ("pid", 1, 32), ("tgid", 1, 96))
        self.types = [references.KERNEL, btf(integer("int", 4), tasks)]
        self.types += [path.read_bytes() for path in data_files("*.btf")]
        self.other_types = [data for data in row_files(cases, "kernel", "types") if count_types(data).isdigit()]

    def object(self, chance):
        return chance.choice(self.compiled if chance.random() < 0.5 else self.small)

    def kernel(self, chance, data):
        """A kernel's types for an object: its own often, else some."""
        own = self.own[data]
        if own and chance.random() < 0.5:
            return own
        return chance.choice(self.types if chance.random() < 0.5 else self.other_types)


def row_files(cases, *names):
    """The different files of these names that the rows have, but for large ones."""
    found = {}
    for case in cases:
        for name in names:
            data = case.files.get(name, b"")
            if 0 < len(data) < 20000:
                found[data] = None
    return list(found)


class Case:
    """The files of an input (None where there are none), and the words of the command line behind them."""

    def __init__(self, kind, object_file, types, lines, more=()):
        self.kind, self.more = kind, list(more)
        self.parts = {"object": object_file, "types": types, "kallsyms": lines}

    def files(self):
        return {name: data for name, data in self.parts.items() if data is not None}

    def words(self, folder):
        """The words of a command line, where the files are in a folder."""
        words = [os.path.join(folder, "object")]
        for option, name in (("--btf", "types"), ("--kallsyms", "kallsyms")):
            if self.parts[name] is not None:
                words += [option, os.path.join(folder, name)]
        return words + self.more

    def write(self, folder):
        for name, data in self.files().items():
            with open(os.path.join(folder, name), "wb") as out:
                out.write(data)


def more_words(chance):
    """Words that ask for one program, or that no command line has."""
    at = chance.randrange(100)
    if at < 2:
        return ["--program", chance.choice(["p", "p0", "on_enter", "", "\n", "nothing"])]
    if at == 2:
        return [chance.choice(["--btf", "--program", "second", "--nothing", "-"])]
    return []


def made(chance):
    """An input that is made from parts."""
    while True:
        maker = Maker(chance)
        data = limits.some(chance, maker.make(), limits.Layout(maker.file, maker.table, maker.order))
        types = limits.of_types(chance, maker.kernel()) if not chance.one_in(5) else None
        lines = maker.lines() if chance.random() < 0.6 else None
        if max(len(data), len(types or b"")) <= LONGEST:
            return Case("made", data, types, lines, more_words(chance))


def damaged(chance, files):
    """A real object that is damaged, with types and symbols."""
    real = files.object(chance)
    data = changed(chance, real, files.object(chance))
    types = files.kernel(chance, real) if chance.random() < 0.7 else None
    if types is not None and chance.random() < 0.4:
        types = changed_types(chance, types)
    lines = None
    if chance.random() < 0.6:
        lines = changed_lines(chance, LINES) if chance.random() < 0.5 else LINES
    return Case("damaged", data[:LONGEST], types, lines, more_words(chance))


def case_of(files, seed, number):
    """The input of a number."""
    chance = Chance(f"{seed} {number}")
    return damaged(chance, files) if number % 2 else made(chance)

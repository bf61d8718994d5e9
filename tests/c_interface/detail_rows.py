"""The numbers that refusals tell of their errors: rows for each, and whether docs/C.md lists those that rows have."""
import re

from c_interface.builds import TOP
from c_interface.loader_rows import INNER_SIZE, VALUES, declared_maps, holding
from c_interface.refusals import DETAILS
from c_interface.runs import CallsRow
from rows import prepared, values
from rows.elf import changed

# The type of a map that is a hash of maps.
HASH_OF_MAPS = 13

# The program of `prepared.two_maps` before descriptors are written.
MAPS_AS_OPENED = ["program p slots 3", "1801000000000000", "0000000000000000", "9500000000000000"]


def rows():
    """Refusals whose numbers no other row asks for."""
    variables = values.variables()
    yield CallsRow("a value is too short", (variables, b"", b""), ["open", "value=a:must:01"], ["open 0", "value 150 a {size 4 other_size 1}"])
    yield CallsRow("a value passes its map", (variables, b"", b""), ["open", "value=past:must:0102"], ["open 0", "value 150 past {size 2 other_size 2}"])
    yield CallsRow("a limit", (variables, b"", b""), ["open_within=1000000"], ["open_within 0"])
    yield CallsRow("a limit that is passed", (variables, b"", b""), ["open_within=100:broad"], ["open_within 157 {size 100}"])
    yield CallsRow("another machine", (changed(variables, 18, b"\x3e\0"), b"", b""), ["open", "open_broad"], ["open 0", "open_broad 158 {kind 62}"])
    hashed = holding([(INNER_SIZE + VALUES, 1)], declared_maps(kind=HASH_OF_MAPS, key=3)).bytes()
    yield CallsRow("keys of two bytes", (hashed, b"", b""), ["open", "initial"], ["open 0", "initial 824 outer {size 2}"])
    maps, extern = (prepared.two_maps(), b"", b""), (prepared.called_extern(), b"", b"")
    yield CallsRow("a map without a row, prepared", maps, ["open", "prepare_handle=n:4", "slots"], ["open 0", "prepare_handle 320 m", *MAPS_AS_OPENED])
    yield CallsRow("a row of no map, prepared", maps, ["open", "prepare_handle=m:3,mm:4", "slots"], ["open 0", "prepare_handle 321 mm", *MAPS_AS_OPENED])
    yield CallsRow("an extern that is not written", extern, ["prepare"], ["prepare 620 e"])


def table():
    """The numbers of refusals with the details that docs/C.md lists for each, in the order in which `calls` prints them."""
    text, found = (TOP / "docs/C.md").read_text(), {}
    rows = re.findall(r"^\| ([\d, to]+) \| (`.*?`) \|", text, re.MULTILINE)
    for numbers, fields in rows:
        names = [name.removesuffix("_id") for name in re.findall(r"`(\w+)`", fields)]
        for first, last in re.findall(r"(\d+)(?: to (\d+))?", numbers):
            for number in range(int(first), int(last or first) + 1):
                found[number] = sorted(names, key=DETAILS.index)
    return found


def answers(rows):
    """The answers that rows want: a row, a number from 100 on, and the names of the details."""
    for row in rows:
        lines = [] if callable(row.wanted) else row.wanted
        names = {action.split("=")[0] for action in row.actions}
        for line in lines:
            found = re.fullmatch(r"(\w+) ([1-9]\d\d)(?: .*?)??(?: \{(.*)\})?", line)
            if found and found[1] in names:
                yield row, int(found[2]), (found[3] or "").split()[::2]


def page_faults(rows):
    """What is wrong with the table, as (what, fault): a row with other details, or a detail that no row has."""
    listed, had = table(), set()
    for row, number, names in answers(rows):
        had |= set(names)
        wanted = listed.get(number, [])
        yield f"{number}, {row.name}", None if names == wanted else f"{names} in place of {wanted}"
    for name in DETAILS:
        yield f"a row with {name}", None if name in had else "there is none"

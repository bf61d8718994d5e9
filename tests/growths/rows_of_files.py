"""The small files of the test programs' rows: objects are prepared by the library for C, types are parsed by the driver,
whatever the answer."""
import make_rows
from growths.call_row import CallRow
from rows.elf import File

# Larger files take long and have nothing new.
LARGEST = 6000


def is_small(files):
    return all(data is not None and len(data) <= LARGEST for data in files)


def objects():
    """The different files of rows of objects, each an object, a kernel's types and its symbols, by the row's name."""
    found = {}
    for case in make_rows.cases_of(make_rows.OBJECTS + make_rows.CORE):
        files = case.files
        types = files.get("kernel", files.get("types", b""))
        held = files.get("object"), types, files.get("kallsyms", b"")
        if is_small(held):
            found.setdefault(held, case.name)
    return {name: held for held, name in found.items()}


def types():
    """Types are parsed, and what is said of instructions beside them."""
    for case in make_rows.cases_of(make_rows.TYPES):
        data, said = (case.files.get(name, b"") for name in ("types", "ext"))
        if not data or not is_small([data, said]):
            continue
        yield data, CallRow(f"rows: {case.name}, parsed", (b"", data, b""), "parse_types", starts=None)
        if said:
            file = File().data(".BTF", data).data(".BTF.ext", said).bytes()
            yield file, CallRow(f"rows: {case.name}, of instructions", (file, b"", b""), "code", "ext", starts=None)


def rows():
    """A row for each different file of types."""
    found = {}
    for key, row in types():
        found.setdefault(key, row)
    return list(found.values())

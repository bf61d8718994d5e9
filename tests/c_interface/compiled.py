"""What both readings answer to the objects that clang makes, beside what told.py tells of them."""
import multiprocessing
import os
import re
import shutil
import struct

from c_interface.kinds import numbers_read
from c_interface.map_ids import created_with
from c_interface.recipes import Recipe, defined, make, recipes
from c_interface.runs import run
from c_interface.told import Told
from rows import broad, loaded_names

# The compilers and the tools of LLVM that are tried, by what stands behind their names.
VERSIONS = ["", "-19"]

ACTIONS = ["programs", "named", "slots", "listed", "records", "info"]

# The class of a load's slot, and the kind of a record that asks where a field begins.
LOAD, BYTE_OFFSET = 1, 0


def programs(told):
    """The functions that are programs, by name."""
    found = [function for function in told.functions if not told.sections[function.section].startswith(".text")]
    return sorted(found, key=lambda function: function.name)


def section_name(told, function):
    """The name by which a program's section is listed: none where a later section has it too."""
    name = told.sections[function.section]
    return "" if name in told.sections[function.section + 1 :] else name


def kind_lines(told):
    for function in programs(told):
        name = told.sections[function.section]
        numbers = numbers_read(broad.broad(name), loaded_names.loaded(section_name(told, function)))
        yield f"program {function.name} {numbers} section {function.section} address {function.address}"


def name_lines(told):
    for function in programs(told):
        yield f"program {function.name} in '{section_name(told, function)}'"


def slot_lines(functions):
    """The slots of functions, by name."""
    for name, slots in functions.items():
        yield f"program {name} slots {len(slots)}"
        yield from (slot.hex() for slot in slots)


def map_lines(told):
    for name, numbers in sorted(told.maps.items()):
        of = lambda key: numbers.get(key, 0)
        key_id, value_id = created_with(of("type"), of("key id"), of("value id"))
        yield (
            f"map {name} section {told.sections.index('.maps')} kind 2 type {of('type')} key {of('key')}:{key_id} value "
            f"{of('value')}:{value_id} entries {of('entries')} flags {of('flags')} extra {of('extra')} pinning 0 data "
        )


def record_lines(told):
    """The records of programs, which count from the first slot of each."""
    for function in programs(told):
        records, first = told.records_of(function), function.address // 8
        end = first + len(told.slots[function.name])
        functions = [f" {place - first}" for place in records.functions if place == first]
        lines = [f" {place - first}/{position}" for place, position in records.lines if first <= place < end]
        yield f"records {function.name}:{''.join(functions)} of {len(functions)},{''.join(lines)} of {len(lines)}"


def has_fields(told):
    return any(records.fields for records in told.records.values())


def info_line(told):
    license = told.bytes_of("license").split(b"\0")[0].hex()
    return f"info big {told.is_big:d} version 0 0 types 1 relocations {has_fields(told):d} typed 0 license {license}"


def wanted(told):
    slots = {function.name: told.slots[function.name] for function in programs(told)}
    lines = [*kind_lines(told), *name_lines(told), *slot_lines(slots), *map_lines(told), *record_lines(told)]
    return [*lines, info_line(told)]


def moved_slots(told, kernel, function):
    """The slots of a program once each load of a field says where a kernel has the field."""
    slots, first = list(told.slots[function.name]), function.address // 8
    for field in told.records_of(function).fields:
        at = field.place - first
        if not 0 <= at < len(slots):
            continue
        assert field.kind == BYTE_OFFSET and slots[at][0] & 7 == LOAD
        slots[at] = slots[at][:2] + struct.pack("<h", kernel.offset(*told.named(field))) + slots[at][4:]
    return slots


def difference(given, lines):
    """The first line that differs, or None."""
    status, found, err = given
    if status or err:
        return f"status {status}, {err[:600]}"
    for number, (line, want) in enumerate(zip([*found, "no line"], [*lines, "no line"]), 1):
        if line != want:
            return f"line {number}: {line!r} in place of {want!r}"
    return None


def opened(calls, path, told, action, answer):
    """What is wrong with the answer of a reading, or with the object that it gives."""
    lines, asked = [f"{action} {answer}"], [action]
    if answer == "0":
        lines, asked = [*lines, *wanted(told)], [*asked, *ACTIONS]
    status, found, err = run([str(calls), str(path), "/dev/null", "/dev/null", *asked])
    # which id a compiler gives a type no recipe says
    found[:1] = [re.sub(r" \{type \d+\}$", "", line) for line in found[:1]]
    return difference((status, found, err), lines)


def relocated(calls, path, told, kernel):
    """What is wrong with the slots that are relocated to a kernel."""
    slots = {function.name: moved_slots(told, kernel, function) for function in programs(told)}
    words = [str(calls), str(path), str(types_of(kernel)), "/dev/null", "open_broad", "types", "slots"]
    return difference(run(words), ["open_broad 0", "types 0", *slot_lines(slots)])


def judged(task):
    """What is wrong with an object that one version's tools make and tell of: what was asked, and None or the fault."""
    calls, path, recipe, kernel = task
    make(recipe, kernel.version, path)
    told = Told(kernel.version, path)
    name = f"{recipe.name}, by clang{kernel.version}"
    found = [(f"{name}, as stated", opened(calls, path, told, "open", recipe.stated))]
    found.append((f"{name}, broadly", opened(calls, path, told, "open_broad", recipe.broad)))
    if recipe.broad == "0" and has_fields(told):
        found.append((f"{name}, relocated", relocated(calls, path, told, kernel)))
    return found


def types_of(kernel):
    """Where the types of a kernel stand alone."""
    return kernel.path.with_suffix(".btf")


def moved_kernel(version, folder):
    """A kernel that has the fields elsewhere."""
    kernel = Told(version, folder / f"moved{version}.o")
    make(Recipe("a kernel", words=defined(MOVED="")), version, kernel.path)
    types_of(kernel).write_bytes(kernel.bytes_of(".BTF"))
    return kernel


def compared(calls, folder):
    """What differs, for each version of the tools that is there: a name, and None or the difference."""
    tasks = []
    for version in VERSIONS:
        tools = [f"{name}{version}" for name in ("clang", "llvm-objdump", "llvm-objcopy", "llvm-readelf")]
        if not all(map(shutil.which, [*tools, "bpftool"])):
            print(f"no {', '.join(tools)} with bpftool: nothing is compared with them")
            continue
        kernel = moved_kernel(version, folder)
        for number, recipe in enumerate(recipes()):
            tasks.append((calls, folder / f"compiled{version}-{number}.o", recipe, kernel))
    with multiprocessing.Pool(os.cpu_count()) as pool:
        for found in pool.imap(judged, tasks, 4):
            yield from found

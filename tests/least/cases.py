"""The test cases of CO-RE as objects and kernels' types: over the least types each has the same slots and refusals.

The cases are those of `tests/rows/core_*.py`: arrays, bit fields, members without a name, flavours, 64-bit enumerations,
other sizes, candidates that are missing, of another kind or ambiguous, and the limits of a search."""
from dataclasses import dataclass

from least.runs import needs_ids, outcome, reasons, write_least
from least.types import Types
from rows import (
    core_bit_fields,
    core_candidates,
    core_conflicts,
    core_fields,
    core_limits,
    core_matches,
    core_order,
    core_paths,
    core_places,
    core_slots,
    core_values,
)

MODULES = [core_places, core_paths, core_candidates, core_matches, core_fields, core_values, core_bit_fields]
MODULES += [core_conflicts, core_slots, core_order, core_limits]

# The size of types that are searched: removals are tried one by one.
SEARCHED = 4096


@dataclass
class Pair:
    """An object and a kernel's types, with the name of the test case."""

    name: str
    data: bytes
    kernel: bytes


def pairs():
    """Returns each object of the test cases with each kernel's types that relocate it."""
    found = {}
    for module in MODULES:
        for case in module.cases():
            for action in case.gives:
                words = action.split()
                if words[0] != "types_relocated" or "object" not in case.files or words[1] not in case.files:
                    continue
                pair = Pair(f"{case.name}: {words[1]}", case.files["object"], case.files[words[1]])
                found.setdefault((pair.data, pair.kernel), pair)
    return list(found.values())


@dataclass
class Compared:
    """What was seen of a pair: the outcome over the kernel's types, the least types, where they are written, whether the
    object needs the kernel's ids, and the differences."""

    wanted: object
    least: bytes = b""
    needs_ids: bool = False
    faults: tuple = ()


def compared(ebpf, pair, folder):
    """Compares the outcome of a pair over the least types with that over the kernel's types."""
    held, kernel, least = folder / "object.o", folder / "kernel.btf", folder / "least.btf"
    held.write_bytes(pair.data)
    kernel.write_bytes(pair.kernel)
    least.unlink(missing_ok=True)
    wanted = outcome(ebpf, held, kernel)
    made = write_least(ebpf, [held], kernel, least)
    if needs_ids(made):
        return Compared(wanted, needs_ids=True)
    if made.status:
        # an object or types that can't be read are refused by both commands
        is_right = wanted.status == made.status and not least.exists()
        return Compared(wanted, faults=() if is_right else (f"{pair.name}: {made}",))
    found = outcome(ebpf, held, least)
    faults = () if found == wanted else (f"{pair.name}: {found} in place of {wanted}",)
    told, others = reasons(ebpf, held, kernel), reasons(ebpf, held, least)
    if told != others:
        faults += (f"{pair.name}: {others} in place of {told}",)
    return Compared(wanted, least.read_bytes(), faults=faults)


def spare(ebpf, pair, folder, seen):
    """Yields each part of the least types of a pair that can be left out, so that each relocation has the same value, or
    none for the same reason."""
    held, smaller = folder / "object.o", folder / "smaller.btf"
    if not seen.least or len(seen.least) > SEARCHED:
        return
    wanted = reasons(ebpf, held, folder / "least.btf")
    for what, types in Types.read(seen.least).smaller():
        smaller.write_bytes(types.bytes())
        if reasons(ebpf, held, smaller) == wanted:
            yield f"{pair.name}: {what}"

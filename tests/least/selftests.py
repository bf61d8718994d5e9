"""The kernel's self-tests of CO-RE over the least types: tools/testing/selftests/bpf/progs of its source, compiled by hand.

Each test_core_reloc_X.c is an object, and each btf__core_reloc_X___Y.c has the types of a kernel for it. Both are compiled with
`clang -target bpf -O2 -g -mcpu=v3`, with libbpf's headers, into one folder."""
import tempfile
from pathlib import Path

from least.libbpf import slots
from least.runs import needs_ids, outcome, run, write_least

OBJECT, TYPES = "test_core_reloc_", "btf__core_reloc_"


def pairs(folder):
    """Returns each object with each kernel's types that are for it. Bit fields have two objects."""
    found = []
    for types in sorted(folder.glob(f"{TYPES}*.o")):
        shape = types.stem.removeprefix(TYPES).split("___")[0]
        for held in sorted(folder.glob(f"{OBJECT}*.o")):
            name = held.stem.removeprefix(OBJECT)
            if name == shape or name in (f"{shape}_direct", f"{shape}_probed"):
                found.append((held, types))
    return found


def words_of(given, held, types, least):
    """Yields what differs over the least types, by each reader, and the size beside bpftool's."""
    readers = [("ebpf", lambda over: outcome(given.ebpf, held, over))]
    readers += [(dump.parent.name + "/" + dump.name, lambda over, dump=dump: slots(dump, held, over)[:2]) for dump in given.dump]
    for name, read in readers:
        if read(types) != read(least):
            yield f"{name} gives other slots"
    yield f"{least.stat().st_size} bytes"
    if given.bpftool:
        theirs = least.with_suffix(".theirs")
        made = run("bpftool", "gen", "min_core_btf", types, theirs, held, seconds=10)
        yield f"bpftool {theirs.stat().st_size}" if made.status == 0 else "bpftool refuses"


def compare(given):
    """Prints a line for each pair. Returns how many have the same outcome, and the failures."""
    passed, failures = 0, []
    with tempfile.TemporaryDirectory() as made:
        for held, types in pairs(given.selftests):
            name, least = f"{held.stem} over {types.stem}", Path(made) / "least"
            plain = write_least(given.ebpf, [held], types, least)
            written = write_least(given.ebpf, [held], types, least, "--allow-ids")
            if written.status:
                print(f"{name}: refused")
                failures.append(f"{name}: {written}")
                continue
            found = [*(["needs ids"] if needs_ids(plain) else []), *words_of(given, held, types, least)]
            print(f"{name}: {', '.join(found)}")
            if "ebpf gives other slots" in found and not needs_ids(plain):
                failures.append(name)
            else:
                passed += 1
    return passed, failures

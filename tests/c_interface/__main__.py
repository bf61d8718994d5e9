"""Runs what is asked of the C interface; c_interface.sh says how it is called."""
import multiprocessing
import os
import sys
from pathlib import Path

import make_rows
from c_interface import builds, compiled, detail_rows, examples, exports, found_rows, growth_rows, habits, loader_rows, more_rows, page_code, record_rows, rows_of_objects, struct_ops_rows, verdict_rows
from c_interface.runs import Files, run
from growths.inputs import COUNTER, KERNEL, LINES, REFERENCES, SMALL, TASKS
from growths.run import Runner
from rows import core_limits, printed

# How many faults of a part are printed.
SHOWN = 20

HELD = {}


class Count:
    """How many passed, and the faults of the others."""

    def __init__(self):
        self.passed = self.failed = 0
        self.of_parts = {}

    def add(self, part, name, fault, times=1):
        if fault is None:
            self.passed += times
            return
        self.failed += 1
        self.of_parts[part] = self.of_parts.get(part, 0) + 1
        if self.of_parts[part] <= SHOWN:
            print(f"FAILED {part}: {name}: {fault}", flush=True)


def all_rows():
    objects = make_rows.cases_of(make_rows.OBJECTS)
    core = make_rows.cases_of(make_rows.CORE)
    limits = core_limits.cases() + core_limits.long_cases()
    for held in (objects, core, limits):
        printed.add_to(held)
    rows = [row for case in [*objects, *core, *limits] for row in rows_of_objects.rows_of(case)]
    rows += [row for case in [*core, *limits] for row in record_rows.rows_of(case)]
    return rows + more_rows.rows() + loader_rows.rows() + found_rows.rows() + record_rows.rows() + verdict_rows.rows() + struct_ops_rows.rows() + list(detail_rows.rows())


def begin(folder):
    """Each process has files and a runner of its own."""
    HELD["files"] = Files(folder)
    HELD["runner"] = Runner(folder)


def judge_calls(pair):
    """The program and the number of a row."""
    program, number = pair
    row = HELD["rows"][number]
    return program.name, row.fault(program, HELD["files"])


def judge_growths(number):
    return HELD["growths"][number].judge(HELD["runner"])


def given_to(name):
    """The files that a program is given which counts its own checks."""
    if name == "bounds":
        return SMALL, COUNTER, REFERENCES, KERNEL, LINES, loader_rows.loaded()
    return SMALL, COUNTER, loader_rows.loaded(), growth_rows.no_kind(), TASKS


def said_by(program, folder):
    """What `bounds` or `layer` says, as (passed, fault)."""
    files = Files(folder)
    words = [str(program), *map(files.path, given_to(program.name.partition("-")[0]))]
    status, lines, err = run(words)
    counts = lines[-1].split() if lines else []
    if status == 0 and not err and counts[1:3] == ["passed,", "0"]:
        return int(counts[0]), None
    return 0, f"status {status}, {lines[-12:]}, {err[:1500]}"


def of_calls(folder, count, made):
    """The rows by each compiler's program, the growths by the first."""
    names = [f"calls-{compiler}" for compiler in builds.compilers()]
    names.append(f"calls-{builds.compilers()[0]}-sanitized")
    HELD["rows"] = all_rows()
    HELD["growths"] = growth_rows.rows(made[names[0]].path)
    for what, fault in detail_rows.page_faults(HELD["rows"]):
        count.add("the table of details", what, fault)
    pairs = [(made[name].path, number) for name in names for number in range(len(HELD["rows"]))]
    with multiprocessing.Pool(os.cpu_count(), begin, [folder]) as pool:
        for name, fault in pool.imap(judge_calls, pairs, 16):
            count.add("rows", name, fault)
        for tally in pool.imap(judge_growths, range(len(HELD["growths"]))):
            count.add("growths", tally.row, None, tally.passed)
            for fault in tally.faults:
                count.add("growths", tally.row, fault)


def of_kernel(folder, library, count, made):
    """The loaders, where the kernel lets them."""
    why = examples.is_allowed(made[f"loader-{builds.compilers()[0]}"].path, folder)
    if why:
        print(f"nothing is loaded into the kernel here: {why}")
        return
    for name in [name for name in made if name.startswith("loader")]:
        for what, fault in examples.loads(made[name].path, folder):
            count.add("the kernel", what, fault)
    for what, fault in examples.rust_loads(folder, library):
        count.add("the kernel", what, fault)


def main(folder, library, words):
    count, made = Count(), {}
    for what, fault in builds.header_faults():
        count.add("the header", what, fault)
    count.add("the layer", "c/calls.c, c/strerror.c", builds.layer_fault("c_layer.py"))
    count.add("the layer", "examples/rust/ebpf-sys", builds.layer_fault("rust_sys.py"))
    count.add("the exports", "include/ebpf.h", "; ".join(exports.faults()) or None)
    for build in builds.programs(folder, library):
        count.add("builds", build.name, build.fault)
        made[build.path.name] = build
    if count.failed:
        print(f"{count.passed} passed, {count.failed} failed")
        return 1
    for name in [name for name in made if name.startswith(("bounds", "layer"))]:
        passed, fault = said_by(made[name].path, folder)
        count.add("bounds and the layer", name, fault, passed)
    for what, fault in habits.checked(Path(folder), library):
        count.add("habits", what, fault)
    of_calls(folder, count, made)
    for what, fault in compiled.compared(made[f"calls-{builds.compilers()[0]}"].path, Path(folder)):
        count.add("compiled", what, fault)
    for what, fault in [*examples.rust(folder, library), *examples.python(folder, library)]:
        count.add("examples", what, fault)
    for what, fault in page_code.of_pages(folder, library):
        count.add("the pages", what, fault)
    if "--no-kernel" not in words:
        of_kernel(folder, library, count, made)
    print(f"{count.passed} passed, {count.failed} failed")
    return 1 if count.failed else 0


if __name__ == "__main__":
    sys.exit(main(Path(sys.argv[1]), Path(sys.argv[2]), sys.argv[3:]))

#!/usr/bin/env python3
"""Writes the cases of the test programs and what each has to print of them: data/cases.txt and stdout of
tests/drivers/test_rows and tests/drivers/test_btf_rows, and stdout of bench/drivers/bench_prepare.
usage: make_rows.py

A new row: in the module of rows/ on its subject, or in a new one listed below, add to its cases() a
    Case("its name", bytes or {"name of a file": bytes}, {"action and its words": "the lines that it has to give"})
with files made by rows/elf.py and rows/btf.py. What has to be given is written by hand, from the definitions or from
another reader, and never taken from what the program prints. A new action is a function that gives its text and an arm of
the `match` in src/objects.rt of test_rows, in src/lib.rt of test_symbols, or in src/types.rt of test_btf_rows: it borrows
the object or the types and doesn't hold them, or its proof takes minutes; it calls an object by test_bare_calls, which tells
its answer and lets go of it. Then run this script, and `tests/quick.sh` compares.
"""
from pathlib import Path

from rows import (
    big_endian,
    broad,
    btf_added,
    btf_candidates,
    btf_ext,
    btf_ext_faults,
    btf_fits,
    btf_kinds,
    btf_matches,
    btf_one_int,
    compiled,
    core_bit_fields,
    core_candidates,
    core_conflicts,
    core_fields,
    core_limits,
    core_matches,
    core_order,
    core_paths,
    core_places,
    core_slots,
    core_values,
    btf_defined_maps,
    externs,
    linked,
    kallsyms,
    externs_written,
    loaded_names,
    many_types,
    fds_written,
    maps,
    names,
    order,
    prepared,
    printed,
    programs,
    records,
    references,
    resolved,
    small_object,
    license_and_version,
    texts,
    type_faults,
    values,
)
from rows.case import write_cases

TOP = Path(__file__).parents[1]
DRIVERS = TOP / "tests/drivers"

OBJECTS = [small_object, programs, texts, license_and_version, order, maps, btf_defined_maps, externs, type_faults, records, linked]
OBJECTS += [fds_written, externs_written, resolved, prepared, printed, values, names, loaded_names, compiled, references, big_endian, broad]
OBJECTS += [kallsyms]

TYPES = [btf_one_int, btf_kinds, btf_added, btf_candidates, btf_fits, btf_matches, btf_ext, btf_ext_faults]

# Relocations by types; their limits take long.
CORE = [core_places, core_paths, core_candidates, core_matches, core_fields, core_values, core_bit_fields]
CORE += [core_conflicts, core_slots, core_order]


def cases_of(modules):
    return [case for module in modules for case in module.cases()]


if __name__ == "__main__":
    objects = cases_of(OBJECTS)
    core = {"core_relo": cases_of(CORE), "core_limits": core_limits.cases()}
    for held in [objects, *core.values()]:
        printed.add_to(held)
    write_cases(DRIVERS / "test_rows", objects, **core)
    pairs = {"most_pairs": btf_fits.most_pairs(), "too_many_pairs": btf_fits.too_many_pairs()}
    write_cases(DRIVERS / "test_btf_rows", cases_of(TYPES), **pairs)
    (TOP / "bench/drivers/bench_prepare/stdout").write_text("".join(line + "\n" for line in many_types.expected_lines()))

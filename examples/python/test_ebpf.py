"""Tests of `ebpf.py` over files of the repository, and of its structs and calls over the header.

usage: EBPF_LIBRARY=PATH python3 -m unittest      in this folder"""
import ctypes as c
import os
import re
import subprocess
import tempfile
import unittest
from pathlib import Path

import ebpf

TOP = Path(__file__).resolve().parents[2]
HEADER = TOP / "include/ebpf.h"
COUNTER = (TOP / "tests/drivers/test_rows/data/counter.o").read_bytes()
SMALL = (TOP / "crates/ebpf_link/data/call.o").read_bytes()
KCONFIG = (TOP / "tests/objects/kernel_parts_14.o").read_bytes()
COUNTER_MAPS = {"counts": 5, ".bss": 6, ".rodata": 7, "tables": 8}
NO_TYPES = bytes([0x9F, 0xEB, 1, 0, 24, 0, 0, 0, *[0] * 12, 1, 0, 0, 0, 0])


def held(name):
    """The object in a source of the driver test_object_calls."""
    text = (TOP / "tests/drivers/test_object_calls/src" / name).read_text()
    return bytes.fromhex("".join(re.findall(r'"([0-9a-f]+)"', text.partition("const OBJECT")[2].partition("];")[0])))


# The structs by their names in C.
STRUCTS = {
    re.sub(r"(?<!^)(?=[A-Z])", "_", name.strip("_")).lower(): kind
    for name, kind in vars(ebpf).items()
    if isinstance(kind, type) and issubclass(kind, c.Structure)
}
STRUCTS["object_info"] = STRUCTS.pop("info")

NUMBERS = {"uint32_t": c.c_uint32, "uint64_t": c.c_uint64, "size_t": c.c_size_t}


def assertions():
    """Assertions in C on the layout of each struct."""
    for name, kind in STRUCTS.items():
        yield f'_Static_assert(sizeof(struct ebpf_{name}) == {c.sizeof(kind)}, "{name}");'
        for field, *_ in kind._fields_:
            place, it = getattr(kind, field), f"((struct ebpf_{name} *)0)->{field}"
            yield f'_Static_assert(offsetof(struct ebpf_{name}, {field}) == {place.offset}, "{name}.{field}");'
            yield f'_Static_assert(sizeof({it}) == {place.size}, "{name}.{field}");'


def prototypes():
    """The calls of the header, each with the types of its parameters."""
    text = re.sub(r"/\*.*?\*/", "", HEADER.read_text(), flags=re.DOTALL)
    form = r"^(?:EBPF_CHECKED )?((?:const )?(?:struct )?\w+ \*?)(ebpf_\w+)\(([^()]*)\)[^;{}]*;"
    for result, name, words in re.findall(form, text, re.MULTILINE):
        yield name, [result.strip()], [re.sub(r"\w+$", "", " ".join(it.split())).strip() for it in words.split(",") if it.strip() != "void"]


def fits(kind, in_c):
    """Whether a parameter has the type that the header states."""
    if in_c in NUMBERS:
        return kind is NUMBERS[in_c]
    if in_c == "void":
        return kind is None
    if in_c == "const char *const *":
        return kind is c.POINTER(c.c_char_p)
    base = in_c.removeprefix("const ").removesuffix("*").strip()
    if base in ("uint8_t", "char", "struct ebpf_handle", "struct ebpf_btf"):
        return kind in (c.c_char_p, c.c_void_p)
    if base in ("struct ebpf_handle *", "struct ebpf_btf *"):
        return kind is c.POINTER(c.c_void_p)
    wanted = NUMBERS.get(base) or STRUCTS[base.removeprefix("struct ebpf_")]
    return kind is c.POINTER(wanted)


class Header(unittest.TestCase):
    def test_structs_are_laid_out_as_in_c(self):
        with tempfile.TemporaryDirectory() as folder:
            path = Path(folder) / "layouts.c"
            path.write_text("\n".join(["#include <ebpf.h>", *assertions(), ""]))
            words = [os.environ.get("CC", "cc"), "-std=c11", "-fsyntax-only", f"-I{HEADER.parent}", str(path)]
            done = subprocess.run(words, capture_output=True, text=True)
        self.assertEqual(done.returncode, 0, done.stderr)
        self.assertEqual(len(STRUCTS), len(re.findall(r"^struct ebpf_\w+ \{", HEADER.read_text(), re.MULTILINE)))

    def test_calls_have_the_parameters_of_the_header(self):
        found = list(prototypes())
        self.assertEqual({name for name, *_ in found}, ebpf.CALLS.keys())
        for name, results, kinds in found:
            given = [ebpf.RESULTS.get(name, c.c_uint32), *ebpf.CALLS[name]]
            self.assertEqual(len(given), len(kinds) + 1, name)
            for kind, in_c in zip(given, results + kinds):
                self.assertTrue(fits(kind, in_c), f"{name}: {kind}, and {in_c} in the header")

    def test_version(self):
        number = ebpf.library.ebpf_version_number()
        self.assertEqual(ebpf.VERSION, f"{number // 1000000}.{number // 1000 % 1000}.{number % 1000}")


class Reading(unittest.TestCase):
    def test_lists(self):
        with ebpf.open(COUNTER) as object:
            rows = [(it.name, it.program_type, it.slots) for it in object.programs()]
            self.assertEqual(rows, [("on_packet", 6, 15), ("on_wake", 2, 13)])
            self.assertEqual([it.name for it in object.maps()], [".bss", ".rodata", "counts", "tables"])
            self.assertEqual(object.map("counts").shape.max_entries, 64)
            self.assertIsNotNone(object.map("tables").inner)
            self.assertIn(("xdp", 6), [(it.name, it.index) for it in object.sections()])
            self.assertEqual(object.program_section("on_packet"), "xdp")
            self.assertEqual((object.license(), object.states_license()), (b"GPL", True))
            self.assertEqual((object.info().has_types, object.info().kernel_version), (True, None))
            self.assertEqual((object.externs(), object.initial_slots(COUNTER)), ([], []))
            for program in object.programs():
                self.assertEqual(object.program(program.name), program)

    def test_refusals(self):
        with self.assertRaises(ebpf.Refused) as raised:
            ebpf.open(b"nothing")
        self.assertEqual((raised.exception.number, raised.exception.name), (100, "parse: TooShort"))
        self.assertEqual(str(raised.exception), "the file is too short for its header (100, parse: TooShort)")
        with ebpf.open(COUNTER) as object, self.assertRaises(ebpf.Refused) as raised:
            object.program("counts")
        self.assertEqual((raised.exception.number, raised.exception.about), (4, "counts"))

    def test_limits(self):
        ebpf.open(SMALL, max_bytes=14308).close()
        with self.assertRaises(ebpf.Refused) as raised:
            ebpf.open(SMALL, max_bytes=14307)
        self.assertEqual((raised.exception.number, raised.exception.details), (157, {"size": 14307}))

    def test_closed_objects(self):
        object = ebpf.open(SMALL)
        object.close()
        object.close()
        with self.assertRaises(ValueError):
            object.programs()

    def test_types(self):
        with ebpf.open(KCONFIG) as object:
            types = object.kernel_types(KCONFIG)
            with self.assertRaises(ebpf.Refused) as raised:
                object.kernel_types(b"no file")
            self.assertEqual(raised.exception.number, 700)
        self.assertEqual(types[:2], b"\x9f\xeb")
        self.assertEqual(ebpf.attach_target("xdp", types), (ebpf.NOT_WANTED, 0))
        self.assertEqual(ebpf.attach_target("fentry/no_such", types), (ebpf.NOT_FOUND, 0))


class Setting(unittest.TestCase):
    def test_values(self):
        with ebpf.open(COUNTER) as object:
            object.set_values({"wanted": b"\1\0\0\0"})
            self.assertEqual(object.map_data(".rodata"), b"\1\0\0\0")
            object.set_value("none", b"1", must_exist=False)
            for call in (lambda: object.set_value("wanted", b"1"), lambda: object.set_values({"wanted": b"1"})):
                with self.assertRaises(ebpf.Refused) as raised:
                    call()
                self.assertEqual((raised.exception.number, raised.exception.details), (150, {"size": 4, "other_size": 1}))
            long = "n" * 1000
            with self.assertRaises(ebpf.Refused) as raised:
                object.set_value(long, b"1")
            self.assertEqual((raised.exception.number, raised.exception.about), (151, long))
            self.assertEqual([(it.name, it.map, it.size) for it in object.variables() if it.name == "wanted"], [("wanted", ".rodata", 4)])

    def test_maps(self):
        with ebpf.open(COUNTER) as object:
            object.set_max_entries("counts", 7)
            object.set_value_size("counts", 16)
            object.set_map_data(".rodata", b"\1\2\3\4")
            object.use_older_helpers()
            shape = object.map("counts").shape
            self.assertEqual((shape.max_entries, shape.value_size, object.value("wanted")), (7, 16, b"\1\2\3\4"))

    def test_kconfig(self):
        with ebpf.open(KCONFIG) as object:
            self.assertIn(("LINUX_KERNEL_VERSION", 4), [(it.name, it.size) for it in object.kconfig()])
            self.assertEqual(object.kconfig_value("CONFIG_HZ", b"CONFIG_HZ=250\n"), (250).to_bytes(8, "little"))
            self.assertIsNone(object.kconfig_value("CONFIG_HZ", b""))
            version = object.kconfig_number("LINUX_KERNEL_VERSION", 0x60C00)
            with self.assertRaises(ebpf.Refused) as raised:
                object.define_kconfig({})
            self.assertEqual(raised.exception.number, 904)
            object.define_kconfig({"LINUX_KERNEL_VERSION": version})
            self.assertEqual(object.map_data(".kconfig")[8:12], version)


class Passes(unittest.TestCase):
    def test_prepare(self):
        object = ebpf.open(COUNTER)
        with self.assertRaises(ebpf.Refused) as raised:
            object.prepare(maps={"counts": 5})
        self.assertEqual(raised.exception.number, 320)
        with object.prepare(maps=COUNTER_MAPS) as prepared:
            self.assertEqual(len(prepared.slots("on_packet")), 33)
            self.assertTrue(prepared.func_infos("on_packet") and prepared.line_infos("on_packet"))
        with self.assertRaises(ValueError):
            object.prepare(maps=COUNTER_MAPS)

    def test_steps(self):
        object = ebpf.open(SMALL)
        self.assertEqual([(it.name, it.base) for it in object.link_map("p")], [("p", 0), ("f", 2)])
        self.assertEqual([(it.slot, it.base, it.is_call) for it in object.link_references("p")], [(0, 2, True)])
        steps = object.copy().steps()
        steps.relocate_maps({})
        with self.assertRaises(ebpf.Refused) as raised:
            steps.relocate_maps({})
        self.assertEqual(raised.exception.number, 11)
        with self.assertRaises(ebpf.Refused) as raised:
            steps.relocate_types(NO_TYPES)
        self.assertEqual(raised.exception.number, 12)
        steps.resolve_externs(b"", b"")
        steps.relocate_externs()
        self.assertEqual([len(it.slots("p")) for it in (steps.relocate_calls(), object.steps().finish())], [3, 2])

    def test_outcomes(self):
        with ebpf.open(COUNTER) as object:
            outcomes = object.outcomes(NO_TYPES)
            self.assertTrue(outcomes)
            self.assertEqual({(it.value, it.absence, it.fault) for it in outcomes}, {(None, 1, None)})

    def test_types_that_are_read_once(self):
        with ebpf.open(COUNTER) as object, ebpf.Types(NO_TYPES) as types:
            self.assertEqual(object.outcomes(types), object.outcomes(NO_TYPES))
            self.assertEqual(object.outcomes(object.least_types(types)), object.outcomes(NO_TYPES))
            for section in ("xdp", "fentry", "fentry/none"):
                self.assertEqual(ebpf.attach_target(section, types), ebpf.attach_target(section, NO_TYPES))
            steps, other = object.copy().steps(), object.copy().steps()
            steps.relocate_types(types)
            other.relocate_types(NO_TYPES)
            for it in (steps, other):
                it.relocate_maps(COUNTER_MAPS)
            steps.resolve_externs(types, b"")
            other.resolve_externs(NO_TYPES, b"")
            code = lambda it: [bytes(slot) for slot in it.slots("on_packet")]
            self.assertEqual(code(steps), code(other))
            with object.copy().prepare(types, maps=COUNTER_MAPS) as one, object.copy().prepare(NO_TYPES, maps=COUNTER_MAPS) as two:
                self.assertEqual(code(one), code(two))
        with self.assertRaises(ebpf.Refused) as raised:
            ebpf.Types(b"no types")
        self.assertEqual(raised.exception.number, 200)
        with self.assertRaises(ValueError):
            ebpf.attach_target("xdp", types)

    def test_verdicts(self):
        with ebpf.open(COUNTER) as object, ebpf.Types(object.kernel_types(COUNTER)) as own, ebpf.Types(NO_TYPES) as none:
            verdict = object.check(own)
            self.assertEqual((verdict.is_ok, verdict.programs_ok, verdict.programs_break, verdict.reasons), (True, 2, 0, []))
            verdict, outcomes = object.check(none), object.outcomes(none)
            self.assertFalse(verdict.is_ok)
            self.assertEqual(verdict.programs_ok + verdict.programs_break, 2)
            for reason in verdict.reasons:
                of = outcomes[reason.relocation]
                self.assertEqual((reason.kind, reason.subject, reason.fault), (6, "", None))
                self.assertEqual((reason.section, reason.address, reason.function_slot), (of.section, of.address, of.slot))
                self.assertIn(reason.program, {program.name for program in object.programs()})

    def test_arena(self):
        file = held("arenas.rs")
        with ebpf.open(file) as object:
            object.complete_maps(file)
            self.assertEqual(object.map_data("arena"), bytes([7, 0, 0, 0, 8, 0, 0, 0, 9, 0, 0, 0]))
            with self.assertRaises(ebpf.Refused) as raised:
                object.complete_maps(file, page_size=8)
            self.assertEqual((raised.exception.number, raised.exception.about), (1123, "arena"))

    def test_struct_ops(self):
        file = held("struct_ops.rs")
        with ebpf.open(file) as object, ebpf.open(SMALL) as small, ebpf.Types(NO_TYPES) as types:
            self.assertEqual(small.struct_ops_maps(SMALL, types), [])
            with self.assertRaises(ebpf.Refused) as raised:
                object.struct_ops_maps(file, types)
            self.assertEqual(raised.exception.number, 1222)

    def test_what_is_wanted(self):
        with ebpf.open(COUNTER) as object:
            self.assertFalse(object.wants_symbols())
            slots = object.maps_without_descriptors()
            self.assertEqual({it.map for it in slots}, set(COUNTER_MAPS))
            rest = object.maps_without_descriptors(["counts", "none"])
            self.assertEqual(rest, [it for it in slots if it.map != "counts"])


if __name__ == "__main__":
    unittest.main()

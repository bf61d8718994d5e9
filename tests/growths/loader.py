"""What a loader asks beside slots: types for the kernel, kconfig externs, initial values of maps, programs left out."""
import re

from checked.kconfig import BYTE, CONFIG, VERSION, pair, wanting
from checked.objects import object_of, program
from growths.call_row import CallRow
from growths.inputs import DRIVERS, TOP
from rows.btf import datasec, integer, variable, words
from rows.elf import EXIT, changed

TYPES = DRIVERS / "test_kernel_types/data"
PARTS = TOP / "tests/objects/kernel_parts_19.o"

# Version 6.12 as the value of an extern of four bytes, and a text of the configuration.
SIX_TWELVE = words([0x60C00])
NAMED = b'CONFIG_DEFAULT_HOSTNAME="(none)"\n'

# The object of test_object_calls, as its source has it; where the key's size of its hash of maps stands.
SOURCES = DRIVERS / "test_object_calls/src"
DIGITS = re.compile(r'^    "([0-9a-f]+)",$', re.MULTILINE)
SLOTS = bytes.fromhex("".join(DIGITS.findall((SOURCES / "initial_slots.rs").read_text())))
KEY_SIZE = 364

# The object with the programs `first` and `second`, the first one of its source.
CHOSEN = bytes.fromhex("".join(DIGITS.findall((SOURCES / "chosen.rs").read_text().partition("\n];")[0])))


def kernel_types():
    """Objects of each kind of section, and ones that are refused."""
    names = ["memdrop.o", "sections_of_all_kinds", "big_endian", "ksyms_function_without_an_int_of_4_bytes"]
    names += ["ksyms_functions", "kconfig_alignments", "hidden_functions", "hidden_variables", "all_kinds"]
    faults = ["btf_cut_type", "no_symbol", "ksyms_entry_of_an_int", "kconfig_of_4_gib"]
    return [
        CallRow(f"kernel_types, {name}", (TYPES / name, b"", b""), "kernel_types", starts=start)
        for start, held in {"Ok(Some(": names, "Err(": faults}.items()
        for name in held
    ]


def on(name, data, given, *calls, subject="object", starts="Ok"):
    return CallRow(name, (data, b"", given), subject, *calls, starts=starts)


def externs():
    """Externs of the configuration, of an object that is made and of one that clang made."""
    rows = []
    for subject, data in {"object": pair(), "broad": PARTS}.items():
        rows += [
            on(f"kconfig, {subject}", data, b"", "loader_kconfig", subject=subject),
            on(f"kconfig_value, {subject}", data, CONFIG, "loader_value=CONFIG_HZ", subject=subject, starts="Ok(Some("),
            on(f"define_kconfig, {subject}", data, SIX_TWELVE, f"loader_define={VERSION}", subject=subject),
        ]
    text = "loader_value=CONFIG_DEFAULT_HOSTNAME"
    return rows + [
        on("kconfig_value, a text", PARTS, NAMED, text, subject="broad", starts="Ok(Some("),
        on("kconfig_number", pair(), b"", f"loader_number={VERSION}"),
    ]


def refused_externs():
    """Externs that are refused, with their names in the errors."""
    unknown = object_of([program(EXIT)], [integer("u32", 4), variable("HZ", 1), datasec(".kconfig", 2)])
    define, byte = f"loader_define={VERSION}", wanting(BYTE, VERSION)
    return [
        on("kconfig, another name", unknown, b"", "loader_kconfig", starts="Err(UnknownName"),
        on("kconfig_value, no number", pair(), b"CONFIG_HZ=y\n", "loader_value=CONFIG_HZ", starts="Err(UnsuitedValue"),
        on("kconfig_number, too large", byte, b"", f"loader_number={VERSION}", starts="Err(ValueOutOfRange"),
        on("define_kconfig, no value", pair(), SIX_TWELVE, "loader_define=CONFIG_HZ", starts="Err(NoValue"),
        on("define_kconfig, another size", pair(), b"\0", define, starts="Err(WrongSize"),
    ]


def slots():
    """Initial values of maps. The object's file is read once more."""
    large = changed(SLOTS, KEY_SIZE, words([8]))
    return [
        on("initial_slots", SLOTS, SLOTS, "loader_slots", subject="broad"),
        on("initial_slots, large keys", large, large, "loader_slots", subject="broad", starts="Err(UnsupportedKeySize"),
        on("initial_slots, no file", SLOTS, b"foo", "loader_slots", subject="broad", starts="Err(ElfError"),
    ]


def chosen():
    """Programs that are left out, and one that the object lacks."""
    return [
        on("leave_out", CHOSEN, b"", "loader_leave_out=second", subject="broad"),
        on("leave_out, another name", CHOSEN, b"", "loader_leave_out=third", subject="broad", starts="Err(UnknownProgram"),
    ]


def rows():
    return kernel_types() + externs() + refused_externs() + slots() + chosen()

#!/usr/bin/env python3
"""Compares docs/ERRORS.md with the page that the output of tests/drivers/test_errors (its file stdout) gives.

It also compares that output with the variants that the sources declare, so that none is missing. Ends with
'N passed, M failed', and with status 1 if a line failed.

usage: errors_page.py [--write]      --write: writes the page

For a new variant, add a value to tests/drivers/test_errors, its line to stdout, and advice to ADVICE if there is any.
"""
import re
import sys
from pathlib import Path

TOP = Path(__file__).parents[1]
CRATES = TOP / "crates"
PAGE = TOP / "docs" / "ERRORS.md"
PRINTED = TOP / "tests/drivers/test_errors/stdout"

HEAD = """# Errors

Each public error by variant, with the sentence that it prints for one value. `tests/errors_page.py` makes this page.

Section numbers are those of `readelf -S`, symbol numbers those of `readelf -s`, type ids those of `bpftool btf dump`.
Relocations, instructions and members count from 0. Offsets and addresses are hexadecimal.

An error has numbers where the object has names. Two calls print the names, and allocate nothing:

- `object.explain(&error)`, of a `PrepareError`. Put an error of one pass into its stage's variant first, as
  `PrepareError::Maps(error)`. An error of `patch_map_data` goes into `Parse`.
- `ExplainedParse::new(bytes, &error)`, of a file that can't be parsed. It adds the place if the error has none.

The programs and the C interface report a variant, with its stage. Look it up under the stage's error. The tables leave
out two:

- `OutOfMemory` of each type: an allocation failed. It prints "out of memory".
- `InvalidTypeBinding` of `maps` and `programs`: `try_from` of `bpf_map_type` and `bpf_prog_type` got a number that is
  no type. It has no sentence.
"""

# For each type: its path in `ebpf_object`, the file that declares it, and its introduction on the page.
TYPES = {
    "prepare::PrepareError": (
        "ebpf_object/src/prepare_error.rt",
        "The errors of `prepare` and its neighbours: the stage, and its error. What to do is in that error's table.",
    ),
    "prepare::Explained": (None, "The sentences of `object.explain(&error)` that say more than the error's own."),
    "obj::ExplainedParse": (None, "The sentences of `ExplainedParse::new(bytes, &error)` that say more than the error's own."),
    "elf::ElfReadError": ("ebpf_elf/src/error.rt", "Errors in a file's tables. `ParseError::ElfError` and `SectionError` hold them."),
    "obj::ParseError": ("ebpf_parts/src/error.rt", "The errors of `Object::parse`, `parse_as` and `patch_map_data` (stage `parse`)."),
    "obj::VariableError": ("ebpf_object/src/variables.rt", "The errors of `set_value`."),
    "obj::BtfError": ("ebpf_btf/src/error.rt", "Errors in BTF. `Btf::parse` returns them (stage `btf`), and the `BtfError` variants of other errors hold them."),
    "maps::PinningError": ("ebpf_parts/src/maps/definition.rt", "The error of `PinningType::try_from`."),
    "core_relo::BtfRelocationError": (None, "The error of `relocate_btf` (stage `types`): the section, and the reason."),
    "core_relo::RelocationError": ("ebpf_core/src/error.rt", "The reasons why a CO-RE relocation can't be applied."),
    "relocation::EbpfRelocationError": (
        None,
        "The error of `relocate_maps`, `relocate_externs` and `relocate_calls` (stages `maps`, `externs`, `calls`): the function\n"
        "or the program, and the reason.",
    ),
    "relocation::RelocationError": (
        "ebpf_model/src/error.rt",
        "The reasons why slots can't be written or linked.\n\n"
        "`SectionNotFound` comes only without `Steps::complete`, or in the maps pass alone (docs/LIBRARY.md, step 4).",
    ),
    "extern_types::KsymsError": ("ebpf_ksyms/src/error.rt", "The errors of `resolve_externs` (stage `ksyms`)."),
    "ebpf_kconfig::KconfigError": ("ebpf_kconfig/src/error.rt", "The errors of `kconfig`, `define_kconfig`, `kconfig_value` and `kconfig_number`."),
    "ebpf_btf_maps::BtfMapError": ("ebpf_btf_maps/src/error.rt", "The errors of `complete_maps`."),
    "ebpf_exceptions::ExceptionError": ("ebpf_exceptions/src/error.rt", "The errors of `complete_programs`."),
    "ebpf_initial_slots::InitialSlotError": ("ebpf_initial_slots/src/error.rt", "The errors of `initial_slots`. `readelf -r` shows the relocations of `.maps`."),
    "ebpf_struct_ops::StructOpsError": (
        "ebpf_struct_ops/src/error.rt",
        "The errors of `struct_ops_variables`, `struct_ops_map`, `struct_ops_maps` and `check_uses`.",
    ),
    "ebpf_chosen_programs::LeaveOutError": ("ebpf_chosen_programs/src/error.rt", "The errors of `leave_out`."),
    "ebpf_btf_load::KernelTypesError": ("ebpf_btf_load/src/error.rt", "The errors of `kernel_types`. `bpftool btf dump file FILE` shows the types."),
    "ebpf_least_types::LeastTypesError": ("ebpf_least_types/src/error.rt", "The error of `least_types`."),
}

DAMAGED = "build the file again: it is cut or damaged"
BTF_DAMAGED = "compile again: the BTF is damaged"
EXT_DAMAGED = "compile again: `.BTF.ext` is damaged or of another file"
LICENSE = 'declare `char LICENSE[] SEC("license") = "GPL";`'
LENIENT = "compile with `-target bpfel`"
KCONFIG_TYPES = "declare it as `bool`, `enum libbpf_tristate`, `char`, an integer or `char NAME[N]`"

# What to do where the page's table says nothing, by type.
USUAL = {
    "elf::ElfReadError": (DAMAGED, "Where the last column is empty, the file is cut or damaged: build it again. `readelf -S` shows its sections."),
    "core_relo::RelocationError": (EXT_DAMAGED, "Where the last column is empty, `.BTF.ext` is damaged or of another file: compile again."),
    "obj::BtfError": (BTF_DAMAGED, "Where the last column is empty, the BTF is damaged: compile again. `bpftool btf dump file FILE` shows it."),
}

# What to do about a variant.
ADVICE = {
    "elf::ElfReadError::TooShort": DAMAGED,
    "elf::ElfReadError::BadMagic": "give the object that `clang -target bpf -c` writes",
    "elf::ElfReadError::NotElf64": "compile with `-target bpf`",
    "elf::ElfReadError::BadByteOrder": DAMAGED,
    "elf::ElfReadError::BadSectionTable": DAMAGED,
    "elf::ElfReadError::BadSectionRange": DAMAGED,
    "elf::ElfReadError::BadStringTable": DAMAGED,
    "elf::ElfReadError::BadSymbolTable": DAMAGED,
    "elf::ElfReadError::BadRelocationTable": DAMAGED,
    "elf::ElfReadError::ExtendedNumbering": "compile to fewer than 65,280 sections",
    "obj::ParseError::ElfError": "see `ElfReadError`",
    "obj::ParseError::BtfError": "see `BtfError`",
    "obj::ParseError::MissingLicenseNullTerminator": LICENSE,
    "obj::ParseError::InvalidLicense": LICENSE,
    "obj::ParseError::InvalidKernelVersion": 'declare `__u32 version SEC("version") = ..;`, or leave it out',
    "obj::ParseError::SectionError": DAMAGED,
    "obj::ParseError::UnsupportedRelocationTarget": "compile again",
    "obj::ParseError::InvalidProgramSection": "use a section name as `kprobe/NAME` or `xdp`, or parse leniently",
    "obj::ParseError::InvalidProgramCode": "compile again",
    "obj::ParseError::SymbolTableConflict": "leave out one of the two names",
    "obj::ParseError::UnknownSymbol": "don't strip symbols",
    "obj::ParseError::InvalidSymbol": "look at the symbol's address and size with `readelf -s`",
    "obj::ParseError::InvalidMapDefinition": "give the map 20 bytes or more, and pinning 0 or 1; keep a section of variables below 4 GiB",
    "obj::ParseError::InvalidGlobalData": "give a value of the variable's size",
    "obj::ParseError::SymbolNotFound": "name a variable of the object; don't strip symbols",
    "obj::ParseError::MapNotFound": "name a variable in a data section",
    "obj::ParseError::MapSymbolNameNotFound": "no call returns this error",
    "obj::ParseError::NoSymbolsForSection": "don't strip symbols",
    "obj::ParseError::BigEndianCode": LENIENT,
    "obj::ParseError::OtherMachine": LENIENT,
    "obj::ParseError::TooLarge": "raise the limit of `parse_within`",
    "obj::ParseError::NoBTF": "compile with `-g`, and don't strip `.BTF`",
    "obj::VariableError::NotAVariable": "give a name that `variables` lists; don't strip symbols",
    "obj::VariableError::WrongSize": "give a value of the size that `variables` gives",
    "obj::BtfError::InvalidHeader": BTF_DAMAGED,
    "obj::BtfError::InvalidTypeInfo": "compile again: the BTF is damaged, or has a kind above 19",
    "obj::BtfError::InvalidInfo": BTF_DAMAGED,
    "obj::BtfError::InvalidStringOffset": BTF_DAMAGED,
    "obj::BtfError::InvalidRelocationKind": "parse leniently: kind 12 (`bpf_core_type_matches`) is read there",
    "obj::BtfError::UnexpectedBtfType": "declare a map's members with libbpf's `__uint` and `__type`",
    "obj::BtfError::UnknownBtfType": BTF_DAMAGED,
    "obj::BtfError::UnknownBtfTypeName": "use a name that is among these types",
    "obj::BtfError::MaximumTypeDepth": "look for types in a cycle, or nested too deeply",
    "obj::BtfError::InvalidDatasec": "declare externs as functions or variables with `__ksym`",
    "obj::BtfError::InvalidSymbolName": "don't strip symbols",
    "obj::BtfError::InnerMapCannotBePinned": "leave `pinning` out of the inner map",
    "obj::BtfError::MultiLevelMapInMapNotSupported": "leave `values` out of the inner map",
    "obj::BtfError::InvalidValuesSpec": "declare `__array(values, struct inner)`",
    "obj::BtfError::TooLarge": "add types to a new `Btf`",
    "maps::PinningError::Unsupported": "give 0 or 1",
    "core_relo::RelocationError::SectionNotFound": EXT_DAMAGED,
    "core_relo::RelocationError::FunctionNotFound": EXT_DAMAGED + ", or the function has no symbol",
    "core_relo::RelocationError::InvalidAccessString": EXT_DAMAGED,
    "core_relo::RelocationError::InvalidInstructionIndex": EXT_DAMAGED,
    "core_relo::RelocationError::ConflictingCandidates": "give a kernel's BTF with only one of these types",
    "core_relo::RelocationError::MaximumNestingLevelReached": "access the field in steps",
    "core_relo::RelocationError::InvalidAccessIndex": EXT_DAMAGED,
    "core_relo::RelocationError::InvalidRelocationKindForType": "ask members for sign and shifts, enumerations for enumerators",
    "core_relo::RelocationError::InvalidInstruction": "read the field with `BPF_CORE_READ`: its value or size doesn't fit the instruction",
    "core_relo::RelocationError::MissingTargetDefinition": "no call returns this error",
    "core_relo::RelocationError::BtfError": "check the BTF of object and kernel: one is damaged",
    "relocation::RelocationError::UnknownSymbol": "compile again",
    "relocation::RelocationError::SectionNotFound": "give a descriptor by name for each map that an instruction refers to, `.data`, `.rodata` and `.bss` too",
    "relocation::RelocationError::InvalidRelocationOffset": "compare `readelf -r` with `llvm-objdump -d`",
    "relocation::RelocationError::ExternNotFound": "declare it with `__ksym` and compile with `-g`",
    "relocation::RelocationError::UnresolvableSymbol": "resolve externs first, for a call with the kernel's BTF; or declare it `__weak`",
    "relocation::RelocationError::MapAddressOverflow": "keep variables within the first 2 GiB of their section",
    "relocation::RelocationError::UnknownFunction": "link the files that have the functions (`bpftool gen object`); keep `.BTF`, and write externs first",
    "relocation::RelocationError::UnknownProgram": "change no program's key, and remove no program's function",
    "relocation::RelocationError::UnsupportedTextSymbol": "take the address of a function; `readelf -s` shows the symbol",
    "relocation::RelocationError::FunctionInfoMismatch": "compile all functions with `-g`, or none",
    "relocation::RelocationError::InvalidLineInfo": "compile again",
    "relocation::RelocationError::ProgramTooLong": "split the program",
    "extern_types::KsymsError::TypedKsymRequiresKernelBtf": "give the kernel's BTF (`/sys/kernel/btf/vmlinux`), or declare the extern `__weak`",
    "extern_types::KsymsError::FunctionNotFound": "declare it `__weak`, and test it with `bpf_ksym_exists`",
    "extern_types::KsymsError::VariableNotFound": "read `/proc/kallsyms` as root; or declare it `__weak`",
    "extern_types::KsymsError::IncompatibleFunctionSignature": "declare it as this kernel does, or `__weak`",
    "extern_types::KsymsError::IncompatibleVariableType": "declare it as this kernel does, or `__weak`",
    "extern_types::KsymsError::InvalidExternType": "declare it as a function or a variable with `__ksym`",
    "extern_types::KsymsError::BtfError": "check the BTF of object and kernel: one is damaged",
    "extern_types::KsymsError::AmbiguousResolution": "use another symbol",
    "extern_types::KsymsError::KallsymsAccessError": "check that the file can be read and is UTF-8",
    "extern_types::KsymsError::KallsymsParseError": "give the lines of `/proc/kallsyms`: address, letter, name",
    "ebpf_kconfig::KconfigError::NotAVariable": "declare it as a variable with `__kconfig`",
    "ebpf_kconfig::KconfigError::UnreadableName": BTF_DAMAGED,
    "ebpf_kconfig::KconfigError::UnknownName": "use a name `CONFIG_..`, or one that loaders know",
    "ebpf_kconfig::KconfigError::UnsupportedType": KCONFIG_TYPES,
    "ebpf_kconfig::KconfigError::NoValue": "give a value, or declare it `__weak`",
    "ebpf_kconfig::KconfigError::WrongSize": "give a value of the extern's size",
    "ebpf_kconfig::KconfigError::TooLarge": "declare shorter arrays of `char`",
    "ebpf_kconfig::KconfigError::UnsuitedValue": "declare it with the value's type: `m` is of a tristate",
    "ebpf_kconfig::KconfigError::ValueOutOfRange": "declare it with a larger integer, or a signed one",
    "ebpf_btf_maps::BtfMapError::ElfError": "give the bytes that the object was parsed from",
    "ebpf_btf_maps::BtfMapError::UnknownPinning": "write `__uint(pinning, LIBBPF_PIN_BY_NAME)`, or leave it out",
    "ebpf_btf_maps::BtfMapError::SecondArena": "declare one map of type BPF_MAP_TYPE_ARENA",
    "ebpf_btf_maps::BtfMapError::NoArena": "declare a map of type BPF_MAP_TYPE_ARENA in `.maps`",
    "ebpf_btf_maps::BtfMapError::ArenaTooSmall": "declare the arena with more `max_entries`",
    "ebpf_exceptions::ExceptionError::ElfError": "give the bytes that the object was parsed from",
    "ebpf_exceptions::ExceptionError::NotAFunction": "put the tag `exception_callback:` on a program",
    "ebpf_exceptions::ExceptionError::NotGlobal": "put the tag `exception_callback:` on a program",
    "ebpf_exceptions::ExceptionError::EmptyCallback": "write the name of the callback: `__exception_cb(name)`",
    "ebpf_exceptions::ExceptionError::UnknownCallback": "define the callback as a global function of `.text`",
    "ebpf_exceptions::ExceptionError::CallbackNotGlobal": "declare the callback neither `static` nor hidden",
    "ebpf_struct_ops::StructOpsError::ElfError": "give the bytes that the object was parsed from",
    "ebpf_struct_ops::StructOpsError::NoTypes": "compile with `-g`",
    "ebpf_struct_ops::StructOpsError::NoDatasec": "compile with `-g`, and don't strip `.BTF`",
    "ebpf_struct_ops::StructOpsError::Variable": "declare variables of named structs alone in this section",
    "ebpf_struct_ops::StructOpsError::Relocation": "set members that are pointers to functions to programs of `struct_ops`",
    "ebpf_struct_ops::StructOpsError::NoKernelStruct": "use a kernel, or a module's types, that have the struct",
    "ebpf_struct_ops::StructOpsError::NoDataMember": "use the types of a kernel that was not changed",
    "ebpf_struct_ops::StructOpsError::Member": "leave the member zero, or declare it as the kernel does",
    "ebpf_struct_ops::StructOpsError::OtherUse": "write a program of its own for each struct and member",
    "ebpf_initial_slots::InitialSlotError::ElfError": "give the bytes that the object was parsed from",
    "ebpf_initial_slots::InitialSlotError::UnknownSymbol": "give the bytes that the object was parsed from",
    "ebpf_initial_slots::InitialSlotError::OutsideMaps": "compile with `-g`, and don't strip `.BTF` or symbols",
    "ebpf_initial_slots::InitialSlotError::UnsupportedMapType": "leave `values` out, or declare a map of maps or an array of programs",
    "ebpf_initial_slots::InitialSlotError::UnsupportedKeySize": "declare keys of 4 bytes, or insert its maps once it is loaded",
    "ebpf_initial_slots::InitialSlotError::NotInMaps": "name maps that are declared in `.maps`",
    "ebpf_initial_slots::InitialSlotError::UnknownMap": "name maps of this object that aren't `static`",
    "ebpf_initial_slots::InitialSlotError::UnknownProgram": "name programs of this object that aren't `static`, and that are not left out",
    "ebpf_initial_slots::InitialSlotError::NotAnEntryPoint": "rename one of the two symbols of that name",
    "ebpf_initial_slots::InitialSlotError::NoValues": "declare `__array(values, ..)` as the last member",
    "ebpf_initial_slots::InitialSlotError::OutsideValues": "give values only to `values`, the last member",
    "ebpf_initial_slots::InitialSlotError::Misaligned": "declare the member with libbpf's `__array`",
    "ebpf_chosen_programs::LeaveOutError::UnknownProgram": "name programs that `ebpf list` shows",
    "ebpf_btf_load::KernelTypesError::ElfError": DAMAGED,
    "ebpf_btf_load::KernelTypesError::BtfError": "see `BtfError`",
    "ebpf_btf_load::KernelTypesError::NoSectionSize": "compile again; don't strip",
    "ebpf_btf_load::KernelTypesError::NotAVariable": BTF_DAMAGED,
    "ebpf_btf_load::KernelTypesError::NoSymbol": "don't strip symbols",
    "ebpf_btf_load::KernelTypesError::UnsupportedExtern": KCONFIG_TYPES,
    "ebpf_btf_load::KernelTypesError::TooLarge": "split the object",
    "ebpf_least_types::LeastTypesError::NeedsKernelId": "load the object with the kernel's own types, or call `least_types_despite_ids`",
    "prepare::PrepareError::MissingDescriptor": "make the map, and give its descriptor by name; or use `Steps::allow_missing`",
    "prepare::PrepareError::UnknownMap": "give a name of `object.map_names`",
    "prepare::PrepareError::UnwrittenExtern": "keep `.BTF`, and choose the passes that resolve and write externs",
}

def printed():
    """The printed paths and their sentences, in order. A path that is printed several times comes each time."""
    rows = []
    for line in PRINTED.read_text().splitlines():
        path, _, sentence = line.partition(": ")
        rows.append((path, sentence))
    return rows

def declared():
    """The paths of the variants that the sources declare."""
    paths = set()
    for name, (file, _) in TYPES.items():
        if file is None:
            continue
        text = (CRATES / file).read_text()
        body = re.search(r"pub enum %s \{\n(.*?)\n\}\n" % name.split("::")[-1], text, re.DOTALL).group(1)
        paths |= {f"{name}::{variant}" for variant in re.findall(r"^    ([A-Z]\w*)", body, re.MULTILINE)}
    return paths

def type_of(path):
    """The path of a variant's type."""
    return path.rpartition("::")[0]

def advice_cells(name, paths):
    """What the page says to do about each variant of a type: nothing where the introduction says it, and what two lines have
    in common once."""
    usual, last, cells = USUAL.get(name, ("", ""))[0], "", []
    for path in paths:
        advice = ADVICE.get(path, "")
        cells.append("" if advice == usual else "as above" if advice == last else advice)
        last = advice
    return cells

def table(name):
    """The lines of a type's table, without what to do where no variant has it."""
    rows = [(path, sentence) for path, sentence in printed() if type_of(path) == name and not path.endswith("::OutOfMemory")]
    cells = advice_cells(name, [path for path, _ in rows])
    if not any(cells):
        return ["| Variant | Prints |", "|---|---|", *(f"| `{path.rpartition('::')[2]}` | {sentence} |" for path, sentence in rows)]
    lines = [f"| `{path.rpartition('::')[2]}` | {sentence} | {cell} |" for (path, sentence), cell in zip(rows, cells)]
    return ["| Variant | Prints | What to do |", "|---|---|---|", *(line.replace("|  |", "| |") for line in lines)]

def page():
    """The text of the page."""
    parts = [HEAD]
    for name, (_, introduction) in TYPES.items():
        usual = [USUAL[name][1], ""] if name in USUAL else []
        parts.append("\n".join([f"## {name}", "", introduction, "", *usual, *table(name), ""]))
    return "\n".join(parts)

def faults():
    """The number of variants' lines on the page, and the faults of the page and of the printed output."""
    paths = {path for path, _ in printed()}
    wrong = [f"tests/drivers/test_errors prints no {path}" for path in sorted(declared() - paths)]
    wrong += [f"TYPES of errors_page.py lacks the type of {path}" for path in sorted(paths) if type_of(path) not in TYPES]
    wrong += [f"ADVICE of errors_page.py has {path}, which isn't printed" for path in sorted(set(ADVICE) - paths)]
    wanted = page().splitlines()
    given = PAGE.read_text().splitlines() if PAGE.exists() else []
    wrong += [f"docs/ERRORS.md lacks: {line}" for line in wanted if line and line not in given]
    wrong += [f"docs/ERRORS.md has: {line}" for line in given if line and line not in wanted]
    if not wrong and given != wanted:
        wrong.append("docs/ERRORS.md has other lines, or another order: python3 tests/errors_page.py --write")
    return len([line for line in wanted if line.startswith("| `")]), wrong

def main():
    if sys.argv[1:] == ["--write"]:
        PAGE.write_text(page())
    elif sys.argv[1:]:
        sys.exit(__doc__)
    lines, wrong = faults()
    print("\n".join([*wrong, f"{max(lines - len(wrong), 0)} passed, {len(wrong)} failed"]))
    return 1 if wrong else 0

if __name__ == "__main__":
    sys.exit(main())

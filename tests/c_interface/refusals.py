"""The numbers of refusals, and what is told of them, from the text of an error."""
import re

CLOSED, NO_PROGRAM = 3, 4

FILE = """
    TooShort BadMagic NotElf64 BadByteOrder BadSectionTable BadSectionRange BadStringTable BadSymbolTable
    BadRelocationTable ExtendedNumbering
""".split()

TYPES = """
    InvalidHeader InvalidTypeInfo InvalidInfo InvalidStringOffset InvalidRelocationKind UnexpectedBtfType UnknownBtfType
    UnknownBtfTypeName MaximumTypeDepth InvalidDatasec InvalidSymbolName InnerMapCannotBePinned
    MultiLevelMapInMapNotSupported InvalidValuesSpec TooLarge
""".split()

SLOTS = """
    UnknownSymbol SectionNotFound UnknownFunction FunctionInfoMismatch UnknownProgram InvalidRelocationOffset
    ExternNotFound UnresolvableSymbol UnsupportedTextSymbol InvalidLineInfo ProgramTooLong MapAddressOverflow
""".split()

PARSING = """
    MissingLicenseNullTerminator InvalidLicense InvalidKernelVersion UnsupportedRelocationTarget InvalidProgramSection
    InvalidProgramCode InvalidMapDefinition SymbolTableConflict UnknownSymbol InvalidSymbol InvalidGlobalData
    SymbolNotFound MapNotFound MapSymbolNameNotFound NoSymbolsForSection NoBTF
""".split()

TYPE_RELOCATION = """
    SectionNotFound FunctionNotFound InvalidAccessString InvalidInstructionIndex ConflictingCandidates
    MaximumNestingLevelReached InvalidAccessIndex InvalidRelocationKindForType InvalidInstruction
    MissingTargetDefinition
""".split()

FINDING = """
    TypedKsymRequiresKernelBtf VariableNotFound IncompatibleFunctionSignature IncompatibleVariableType
    InvalidExternType AmbiguousResolution KallsymsAccessError KallsymsParseError FunctionNotFound
""".split()

# The first number of the slots' faults, by the stage.
STAGES = {"maps": 300, "externs": 500, "calls": 600}


# The numbers that `calls` prints of a refusal, in this order, by the fields of errors that state them.
DETAILS = "slot offset symbol address other_address section size other_size type relocation index count kind".split()

FIELDS = {
    "ins_index": "slot",
    "offset": "offset",
    "symbol_index": "symbol",
    "address": "address",
    "first_addr": "address",
    "second_addr": "other_address",
    "section_index": "section",
    "sym_size": "size",
    "data_size": "other_size",
    "type_id": "type",
    "relocation_number": "relocation",
    "len": "count",
    "num_instructions": "count",
    "kind": "kind",
}

# What `index` is of.
INDICES = {
    "SectionError": "section",
    "MapNotFound": "section",
    "InvalidSymbol": "symbol",
    "UnknownSymbol": "symbol",
    "UnsupportedTextSymbol": "symbol",
    "InvalidInstructionIndex": "slot",
    "InvalidInstruction": "slot",
    "InvalidAccessIndex": "index",
}


def details(text):
    """The numbers that an error states, as `calls` prints them."""
    bare, found = re.sub(r'"(?:[^"\\]|\\.)*"', '""', text), {}
    if held := re.search(r"\bbytes: \[(.*?)\]", bare):
        found["size"] = len(held[1].split())
    for variant, fields in re.findall(r"(\w+) \{ ([^{}]*) \}", bare):
        for name, number in re.findall(r"(\w+): (\d+)", fields):
            found[INDICES[variant] if name == "index" else FIELDS[name]] = int(number)
    said = " ".join(f"{name} {found[name]}" for name in DETAILS if name in found)
    return f"{{{said}}}" if said else ""


def told(about, text):
    """What is told of a refusal beside its number: what it is about, and the numbers that its error states."""
    return f"{about} {details(text)}".strip()


def word(text):
    return re.match(r"\w*", text)[0]


def named(text):
    """The first text that an error has."""
    found = re.search(r'"([^"]*)"', text)
    return found[1] if found else ""


def within(text):
    """What stands between the outer brackets."""
    return text[text.index("(") + 1 :]


def of_parsing(text):
    """Of an error of parsing: its number, and what is told of it."""
    variant = word(text)
    if variant == "ElfError":
        return 100 + FILE.index(word(within(text))), ""
    if variant == "SectionError":
        return 110 + FILE.index(re.search(r"error: (\w+)", text)[1]), details(text)
    if variant == "BtfError":
        return 120 + TYPES.index(word(within(text))), told(named(text), text)
    return 140 + PARSING.index(variant), told(named(text), text)


def of_type_relocation(text):
    """Of `SECTION: ERROR`."""
    section, _, error = text.partition(": ")
    if word(error) == "BtfError":
        return 220 + TYPES.index(word(within(error))), told(section, error)
    return 240 + TYPE_RELOCATION.index(word(error)), told(section, error)


def of_slots(stage, text):
    """Of an error with the name of a function."""
    return STAGES[stage] + SLOTS.index(re.search(r"error: (\w+)", text)[1]), told(named(text), text)


def of_finding(text):
    if word(text) == "BtfError":
        return 420 + TYPES.index(word(within(text))), told(named(text), text)
    return 400 + FINDING.index(word(text)), told(named(text), text)


def variants():
    """What `ebpf-link` calls each number: its stage and its variant."""
    names = {1: "room", 2: "memory", NO_PROGRAM: "no program"}
    for first, stage, variant in [(100, "parse", "ElfError"), (110, "parse", "SectionError")]:
        names |= {first + at: f"{stage}: {variant}" for at in range(len(FILE))}
    for first, stage in [(120, "parse"), (220, "types"), (420, "ksyms")]:
        names |= {first + at: f"{stage}: BtfError" for at in range(len(TYPES))}
    names |= {200 + at: f"btf: {name}" for at, name in enumerate(TYPES)}
    for first, stage, faults in [(140, "parse", PARSING), (240, "types", TYPE_RELOCATION), (400, "ksyms", FINDING)]:
        names |= {first + at: f"{stage}: {name}" for at, name in enumerate(faults)}
    for stage, first in STAGES.items():
        names |= {first + at: f"{stage}: {name}" for at, name in enumerate(SLOTS)}
    names |= {320: "maps: MissingDescriptor", 321: "maps: UnknownMap", 620: "calls: UnwrittenExtern"}
    return names

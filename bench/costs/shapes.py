"""Shapes of files: each is made with about so many bytes."""
from costs.made import (
    ARRAY,
    CALL,
    EXIT,
    FUNCTION,
    FWD,
    GLOBAL,
    MOVE,
    NOBITS,
    OBJECT,
    PTR,
    ROOM,
    VAR,
    WEAK,
    File,
    Types,
    core_records,
    entry,
    on_functions,
)
from costs.one_hash import names

SHAPES = {}

# The most entries that a type, and sections that a file, has here.
ENTRIES, SECTIONS = 65535, 60000


# What stands behind the file on the command line, by shape.
WORDS = {}


def shape(make):
    SHAPES[make.__name__] = make
    return make


def printing_one(make):
    """One program is printed: what is measured is not how much is printed."""
    WORDS[make.__name__] = ["--program", "p0"]
    return make


# What a file of the kernel's types is called beside `--btf`.
TYPES = "@types"


def beside_types(make):
    """The shape has a file of the kernel's types too."""
    WORDS[make.__name__] = ["--btf", TYPES]
    return make


# Shapes that cost more than their size: docs/PERFORMANCE.md tells it and why, and here it is no fault.
TOLD = set()


def told(make):
    TOLD.add(make.__name__)
    return make


def with_program():
    file = File()
    file.program()
    return file


def many(size, each):
    return (size - ROOM) // each


@shape
def records_of_one_long_name(size):
    """Sections of `.BTF.ext` of one long name: its end is looked up at each."""
    types = Types()
    at = types.strings.long(size // 2)
    said = on_functions([(at, b"")] * many(size // 2, 8))
    return with_program().types(types, said).bytes()


@shape
def records_of_suffixes(size):
    """Sections of `.BTF.ext` whose names are the ends of one long name."""
    types = Types()
    count = many(size // 2, 8)
    at = types.strings.long(size // 2)
    said = on_functions([(at + number, b"") for number in range(count)])
    return with_program().types(types, said).bytes()


@shape
def programs_without_slots(size):
    file = File()
    count = many(size, 30)
    number = file.code("kprobe/x", bytes(count))
    for at in range(count):
        file.symbol(f"p{at:x}", FUNCTION, number, at, 0)
    return file.bytes()


@shape
def programs_beside_functions(size):
    """Programs that call nothing beside functions that nothing calls."""
    file = File()
    count = many(size // 2, 38)
    text, number = file.code(".text", EXIT * count), file.code("kprobe/x", EXIT * count)
    for at in range(count):
        file.symbol(f"f{at:x}", FUNCTION, text, 8 * at, 8)
        file.symbol(f"p{at:x}", FUNCTION, number, 8 * at, 8)
    return file.bytes()


@shape
def records_of_one_program(size):
    """A program with many symbols and many records at its first slot: each symbol stands for the one before."""
    types, file = Types(), File()
    number = file.code("kprobe/x", EXIT)
    for _ in range(many(size // 2, 24)):
        file.symbol("p", FUNCTION, number, 0, 8)
    said = on_functions([(types.strings.add("kprobe/x"), bytes(8 * many(size // 2, 8)))])
    return file.types(types, said).bytes()


def names_of_one_function(size, body, called):
    """Programs that are one function: names of it. It has this body, and calls a function of this one, if any."""
    file = File()
    number = file.code("kprobe/x", body)
    for at in range(many(size // 2, 30)):
        file.symbol(f"p{at:x}", FUNCTION, number, 0, len(body))
    if called:
        other = file.symbol("f", FUNCTION, file.code(".text", called), 0, len(called))
        file.relocations(number, entry(0, other))
    return file.bytes()


@printing_one
@shape
def names_of_a_caller(size):
    """Names of one function that calls a large one."""
    return names_of_one_function(size, CALL + EXIT, EXIT * many(size // 2, 8))


@printing_one
@shape
def names_of_a_large_function(size):
    return names_of_one_function(size, EXIT * many(size // 2, 8), b"")


@shape
def data_of_one_name(size):
    """Data sections of one name with the same bytes of the file: the last one is the map."""
    file = with_program()
    first = file.section(".data", bytes(size // 2))
    for _ in range(many(size // 2, 64)):
        file.section(".data", size=size // 2, same_as=first)
    return file.bytes()


@shape
def zeros_of_one_name(size):
    """The same of sections that have no bytes in the file."""
    file = with_program()
    for _ in range(many(size, 64)):
        file.section(".bss", kind=NOBITS, size=16 * size)
    return file.bytes()


@shape
def map_sections_beside_datasecs(size):
    """Sections of maps, of whose names there is no DATASEC, beside many DATASECs."""
    types, file = Types(), with_program()
    for _ in range(many(size // 2, 12)):
        types.datasec("x", [])
    for at in range(many(size // 2, 96)):
        file.symbol("m", OBJECT, file.section(f".maps{at:x}"))
    return file.types(types).bytes()


@shape
def map_sections_beside_long_datasecs(size):
    """The same where the DATASECs have one long name."""
    types, file = Types(), with_program()
    at = types.strings.long(size // 3)
    for _ in range(many(size // 3, 12)):
        types.datasec(at, [])
    for at in range(many(size // 3, 96)):
        file.symbol("m", OBJECT, file.section(f".maps{at:x}"))
    return file.types(types).bytes()


@shape
def maps_of_one_struct(size):
    """Maps of one struct, whose many members say nothing."""
    types, file = Types(), with_program()
    count = min(many(size, 84), ENTRIES)
    made = types.struct_of("", [("x", 0)] * count)
    types.datasec(".maps", [types.add(VAR, f"m{at:x}", made, 1) for at in range(count)])
    number = file.section(".maps", bytes(8))
    for at in range(count):
        file.symbol(f"m{at:x}", OBJECT, number, 0, 8)
    return file.types(types).bytes()


@shape
def maps_of_long_members(size):
    """A map that is declared many times, by a struct whose members have one long name."""
    types, file = Types(), with_program()
    count = min(many(size // 3, 12), ENTRIES)
    at = types.strings.long(size // 3)
    made = types.struct_of("", [(at, 0)] * count)
    types.datasec(".maps", [types.add(VAR, "m", made, 1)] * count)
    file.symbol("m", OBJECT, file.section(".maps", bytes(8)), 0, 8)
    return file.types(types).bytes()


@shape
def maps_of_many_sections(size):
    """Sections of maps of one name, each with its symbol, beside a DATASEC that declares their map many times."""
    types, file = Types(), with_program()
    made = types.struct_of("", [("x", 0)])
    types.datasec(".maps", [types.add(VAR, "m", made, 1)] * min(many(size // 2, 12), ENTRIES))
    for _ in range(many(size // 2, 96)):
        file.symbol("m", OBJECT, file.section(".maps", bytes(8)), 0, 8)
    return file.types(types).bytes()


@shape
def maps_of_one_long_name(size):
    """A DATASEC that declares one map of a long name many times, by VARs of their own and by one."""
    types, file = Types(), with_program()
    made = types.struct_of("", [("x", 0)])
    at = types.strings.long(size // 4)
    count = min(many(size // 2, 40), ENTRIES // 2)
    types.datasec(".maps", [types.add(VAR, at, made, 1) for _ in range(count)] + [types.add(VAR, at, made, 1)] * count)
    file.symbol(file.texts.long(size // 4), OBJECT, file.section(".maps", bytes(8)), 0, 8)
    return file.types(types).bytes()


@shape
def maps_of_values(size):
    """A map whose struct says `values` many times, each of one struct of many members."""
    types, file = Types(), with_program()
    count = min(many(size // 2, 12), ENTRIES)
    inner = types.struct_of("", [("x", 0)] * count)
    held = types.add(ARRAY, 0, 0, types.add(PTR, 0, inner), 0, 0)
    made = types.struct_of("", [("values", held)] * count)
    types.datasec(".maps", [types.add(VAR, "m", made, 1)])
    file.symbol("m", OBJECT, file.section(".maps", bytes(8)), 0, 8)
    return file.types(types).bytes()


def with_extern(types, file):
    types.datasec(".ksyms", [types.add(VAR, "e", 0, 1)])
    file.symbol("e", WEAK, 0)
    return file.types(types).bytes()


@shape
def datasecs_of_one_long_name(size):
    """DATASECs of one long name before that of the externs."""
    types = Types()
    at = types.strings.long(size // 2)
    for _ in range(many(size // 2, 12)):
        types.datasec(at, [])
    return with_extern(types, with_program())


@shape
def types_of_one_long_name(size):
    types = Types()
    at = types.strings.long(size // 2)
    for _ in range(many(size // 2, 12)):
        types.add(FWD, at, 0)
    return with_extern(types, with_program())


@shape
def externs_of_one_long_name(size):
    """An extern of a long name that is declared many times."""
    types, file = Types(), with_program()
    var = types.add(VAR, types.strings.long(size // 3, "e"), 0, 1)
    file.symbol(file.texts.long(size // 3, "e"), WEAK, 0)
    types.datasec(".ksyms", [var] * min(many(size // 3, 12), ENTRIES))
    return file.types(types).bytes()


def calling(file):
    """A program that calls a function; the number of its section and that function's symbol."""
    number = file.program(CALL + EXIT)
    return number, file.symbol("f", FUNCTION, file.code(".text", EXIT), 0, 8)


def same_relocations(file, number, symbol, size):
    """Relocation sections about this section with the same entries of the file."""
    entries = entry(0, symbol) * many(size // 2, 16)
    first = file.relocations(number, entries)
    for _ in range(min(many(size // 2, 64), SECTIONS)):
        file.relocations(number, b"", size=len(entries), same_as=first)
    return file.bytes()


@shape
def relocations_of_one_range(size):
    """Relocation sections with the same entries of the file."""
    file = File()
    number, called = calling(file)
    return same_relocations(file, number, called, size)


@shape
def relocations_of_the_license(size):
    """The same where all are about the license, of which only the bytes are read."""
    file = with_program()
    return same_relocations(file, file.section("license", b"GPL\0"), 1, size)


@shape
def relocations_of_nothing(size):
    """The same where each is about a section of its own that nothing is read of."""
    file = with_program()
    entries = entry(0, 1) * many(size // 2, 16)
    first = None
    for _ in range(min(many(size // 2, 128), SECTIONS // 2)):
        number = file.section("pad")
        if first is None:
            first = file.relocations(number, entries)
        else:
            file.relocations(number, b"", size=len(entries), same_as=first)
    return file.bytes()


@shape
def chain_of_calls(size):
    """Functions that each call the next."""
    file = File()
    count = many(size, 46)
    number = file.program(CALL + EXIT)
    step = bytes.fromhex("8510000001000000")
    text = file.code(".text", (step + EXIT) * (count - 1) + EXIT * 2)
    first = [file.symbol(f"f{at:x}", FUNCTION, text, 16 * at, 16) for at in range(count)][0]
    file.relocations(number, entry(0, first))
    return file.bytes()


@shape
def records_of_one_hash(size):
    types = Types()
    rows = [(types.strings.add(name), b"") for name in names(many(size, 41))]
    return with_program().types(types, on_functions(rows)).bytes()


@shape
def symbols_of_one_hash(size):
    file = with_program()
    for name in names(many(size, 57)):
        file.symbol(name, GLOBAL, 0)
    return file.types(Types()).bytes()


@shape
def programs_of_one_hash(size):
    """Programs without slots at one address."""
    file = File()
    number = file.code("kprobe/x", EXIT)
    for name in names(many(size, 57)):
        file.symbol(name, FUNCTION, number)
    return file.bytes()


@shape
def maps_of_one_hash(size):
    file = with_program()
    number = file.section("maps", bytes(28))
    for name in names(many(size, 57)):
        file.symbol(name, OBJECT, number, 0, 28)
    return file.bytes()


@told
@shape
def sections_of_ends_of_one_long_name(size):
    """Sections whose names are the ends of one long name: the object owns each. They are few, so that it fits."""
    file = with_program()
    at = file.names.long(size - size // 16)
    for number in range(min(many(size // 16, 64), SECTIONS)):
        file.section(at + number, flags=0)
    return file.bytes()


@shape
def sections_of_one_hash(size):
    file = with_program()
    for name in names(min(many(size, 97), SECTIONS)):
        file.section(name, flags=0)
    return file.bytes()


# What a CO-RE record may ask: whether a type is there.
TYPE_EXISTS = 8


def asking(types, rows):
    """A program with CO-RE records at its first slot, each on a type and with an access string."""
    file = File()
    file.program(MOVE + EXIT)
    name = types.strings.add("kprobe/x")
    said = core_records(name, [(0, asked, string, TYPE_EXISTS) for asked, string in rows])
    return file.types(types, said).bytes()


@beside_types
@shape
def core_records_of_one_long_name(size):
    """CO-RE records on one type of a long name."""
    types = Types()
    string = types.strings.add("0")
    asked = types.add(FWD, types.strings.long(size // 2), 0)
    return asking(types, [(asked, string)] * many(size // 2, 16)), Types().bytes()


@beside_types
@shape
def core_records_of_one_long_string(size):
    """The same of a long access string."""
    types = Types()
    asked = types.add(FWD, "x", 0)
    string = types.strings.long(size // 2, "0")
    return asking(types, [(asked, string)] * many(size // 2, 16)), Types().bytes()


@told
@beside_types
@shape
def core_records_of_types_of_one_long_name(size):
    """CO-RE records each on a type of its own, all of one long name."""
    types = Types()
    string = types.strings.add("0")
    name = types.strings.long(size // 2)
    asked = [types.add(FWD, name, 0) for _ in range(many(size // 2, 28))]
    return asking(types, [(each, string) for each in asked]), Types().bytes()


@beside_types
@shape
def core_records_beside_types_of_one_long_name(size):
    """One CO-RE record, on one of many types that have one long name."""
    types = Types()
    string = types.strings.add("0")
    name = types.strings.long(size // 2)
    asked = [types.add(FWD, name, 0) for _ in range(many(size // 2, 12))]
    return asking(types, [(asked[0], string)]), Types().bytes()


@told
@beside_types
@shape
def core_records_of_ends_of_one_long_string(size):
    """CO-RE records on one type, whose access strings are the ends of one long string."""
    types = Types()
    asked = types.add(FWD, "x", 0)
    string = types.strings.long(size // 2, "0")
    return asking(types, [(asked, string + number) for number in range(many(size // 2, 16))]), Types().bytes()


def pointers(count):
    """Pointers to void, which have no names."""
    types = Types()
    for _ in range(count):
        types.add(PTR, 0, 0)
    return types


def asking_pointers(count, candidates):
    """CO-RE records each on an anonymous type of its own, beside as many of the kernel's as there are candidates."""
    types = pointers(count)
    string = types.strings.add("0")
    return asking(types, [(number + 1, string) for number in range(count)]), pointers(candidates).bytes()


@beside_types
@shape
def core_records_of_nameless_types(size):
    """CO-RE records each on an anonymous type of its own, beside a thousand of the kernel's."""
    return asking_pointers(many(size, 28), 1000)


@told
@beside_types
@shape
def core_records_that_ask_all(size):
    """The same beside as many of the kernel's: each is compared with each."""
    return asking_pointers(many(size // 2, 28), size // 24)


@beside_types
@shape
def core_records_behind_the_wrap(size):
    """Functions of which all but the first lie past address 2^64, and CO-RE records in the first, which is the last in
    the order of the addresses."""
    file, types = with_program(), Types()
    count = many(size // 2, 32)
    text = file.code(".text", MOVE * count, address=2**64 - 8)
    for at in range(count):
        file.symbol("f", FUNCTION, text, (8 * at - 8) % 2**64, 8)
    string, name = types.strings.add("0"), types.strings.add(".text")
    asked = types.add(FWD, "x", 0)
    said = core_records(name, [(0, asked, string, TYPE_EXISTS)] * many(size // 2, 16))
    return file.types(types, said).bytes(), Types().bytes()

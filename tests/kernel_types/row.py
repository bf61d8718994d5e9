"""Objects with types, and the line that the crate test_kernel_types has to print of each."""
import struct
from dataclasses import dataclass

from rows.btf import DATASEC, FUNC, FUNC_PROTO, INT, LITTLE, VAR, Strings, ty, with_strings
from rows.elf import NOBITS, PROGBITS, File, changed

# Linkages of variables and functions.
STATIC, GLOBAL, EXTERN = 0, 1, 2

# st_info of symbols: the binding in the high half, the type in the low one.
LOCAL_OBJECT, GLOBAL_OBJECT, WEAK_OBJECT = 0x01, 0x11, 0x21
LOCAL_FUNC, GLOBAL_FUNC, WEAK_FUNC = 0x02, 0x12, 0x22
GLOBAL_NO_TYPE, WEAK_NO_TYPE = 0x10, 0x20

# Visibilities of symbols, in st_other.
DEFAULT, INTERNAL, HIDDEN, PROTECTED = range(4)

# The sections of code.
CODE = ".text", "socket"


@dataclass
class Row:
    """A file and the line that is printed of it."""

    name: str
    data: bytes
    line: str


class Names(Strings):
    """Strings in which each name stands once."""

    def offset(self, name):
        at = self.data.find(b"\0" + name.encode() + b"\0") if isinstance(name, str) and name else -1
        return super().offset(name) if at < 0 else at + 1


# ---- types

SIGNED_INT = ty("int", INT, 4, 1 << 24 | 32)


def var(name, held, linkage=GLOBAL):
    return ty(name, VAR, held, linkage)


def func(name, held, linkage=GLOBAL):
    return ty(name, FUNC, held, entries=linkage)


def proto(result, *parameters):
    """A FUNC_PROTO, whose parameters have a name and a type."""
    return ty("", FUNC_PROTO, result, *(word for parameter in parameters for word in parameter), entries=len(parameters))


def section(name, size, *entries):
    """A DATASEC, whose entries have a type, an offset and a size."""
    return ty(name, DATASEC, size, *(word for entry in entries for word in entry), entries=len(entries))


# ---- files

def add_section(file, name, content):
    """Adds a section by its bytes, or one without bytes in the file by its size."""
    if isinstance(content, int):
        file.section(name, NOBITS, 3, b"", size=content)
    else:
        file.section(name, PROGBITS, 6 if name in CODE else 3, content)


def add_symbol(file, names, name, info, place=None, value=0, other=DEFAULT):
    """Adds a symbol of 8 bytes in the section of a name, or an undefined one."""
    number = 3 + names.index(place) if place else 0
    file.symbol(name, info, number, value, 8 if place else 0)
    file.symbols = file.symbols[:-24] + changed(file.symbols[-24:], 5, bytes([other]))


def file_of(types, sections=(), symbols=(), order=LITTLE):
    """A file with sections, each a name and a content, with the bytes of `.BTF` behind them, and with symbols."""
    file = File(order)
    for name, content in sections:
        add_section(file, name, content)
    file.data(".BTF", types)
    for symbol in symbols:
        add_symbol(file, [name for name, _ in sections], *symbol)
    data = file.bytes()
    # sh_entsize of the symbol table, without which libbpf takes no externs
    table = struct.unpack_from(f"{order}Q", data, 40)[0] + 64
    return changed(data, table + 56, struct.pack(f"{order}Q", 24))


# ---- rows

def joined(types):
    return [word for words in types for word in words]


def taken(name, types, written=None, appended=(), order=LITTLE, packed=with_strings, **file):
    """A row of an object whose types come out. `written` has the ones that come out otherwise by their ids, `appended`
    those that stand behind, whose names are appended to the strings; `packed` makes `.BTF` of the file."""
    strings, behind, all_strings = Names(), Strings(), Names()
    words = [of(strings) for of in types]
    data = file_of(packed(joined(words), strings.data, order), order=order, **file)
    behind.data = strings.data
    words += [of(behind) for of in appended]
    all_strings.data = behind.data
    for number, of in (written or {}).items():
        words[number - 1] = of(all_strings)
    assert all_strings.data == behind.data, f"{name}: a name that is written is none of its strings"
    return Row(name, data, with_strings(joined(words), behind.data, order).hex())


def refused(name, types, sentence, **file):
    """A row of an object whose types can't be made ready, and why."""
    strings = Names()
    words = joined([of(strings) for of in types])
    return Row(name, file_of(with_strings(words, strings.data), **file), f"refused: {sentence}")

"""The running kernel's types, as far as inputs are made of them."""
import re
import struct
from pathlib import Path

VMLINUX = "/sys/kernel/btf/vmlinux"

INT, PTR, STRUCT, TYPEDEF, VOLATILE, CONST, RESTRICT, FUNC = 1, 2, 4, 8, 9, 10, 11, 12

# How many bytes stand behind a type of a kind, and for each of its entries.
BEHIND = {1: (4, 0), 3: (12, 0), 4: (0, 12), 5: (0, 12), 6: (0, 8), 13: (0, 8), 14: (4, 0), 15: (0, 12)}
BEHIND |= {17: (4, 0), 19: (0, 12)}

NAME = re.compile(r"[A-Za-z_]\w*")

# What C doesn't take as the name of a member, or knows as a function.
RESERVED = {"private", "class", "new", "this"}
KNOWN = set("main abs ffs fls exit putchar toascii isascii toupper tolower isalnum isalpha isdigit isspace".split())
KNOWN |= {"isupper", "islower"}


class Type:
    def __init__(self, name, kind, flag, of, words):
        self.name, self.kind, self.flag, self.of, self.words = name, kind, flag, of, words


class KernelTypes:
    def __init__(self, path=VMLINUX):
        raw = Path(path).read_bytes()
        header, types_at, types_size, strings_at, strings_size = struct.unpack_from("<5I", raw, 4)
        self.strings = raw[header + strings_at : header + strings_at + strings_size]
        self.types = [Type("", 0, 0, 0, ())]
        place, end = header + types_at, header + types_at + types_size
        while place < end:
            name, info, of = struct.unpack_from("<3I", raw, place)
            kind, count = info >> 24 & 31, info & 0xFFFF
            whole, each = BEHIND.get(kind, (0, 0))
            size = whole + each * count
            words = struct.unpack_from(f"<{size // 4}I", raw, place + 12)
            self.types.append(Type(self.text(name), kind, info >> 31, of, words))
            place += 12 + size

    def text(self, offset):
        return self.strings[offset : self.strings.index(0, offset)].decode("utf-8", "replace")

    def resolved(self, number):
        while self.types[number].kind in (TYPEDEF, VOLATILE, CONST, RESTRICT):
            number = self.types[number].of
        return self.types[number]

    def plain_members(self, found):
        """The names of a struct's members that are whole integers or pointers."""
        rows = zip(found.words[0::3], found.words[1::3], found.words[2::3])
        names = [
            self.text(name)
            for name, of, offset in rows
            if self.resolved(of).kind in (INT, PTR) and not (found.flag and offset >> 24)
        ]
        return [name for name in names if name and name not in RESERVED]

    def structs(self, count, members):
        """The first structs whose names no other type has, with at least so many plain members each."""
        seen = {}
        for found in self.types:
            if found.name and found.kind not in (INT, FUNC):
                seen[found.name] = seen.get(found.name, 0) + 1
        rows = []
        for found in self.types:
            if found.kind != STRUCT or seen.get(found.name) != 1 or not NAME.fullmatch(found.name):
                continue
            names = self.plain_members(found)
            if "___" not in found.name and len(names) >= members:
                rows.append((found.name, names))
            if len(rows) == count:
                break
        return rows

    def is_int(self, number):
        found = self.resolved(number)
        return found.kind == INT and found.name == "int"

    def functions_of_int(self, count):
        """The names of the first functions that take an int and give one."""
        seen = {}
        for found in self.types:
            if found.kind == FUNC:
                seen.setdefault(found.name, []).append(self.types[found.of])
        names = []
        for name, prototypes in seen.items():
            words, gives = prototypes[0].words, prototypes[0].of
            fits = len(prototypes) == 1 and len(words) == 2 and self.is_int(words[1]) and self.is_int(gives)
            if fits and NAME.fullmatch(name) and not name.startswith("__") and "___" not in name and name not in KNOWN:
                names.append(name)
            if len(names) == count:
                break
        return names

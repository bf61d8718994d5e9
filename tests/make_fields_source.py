#!/usr/bin/env python3
"""Writes a C source with flavors of structures that a kernel has, some of their fields in another order, of other sizes or
absent, and programs that ask of each field all that CO-RE can tell and load it: to be compiled by clang with -target bpf
and held beside libbpf. usage: make_fields_source.py TYPES NUMBER OUT.c

TYPES is raw type information, as /sys/kernel/btf/vmlinux. Equal numbers give equal sources.
"""
import random
import re
import struct
import sys
from collections import Counter

INT, PTR, ARRAY, STRUCT, UNION, ENUM, FWD, TYPEDEF, VOLATILE, CONST, RESTRICT = range(1, 12)
TYPE_TAG, ENUM64 = 18, 19

# How many words stand behind a type: so many, and so many for each entry.
WORDS = {1: (1, 0), 3: (3, 0), 4: (0, 3), 5: (0, 3), 6: (0, 2), 13: (0, 2), 14: (1, 0), 15: (0, 3), 17: (1, 0), 19: (0, 3)}

SIGNED = {1: "signed char", 2: "short", 4: "int", 8: "long long"}
UNSIGNED = {1: "unsigned char", 2: "unsigned short", 4: "unsigned int", 8: "unsigned long long"}

# Words of C that the kernel may use as names.
TAKEN = {"private", "class", "new", "this", "default", "register", "typeof", "asm"}

OFFSET, SIZE, EXISTS, IS_SIGNED, LEFT_SHIFT, RIGHT_SHIFT = range(6)

HEAD = """#define RELOCATED __attribute__((preserve_access_index))
#define NOINLINE static __attribute__((noinline))
#define SEC(name) __attribute__((section(name), used))
#define ADD(term) x += term; __asm__ volatile("" : "+r"(x));
#define ASK(field, what) ADD(__builtin_preserve_field_info(field, what))

char _license[] SEC("license") = "GPL";
"""


class Types:
    """The types of raw type information, by their ids."""

    def __init__(self, data):
        length, types, size, strings = struct.unpack_from("<4I", data, 4)
        self.strings = data[length + strings :]
        self.all = [("", 0, 0, 0, ())]
        at, end = length + types, length + types + size
        while at < end:
            name, info, word = struct.unpack_from("<3I", data, at)
            kind, entries = info >> 24 & 31, info & 0xFFFF
            plain, each = WORDS.get(kind, (0, 0))
            rest = struct.unpack_from(f"<{plain + each * entries}I", data, at + 12)
            self.all.append((self.text(name), kind, info >> 31, word, rest))
            at += 12 + 4 * len(rest)

    def text(self, offset):
        return self.strings[offset : self.strings.index(b"\0", offset)].decode()

    def resolved(self, number):
        while self.all[number][1] in (TYPEDEF, VOLATILE, CONST, RESTRICT, TYPE_TAG):
            number = self.all[number][3]
        return self.all[number]

    def members(self, ty):
        """The names of members, their types and whether they are bit fields of how many bits; unnamed ones opened."""
        _, _, has_bits, _, words = ty
        for at in range(0, len(words), 3):
            name, number, offset = words[at : at + 3]
            if name:
                yield self.text(name), self.resolved(number), offset >> 24 if has_bits else 0
            elif self.resolved(number)[1] in (STRUCT, UNION):
                yield from self.members(self.resolved(number))

    def unique_structures(self):
        """The structures and unions of whose name there is one."""
        kinds = (STRUCT, UNION, FWD, ENUM, ENUM64, TYPEDEF)
        names = Counter(ty[0] for ty in self.all if ty[1] in kinds)
        return [ty for ty in self.all if ty[1] in (STRUCT, UNION) and names[ty[0]] == 1 and re.fullmatch(r"[a-z]\w*", ty[0])]


class Flavors:
    """Flavors in the making, by chance."""

    def __init__(self, types, number):
        self.types = types
        self.chance = random.Random(number)

    def integer(self, ty):
        size, is_signed = ty[3], ty[4][0] >> 24 & 1
        return (SIGNED if is_signed else UNSIGNED).get(size)

    def field(self, name, ty, bits, depth):
        """A local field: its text, and each path in it with what may be asked there and whether it may be loaded. None
        where the kernel's has a type that is passed over."""
        kind = ty[1]
        scalar = [OFFSET, SIZE, EXISTS, LEFT_SHIFT, RIGHT_SHIFT]
        if kind == INT and self.integer(ty):
            text = "_Bool" if ty[0] == "_Bool" else self.integer(ty)
            if bits:
                return f"{text} {name} : {bits};", [(name, [*scalar, IS_SIGNED], False)]
            if text in UNSIGNED.values() and self.chance.random() < 0.3:
                text = UNSIGNED[self.chance.choice([1, 2, 4, 8])]
            return f"{text} {name};", [(name, [*scalar, IS_SIGNED], text != "_Bool")]
        if kind == PTR:
            return f"void *{name};", [(name, scalar, True)]
        if kind == ARRAY:
            return self.array(name, ty)
        if kind in (STRUCT, UNION) and depth < 2:
            return self.structure(name, ty, depth)
        return None

    def array(self, name, ty):
        element, _, count = ty[4]
        element = self.types.resolved(element)
        text = {INT: self.integer(element) if element[1] == INT else None, PTR: "void *"}.get(element[1])
        if text is None or element[0] == "_Bool":
            return None
        length = max(count, 1) + self.chance.choice([0, 0, 0, 3])
        places = sorted({0, length - 1, self.chance.randrange(length)})
        elements = [(f"{name}[{at}]", [OFFSET, SIZE, EXISTS], True) for at in places]
        return f"{text} {name}[{length}];", [(name, [OFFSET, SIZE, EXISTS], False), *elements]

    def structure(self, name, ty, depth):
        fields = self.fields(ty, 3, depth + 1)
        if not fields:
            return None
        inner = [(f"{name}.{path}", asked, loaded) for _, paths in fields for path, asked, loaded in paths]
        texts = " ".join(text for text, _ in fields)
        return f"struct {{ {texts} }} {name};", [(name, [OFFSET, SIZE, EXISTS], False), *inner]

    def fields(self, ty, most, depth=0):
        """At most so many local fields of a structure, in any order."""
        members = {name: (held, bits) for name, held, bits in self.types.members(ty) if name not in TAKEN}
        names = self.chance.sample(sorted(members), min(most, len(members)))
        return [field for name in names if (field := self.field(name, *members[name], depth))]

    def flavor(self, number, ty):
        """The declaration of a flavor and a function over its fields; None without any."""
        fields = self.fields(ty, 6)
        if fields and self.chance.random() < 0.4:
            fields.append((f"unsigned int no_such_{number};", [(f"no_such_{number}", [EXISTS, OFFSET], True)]))
        if not fields:
            return None
        word = "struct" if ty[1] == STRUCT else "union"
        flavor = f"{word} {ty[0]}___l{number}"
        lines = [f"{flavor} {{ {' '.join(text for text, _ in fields)} }} RELOCATED;"]
        lines.append(f"NOINLINE long f{number}(void *p)\n{{\n\tlong x = 1;\n")
        for path, asked, loaded in (found for _, paths in fields for found in paths):
            lines += [f"\tASK((({flavor} *)0)->{path}, {what})" for what in asked]
            lines += [f"\tADD((long)(({flavor} *)p)->{path})"] if loaded else []
        return "\n".join([*lines, "\treturn x;\n}\n"])


def main(types, number, out):
    with open(types, "rb") as file:
        flavors = Flavors(Types(file.read()), int(number))
    chosen = flavors.chance.sample(flavors.types.unique_structures(), 160)
    functions = {at: text for at, ty in enumerate(chosen) if (text := flavors.flavor(at, ty))}
    calls = "\n".join(f"\tx += f{at}(context);" for at in functions)
    program = f'SEC("raw_tp/sys_enter")\nint fields(void *context)\n{{\n\tlong x = 0;\n\n{calls}\n\treturn x;\n}}\n'
    with open(out, "w", encoding="utf-8") as file:
        file.write("\n".join([HEAD, *functions.values(), program]))


main(*sys.argv[1:])

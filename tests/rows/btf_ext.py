"""`.BTF.ext`, read in either byte order: what is said of functions and lines, and relocations."""
from rows.btf import BIG, LITTLE, btf, ext
from rows.case import Case

# `a` at 1 and `b` at 3.
NAMES = btf(strings=b"\0a\0b\0")

# Two functions in `a`, none in `b`, and then, of the later section with the name `a`, one.
FUNCS = [8, 1, 2, 0, 7, 16, 8, 3, 0, 1, 1, 24, 9]

FUNCS_OF = {
    "funcs a": (
        "FuncSecInfo { sec_name_offset: 1, num_info: 1, func_info: [bpf_func_info { insn_off: 3,"
        " type_id: 9 }] }"
    ),
    "funcs b": "FuncSecInfo { sec_name_offset: 3, num_info: 0, func_info: [] }",
    "funcs c": "FuncSecInfo { sec_name_offset: 0, num_info: 0, func_info: [] }",
}

# Records of 20 bytes, of which 16 are read: one in `b`, two in `a`.
LINES = [20, 3, 1, 40, 1, 3, 0x1402, 99, 1, 2, 0, 1, 1, 1, 98, 15, 3, 3, 2, 97]

LINES_OF = {
    "lines a": (
        "LineSecInfo { sec_name_offset: 1, num_info: 2, line_info: [bpf_line_info { insn_off: 0,"
        " file_name_off: 1, line_off: 1, line_col: 1 }, bpf_line_info { insn_off: 1, file_name_off: 3, line_off: 3,"
        " line_col: 2 }] }"
    ),
    "lines b": (
        "LineSecInfo { sec_name_offset: 3, num_info: 1, line_info: [bpf_line_info { insn_off: 5,"
        " file_name_off: 1, line_off: 3, line_col: 5122 }] }"
    ),
    "lines": "LineSecInfo { sec_name_offset: 0, num_info: 0, line_info: [] }",
}

# The head of a section with two relocations of 20 bytes, and those; records are little endian in each file.
HEAD = [20, 1, 2]
RECORDS = [8, 5, 3, 11, 99, 24, 6, 1, 0, 98]

RELOCATIONS_OF = (
    "[(1, [Relocation { insn_off: 8, type_id: 5, access_str_off: 3, kind: EnumVariantValue, number: 0 },"
    " Relocation { insn_off: 24, type_id: 6, access_str_off: 1, kind: FieldByteOffset, number: 1 }])]"
)

# Sections of one relocation each: equal names stay two sections, and each begins its numbers anew.
SECTIONS = [16, 1, 1, 0, 0, 0, 1, 1, 1, 8, 0, 0, 2]

KINDS = (
    ["FieldByteOffset", "FieldByteSize", "FieldExists", "FieldSigned", "FieldLShift64", "FieldRShift64"]
    + ["TypeIdLocal", "TypeIdTarget", "TypeExists", "TypeSize", "EnumVariantExists", "EnumVariantValue"]
)


def files(order, **parts):
    return {"types": NAMES, "ext" if order == LITTLE else "big ext": ext(**parts, order=order)}


def parts(order, note):
    whole = {"funcs": FUNCS, "lines": LINES, "relocations": HEAD, "records": RECORDS}
    return [
        Case(f"functions of sections{note}", files(order, funcs=FUNCS), FUNCS_OF | {"relocations": "[] 8 0"}),
        Case(f"lines of sections{note}", files(order, lines=LINES), LINES_OF | {"relocations": "[] 0 20"}),
        Case(
            f"relocations of sections{note}",
            files(order, relocations=HEAD, records=RECORDS),
            {"relocations": f"{RELOCATIONS_OF} 0 0"},
        ),
        Case(
            f"each part{note}",
            files(order, **whole),
            FUNCS_OF | LINES_OF | {"relocations": f"{RELOCATIONS_OF} 8 20"},
        ),
    ]


def cases():
    numbered = (
        "[(1, [Relocation { insn_off: 0, type_id: 0, access_str_off: 0, kind: FieldByteSize, number: 0 }]"
        "), (1, [Relocation { insn_off: 8, type_id: 0, access_str_off: 0, kind: FieldExists, number: 0"
        " }])] 0 0"
    )
    kinds = {f"relocation_kind {number}": f"{kind} {number}" for number, kind in enumerate(KINDS)}
    for number in (12, 2**32 - 1):
        kinds[f"relocation_kind {number}"] = f"InvalidRelocationKind {{ kind: {number} }}"
    return (
        parts(LITTLE, "")
        + parts(BIG, ", big endian")
        + [
            Case("relocations by section", files(LITTLE, records=SECTIONS), {"relocations": numbered}),
            Case("kinds of relocations", {}, kinds),
        ]
    )

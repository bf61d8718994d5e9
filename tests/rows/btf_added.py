"""Types and strings that are added, and how far types are followed."""
from rows.btf import CONST, FLOAT, array, btf, integer, ty, typedef
from rows.case import Case

NUMBER = integer("", 4)


def depth(number):
    return f"MaximumTypeDepth {{ type_id: {number} }}"


def cases():
    number = "Int { name_offset: 0, size: 4, int_data: 32 }"
    new = "new: [Unknown], 0: , 1: InvalidStringOffset { offset: 1 }"
    texts = btf(ty(7, FLOAT, 8), ty(9, FLOAT, 4), strings=b"\0int\0\0" + "\u00e9".encode() + b"\0")
    # A number with id 1, 33 CONSTs over it that each hold the one before, and a TYPEDEF of itself.
    modifiers = btf(NUMBER, *(ty(0, CONST, below) for below in range(1, 34)), typedef(0, 35))
    # A number, an ARRAY of two of it, 32 ARRAYs of one over that, and ARRAYs of so many of these that the product is
    # the greatest or past 32 bits at the first, the 32nd and the 33rd time to follow, and later.
    arrays = btf(
        NUMBER,
        array(1, 2, 1),
        *(array(below, 1, 1) for below in range(2, 34)),
        array(1, 0x3FFFFFFF, 1),
        array(1, 0x40000000, 1),
        array(32, 0x80000000, 1),
        array(33, 0x80000000, 1),
        array(34, 0x80000000, 1),
    )
    return [
        Case(
            "two numbers",
            {"types": btf(NUMBER, NUMBER)},
            {"added ab c": f"{new}\nstrings at 1 4\ntypes 1 2\n: Unknown\n: {number}\n: {number}"},
        ),
        # The second byte of a character alone is no UTF-8.
        Case(
            "texts",
            {"types": texts},
            {
                "added int  \u00e9": f"""
                    {new}
                    strings at 1 5 6
                    types 1 2
                    : Unknown
                    \ufffd: Float {{ name_offset: 7, size: 8 }}
                    InvalidStringOffset {{ offset: 9 }}: Float {{ name_offset: 9, size: 4 }}
                """,
                "text 0": "",
                "text 1": "int",
                "text 5": "",
                "text 6": "\u00e9",
                "text 7": "\ufffd",
                "text 9": "InvalidStringOffset { offset: 9 }",
                "name 1": "\ufffd",
                "error_name 1": "\ufffd",
                "name 2": "InvalidStringOffset { offset: 9 }",
                "error_name 2": "None",
            },
        ),
        Case(
            "modifiers are followed 32 times",
            {"types": modifiers},
            {
                "resolved 33": "1",
                "resolved 34": depth(34),
                "resolved 35": depth(35),
                "size 33": "4",
                "size 34": depth(34),
                "size 35": depth(35),
            },
        ),
        Case(
            "arrays are followed 32 times",
            {"types": arrays},
            {
                "size 2": "8",
                "size 33": "8",
                "size 34": depth(34),
                "resolved 34": "34",
                "size 35": "4294967292",
                "size 36": "InvalidTypeInfo",
                "size 37": "InvalidTypeInfo",
                "size 38": "InvalidTypeInfo",
                "size 39": depth(39),
            },
        ),
    ]

"""What the index of types gives."""
from rows.btf import FLOAT, UNION, btf, integer, pointer, struct_of, ty, typedef
from rows.case import Case


def samples(name_of_6):
    """A number and a PTR, STRUCT `s` with id 3, TYPEDEF `s`, STRUCT `s___a` with id 5, a STRUCT with id 6, and UNION
    `s`."""
    structs = [struct_of("s", 4), typedef("s", 3), struct_of("s___a", 4), struct_of(name_of_6, 4)]
    return [integer("", 4), pointer(3), *structs, ty("s", UNION, 4)]


def unreadable(offset):
    return f"InvalidStringOffset {{ offset: {offset} }}"


def cases():
    return [
        Case(
            "candidates by kind and name",
            {"types": btf(*samples("t"))},
            {
                "candidates Struct s___z": "[3, 5]",
                "candidates Struct s": "[3, 5]",
                "candidates Struct t": "[6]",
                "candidates Union s": "[7]",
                "candidates Typedef s": "[4]",
                "candidates Enum s": "[]",
                "candidates Struct s_": "[]",
                "candidates Struct s__a": "[]",
                "candidates Struct": "[]",
                "candidates Unknown": "[0]",
                "candidates Ptr ___a": "[2]",
            },
        ),
        # Another unreadable name of the same kind behind it, and one of another kind.
        Case(
            "an unreadable name of a kind",
            {"types": btf(*samples(1000), struct_of(900, 4), ty(800, FLOAT, 8))},
            {
                "candidates Struct s___z": unreadable(1000),
                "candidates Struct t": unreadable(1000),
                "candidates Struct": unreadable(1000),
                "candidates Float s": unreadable(800),
                "candidates Union s": "[7]",
                "candidates Enum s": "[]",
            },
        ),
        # A name with a byte that is no UTF-8, and the text that it is read as.
        Case(
            "candidates of names that are no UTF-8",
            {"types": btf(typedef(1, 0), typedef(8, 0), strings=b"\0\xffa___b\0\xef\xbf\xbda\0")},
            {"candidates Typedef \ufffda": "[1, 2]"},
        ),
    ]

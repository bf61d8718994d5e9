"""Each reason why a record has no value, of one candidate and of several."""
from checked.objects import Asks, found, move, object_of, one_kernel, program, wide
from rows.btf import array, btf, pointer, struct_of, typedef
from rows.core_sides import (
    EXISTS,
    INT_4,
    LEFT_SHIFT,
    LOAD,
    LOCAL_ID,
    MOVE,
    OFFSET,
    RIGHT_SHIFT,
    SIGNED,
    SIZE,
    TARGET_ID,
    TYPE_EXISTS,
    TYPE_SIZE,
    VARIANT_EXISTS,
    VARIANT_VALUE,
    enum64_of,
    enum_of,
)
from rows.elf import EXIT

# A struct `s` with a number, a struct of its own, an array and a struct of 8 bytes; an enumeration; a name of a number.
INNER, ARRAY, FIELDS, VARIANTS, NAME = 2, 3, 4, 5, 6
LOCAL = [
    INT_4,
    struct_of("i", 8, ("x", 1, 0), ("y", 1, 32)),
    array(1, 4),
    struct_of("s", 32, ("a", 1, 0), ("i", 2, 32), ("v", 3, 96)),
    enum_of("e", ("A", 0), ("B", 1)),
    typedef("name", 1),
]

# What is asked, and how its line begins.
A = (OFFSET, FIELDS, "0:0"), "struct s.a  <byte_off>"
A_SIZE = (SIZE, FIELDS, "0:0"), "struct s.a  <byte_sz>"
A_SIGN = (SIGNED, FIELDS, "0:0"), "struct s.a  <signed>"
A_LEFT = (LEFT_SHIFT, FIELDS, "0:0"), "struct s.a  <lshift_u64>"
A_RIGHT = (RIGHT_SHIFT, FIELDS, "0:0"), "struct s.a  <rshift_u64>"
X = (OFFSET, FIELDS, "0:1:0"), "struct s.i.x  <byte_off>"
V_3 = (OFFSET, FIELDS, "0:2:3"), "struct s.v[3]  <byte_off>"
SECOND = (OFFSET, FIELDS, "1:0"), "struct s[1].a  <byte_off>"
WHOLE_I = (RIGHT_SHIFT, FIELDS, "0:1"), "struct s.i  <rshift_u64>"
S_SIZE = (TYPE_SIZE, FIELDS, "0"), "struct s  <type_size>"
S_ID = (TARGET_ID, FIELDS, "0"), "struct s  <target_type_id>"
NAME_SIZE = (TYPE_SIZE, NAME, "0"), "typedef name  <type_size>"
NAME_ID = (TARGET_ID, NAME, "0"), "typedef name  <target_type_id>"
E_ID = (TARGET_ID, VARIANTS, "0"), "enum e  <target_type_id>"
B = (VARIANT_VALUE, VARIANTS, "1"), "enum e.B  <enumval_value>"

NO_TYPE, OTHER_TYPE = "no such type (a module's?)", "a type of another kind"
NO_MEMBER, OTHER_MEMBER = "no such member", "a member of another kind"
NO_ENUMERATOR, NO_VALUE = "no such enumerator", "no value"

# What kernels begin with: a number, a pointer, and structs `i` without `x`, with one that is a pointer, and as it is.
START = [INT_4, pointer(0), struct_of("i", 4, ("y", 1, 0)), struct_of("i", 8, ("x", 2, 0)), struct_of("i", 4, ("x", 1, 0))]
NUMBER, POINTER, WITHOUT_X, POINTER_X, FITTING = range(1, 6)


def named(*members, name="s"):
    """A struct `s` with members, each of a name and a type."""
    return struct_of(name, 64, *((held, of, 64 * at) for at, (held, of) in enumerate(members)))


LACKS_I, NUMBER_I = named(("a", NUMBER)), named(("i", NUMBER))
LACKS_X, OTHER_X = named(("i", WITHOUT_X)), named(("i", POINTER_X))

ABSENT = [
    ("no struct of the name", A, [struct_of("t", 4)], NO_TYPE),
    ("an enumeration of the struct's name", A, [enum_of("s", ("a", 0))], NO_TYPE),
    ("the size in no struct", A_SIZE, [], NO_TYPE),
    ("the sign in no struct", A_SIGN, [], NO_TYPE),
    ("the left shift in no struct", A_LEFT, [], NO_TYPE),
    ("the right shift in no struct", A_RIGHT, [], NO_TYPE),
    ("the size of no struct", S_SIZE, [], NO_TYPE),
    ("the id of no struct", S_ID, [], NO_TYPE),
    ("no enumeration of the name", B, [], NO_TYPE),
    ("an enumeration of 64 bits alone", E_ID, [enum64_of("e", ("A", 0))], NO_TYPE),
    ("no member of the name", A, [named(("b", NUMBER))], NO_MEMBER),
    ("no members", A, [struct_of("s", 0)], NO_MEMBER),
    ("no member on the way", X, [LACKS_I], NO_MEMBER),
    ("no member at the end", X, [LACKS_X], NO_MEMBER),
    ("no element of the number", V_3, [array(NUMBER, 3), named(("v", 6))], NO_MEMBER),
    ("no member of the next struct", SECOND, [named(("b", NUMBER))], NO_MEMBER),
    ("a pointer in place of the number", A, [named(("a", POINTER))], OTHER_MEMBER),
    ("its size", A_SIZE, [named(("a", POINTER))], OTHER_MEMBER),
    ("a number in place of the struct", X, [NUMBER_I], OTHER_MEMBER),
    ("a pointer at the end", X, [OTHER_X], OTHER_MEMBER),
    ("a pointer in an unnamed member", A, [named(("a", POINTER), name=""), named(("b", NUMBER), ("", 6))], OTHER_MEMBER),
    ("a pointer in a named member", A, [named(("a", POINTER), name=""), named(("b", 6))], NO_MEMBER),
    ("a name of a pointer", NAME_SIZE, [typedef("name", POINTER)], OTHER_TYPE),
    ("its id", NAME_ID, [typedef("name", POINTER)], OTHER_TYPE),
    ("no enumerator of the name", B, [enum_of("e", ("A", 0), ("C", 1))], NO_ENUMERATOR),
    ("the shift of a struct that has grown", WHOLE_I, [struct_of("i", 16), named(("i", 6))], NO_VALUE),
    # Two candidates and more: the one that comes furthest tells, and of equals that of the lowest id.
    ("the second comes further", X, [LACKS_I, OTHER_X], OTHER_MEMBER),
    ("the first comes further", X, [OTHER_X, LACKS_I], OTHER_MEMBER),
    ("the second comes further, and lacks", X, [NUMBER_I, LACKS_X], NO_MEMBER),
    ("the first comes further, and lacks", X, [LACKS_X, NUMBER_I], NO_MEMBER),
    ("equals, of which the first lacks", X, [LACKS_I, NUMBER_I], NO_MEMBER),
    ("equals, of which the first is another", X, [NUMBER_I, LACKS_I], OTHER_MEMBER),
    ("equals at the end, of which the first lacks", X, [LACKS_X, OTHER_X], NO_MEMBER),
    ("equals at the end, of which the first is another", X, [OTHER_X, LACKS_X], OTHER_MEMBER),
    ("three, of which the last two are equals", X, [LACKS_I, LACKS_X, OTHER_X], NO_MEMBER),
    ("three, of which the last comes furthest", X, [NUMBER_I, LACKS_I, OTHER_X], OTHER_MEMBER),
    ("a flavor comes further", X, [LACKS_I, named(("i", POINTER_X), name="s___2")], OTHER_MEMBER),
    ("two names of pointers", NAME_SIZE, [typedef("name", POINTER), typedef("name", 6)], OTHER_TYPE),
    ("two enumerations", B, [enum_of("e", ("A", 0)), enum_of("e", ("C", 0))], NO_ENUMERATOR),
]

PRESENT = [
    ("the second fits", X, [LACKS_X, named(("i", FITTING))]),
    ("the second name fits", NAME_ID, [typedef("name", POINTER), typedef("name", NUMBER)]),
    ("the second enumeration has it", B, [enum_of("e", ("A", 0)), enum_of("e", ("B", 1))]),
    ("an array without a length at the end", V_3, [array(NUMBER, 0), named(("a", NUMBER), ("v", 6))]),
    ("the id of the object's own type", ((LOCAL_ID, FIELDS, "0"), ""), []),
    ("whether a field is there", ((EXISTS, FIELDS, "0:0"), ""), []),
    ("whether a type is there", ((TYPE_EXISTS, FIELDS, "0"), ""), []),
    ("whether an enumerator is there", ((VARIANT_EXISTS, VARIANTS, "1"), ""), []),
]


def asking(question, slots=MOVE):
    return object_of([program(move(0, 0), Asks(slots, *question), EXIT)], LOCAL)


def reasons(rows):
    """Why there is nothing, where it is reached."""
    for name, (question, line), kernel, reason in ABSENT:
        breaks = [found(f"{line}  {reason}", "p slot 1")]
        one_kernel(rows, name, asking(question), btf(*START, *kernel), breaks)
    for name, (question, _), kernel in PRESENT:
        one_kernel(rows, name, asking(question), btf(*START, *kernel))


def same_reasons(rows):
    """The reason is the same in slots of other classes."""
    for slots in [LOAD, wide(1, 0)]:
        breaks = [found("struct s.a  <byte_off>  no such member", "p slot 1")]
        one_kernel(rows, "no member in another slot", asking(A[0], slots), btf(*START, struct_of("s", 0)), breaks)


def refusals(rows):
    """A refused record breaks its program also where it isn't reached, and those behind it are told."""
    absent = Asks(LOAD, *X[0])
    at_exit = program(Asks(EXIT, *A[0]), absent, EXIT)
    line = "struct s.a  <byte_off>  refused: CO-RE relocation 0 is at instruction 0, and code 0x95 can't carry 0"
    kernel = btf(*START, LACKS_X)
    with_a = btf(*START, named(("a", NUMBER), ("i", WITHOUT_X)))
    guarded = [found("struct s.i.x  <byte_off>  no such member", "p slot 1")]
    refused = [found(line, "p slot 0")]
    one_kernel(rows, "a record behind a refused one", object_of([at_exit], LOCAL), with_a, refused, guarded)
    both = [
        found("struct s.a  <byte_off>  no such member", "p slot 0"),
        found("struct s.i.x  <byte_off>  no such member", "p slot 1"),
    ]
    # The slot that fails is no end: what stands behind it is reached.
    one_kernel(rows, "a record behind an absent one", object_of([at_exit], LOCAL), kernel, both)
    unreached = program(move(0, 0), EXIT, Asks(EXIT, *A[0]))
    line = line.replace("instruction 0", "instruction 2")
    one_kernel(rows, "a refused record that isn't reached", object_of([unreached], LOCAL), with_a, [found(line, "p slot 2")])
    twice = btf(*START, named(("a", NUMBER), ("i", WITHOUT_X)), named(("b", NUMBER), ("a", NUMBER), ("i", WITHOUT_X)))
    # Those are named that differ from the first one.
    line = 'struct s.a  <byte_off>  refused: the kernel has types for "s" that disagree: "s"'
    behind = program(Asks(MOVE, *A[0]), absent, EXIT)
    breaks = [found(line, "p slot 0"), found("struct s.i.x  <byte_off>  no such member", "p slot 1")]
    one_kernel(rows, "a record behind candidates that differ", object_of([behind], LOCAL), twice, breaks)
    # Another program of the object stands.
    other = program(move(0, 0), EXIT, section="kprobe/q", name="q")
    one_kernel(rows, "a refused record of one program", object_of([behind, other], LOCAL), twice, breaks, count=2)
    twin = program(Asks(MOVE, *X[0]), Asks(MOVE, *X[0]), EXIT)
    breaks = [found("struct s.i.x  <byte_off>  no such member", "p slot 0", "p slot 1")]
    one_kernel(rows, "two records of one field", object_of([twin], LOCAL), kernel, breaks)


ROWS = [reasons, same_reasons, refusals]

"""Lists of a kernel's addresses, readers that fail behind them, and texts that have them."""
from make_call_object import call_object
from rows.case import Case
from rows.elf import LOAD64, NOTHING, slot
from rows.resolved import variable_of_void

FAILED = "KallsymsAccessError(Kind(Other))"

# A line of a reader that is no text, and a line of a text in memory that is none.
NO_TEXT = 'Error { kind: InvalidData, message: "stream did not contain valid UTF-8" }'
BAD_LINE = 'Custom { kind: InvalidData, error: "stream did not contain valid UTF-8" }'

NO_TYPES = "TypedKsymRequiresKernelBtf"

# Two variables, in lines of several forms.
GOOD = b"1000 D a\n3000 T other\n+2000 d b [module]\r\n1000 D a\n0 D b\n"


def externs(**addresses):
    """The lines of externs without a type: resolved at these addresses, or unresolved."""
    return [
        f"extern {name} resolved {str(address is not None).lower()} {'None' if address is None else f'Some({address})'}"
        for name, address in addresses.items()
    ]


def answer(first, lines, asked=True):
    return "\n".join([first, *lines, f"reader asked {str(asked).lower()}"])


def found(**addresses):
    return answer("Ok", externs(**addresses))


def refused(error):
    return answer(error, externs(a=None, b=None))


def of_text(gives):
    """What a text gives where a reader gives this: the same, but that nobody is asked."""
    return gives.rpartition("\nreader asked ")[0]


def lists():
    """Lists that are read to their end."""
    name = 'name: "a"'
    rows = [
        # A no-break space is no blank.
        ("a name that goes on behind a no-break space", "1000 D a\u00a0x\n2000 D a\n3 D b\n", found(a=0x2000, b=3)),
        ("a plus, a fourth word and an open last line", "+1000 D a [m]\r\n20 D b", found(a=0x1000, b=0x20)),
        ("an address twice, and 0 behind it", "1 D a\n1 D a\n0 D a\n2 D b\n", found(a=1, b=2)),
        (
            "an address of 65 bits",
            "10000000000000000 D a\n",
            refused('KallsymsParseError("invalid address: 10000000000000000")'),
        ),
        ("no line", "", refused(f"VariableNotFound {{ {name} }}")),
        ("a line of a million letters", "x" * 1_000_000 + "\n1000 D a\n20 D b\n", found(a=0x1000, b=0x20)),
    ]
    return [
        Case(name, {"kallsyms": text.encode()}, {"found a b": gives, "text a b": of_text(gives)})
        for name, text, gives in rows
    ]


def failures():
    """Lists that are cut off by a failure, or by what is no text."""
    name = 'name: "a"'
    ambiguous = f"AmbiguousResolution {{ {name}, first_addr: 4096, second_addr: 8192 }}"
    places = len(GOOD) + 1
    return [
        Case("a failure behind a line", {"kallsyms": b"1000 D a\n"}, {"failing a b": refused(FAILED)}),
        # The second address is refused before the failure is met.
        Case(
            "a failure behind two addresses of a name",
            {"kallsyms": b"1000 D a\n2000 D a\n"},
            {"failing a b": refused(ambiguous)},
        ),
        # All lines are read, also where each name has an address.
        Case(
            "a failure at each place",
            {"kallsyms": GOOD},
            {
                "found a b": found(a=0x1000, b=0x2000),
                "failing a b": refused(FAILED),
                "failing_at_each a b": f"{places}: " + refused(FAILED),
            },
        ),
        Case(
            "a line that is no text",
            {"kallsyms": b"1 D \xff\n1000 D a\n20 D b\n"},
            {
                "found a b": refused(f"KallsymsAccessError({NO_TEXT})"),
                "text a b": of_text(refused(f"KallsymsAccessError({BAD_LINE})")),
            },
        ),
        Case(
            "want of memory behind a line",
            {"kallsyms": b"1000 D a\n"},
            {"without_memory a b": refused("OutOfMemory")},
        ),
    ]


def unread():
    """Readers that fail at once, with and without an extern that needs its lines."""
    weak = ["extern f resolved false Some(0)"]
    return [
        Case(
            "a reader that fails at once",
            {"kallsyms": b""},
            {
                "failing": answer("Ok", [], asked=False),
                "failing a=4096": answer("Ok", externs(a=4096), asked=False),
                "failing f=typed": answer("Ok", weak, asked=False),
                "failing a=4096 f=typed": answer("Ok", externs(a=4096) + weak, asked=False),
                "failing a=weak": answer(FAILED, externs(a=None)),
                "failing a=4096 b": answer(FAILED, externs(a=4096, b=None)),
                # without a kernel's types, an extern that has to have its type there is refused before any line is read
                "failing a f=strong_typed": answer(NO_TYPES, externs(a=None, f=None), asked=False),
            },
        )
    ]


def texts():
    """Texts in memory, with lines that are UTF-8 and lines that are not."""
    name = 'name: "a"'
    bad = of_text(refused(f"KallsymsAccessError({BAD_LINE})"))
    ambiguous = of_text(refused(f"AmbiguousResolution {{ {name}, first_addr: 4096, second_addr: 8192 }}"))
    missing = of_text(refused(f"VariableNotFound {{ {name} }}"))
    both = of_text(found(a=0x1000, b=0x20))
    weak = ["extern f resolved false Some(0)"]
    rows = [
        ("letters beyond ASCII", "1000 D a \u00e9\n20 D b\n".encode(), both),
        ("a wanted line that is no text", b"1000 D a \xff\n20 D b\n", bad),
        ("a line that is no text before two addresses of a name", b"\xff\n1000 D a\n2000 D a\n", bad),
        ("a line that is no text behind two addresses of a name", b"1000 D a\n2000 D a\n\xff\n", ambiguous),
        ("a last line that is no text", b"1000 D a\n20 D b\n\xff", bad),
        ("a character over the end of a line", b"1000 D a \xc3\n\xa9 D b\n", bad),
        ("lines that end in two bytes", b"1000 D a\r\n20 D b\r\n", both),
        ("a last line without an end", b"1000 D a\n20 D b", both),
        ("a line end alone", b"\n", missing),
        ("an empty text", b"", missing),
    ]
    unread = {
        "text": "Ok",
        "text a=4096": "\n".join(["Ok", *externs(a=4096)]),
        "text a=4096 f=typed": "\n".join(["Ok", *externs(a=4096), *weak]),
        "text a=weak": "\n".join([f"KallsymsAccessError({BAD_LINE})", *externs(a=None)]),
        "text a f=strong_typed": "\n".join([NO_TYPES, *externs(a=None, f=None)]),
    }
    return [
        *[Case(f"a text with {name}", {"kallsyms": text}, {"text a b": gives}) for name, text, gives in rows],
        Case("a text that is no text, wanted and not", {"kallsyms": b"\xff"}, unread),
    ]


def read(*texts):
    return [f'Ok("{text}")' for text in texts]


def lines():
    """The lines of texts."""
    bad = f"Err({BAD_LINE})"
    rows = [
        ("no line", b"", []),
        ("a line end alone", b"\n", read("")),
        ("a line without an end", b"a", read("a")),
        (
            "lines that end in two bytes, or have one of them",
            b"a\r\nb\r\r\nc\rd\n\r\ne\r",
            read("a", "b\\r", "c\\rd", "", "e\\r"),
        ),
        (
            "lines that are no text",
            b"\xff\na\n\xc3\n\xa9\n\xc3\xa9",
            [bad, *read("a"), bad, bad, *read("\u00e9")],
        ),
    ]
    return [
        Case(f"the lines of a text: {name}", {"kallsyms": text}, {"lines": "\n".join(gives)})
        for name, text, gives in rows
    ]


def whole_files():
    """A file that is prepared, whose variable is looked up behind a reader that may fail."""
    seeking = variable_of_void("a", slots=[slot(0x18, 1), NOTHING], relocations=[(0, LOAD64)])
    unseeking = call_object()
    failed = f"Ksyms({FAILED})"
    return [
        Case(
            "a file whose variable is looked up in the lines",
            {"object": seeking, "kallsyms": GOOD},
            {
                "prepared_found": found(a=0x1000),
                "prepared_text": of_text(found(a=0x1000)),
                "prepared_failing": answer(failed, []),
                "prepared_without_memory": answer("Ksyms(OutOfMemory)", []),
                "prepared_failing_at_each": f"{len(GOOD) + 1}: " + answer(failed, []),
            },
        ),
        Case(
            "a file whose variable is looked up in a text that is no text",
            {"object": seeking, "kallsyms": b"1000 D a\n\xff\n"},
            {"prepared_text": f"Ksyms(KallsymsAccessError({BAD_LINE}))"},
        ),
        Case(
            "a file that seeks nothing in a text that is no text",
            {"object": unseeking, "kallsyms": b"\xff"},
            {"prepared_text": "Ok"},
        ),
        Case(
            "a file that seeks nothing in the lines",
            {"object": unseeking, "kallsyms": GOOD},
            {
                "prepared_found": answer("Ok", [], asked=False),
                "prepared_text": "Ok",
                "prepared_failing": answer("Ok", [], asked=False),
                "prepared_failing_at_each": f"{len(GOOD) + 1}: " + answer("Ok", [], asked=False),
            },
        ),
    ]


def cases():
    """The cases, whose actions are those on lists of addresses."""
    held = lists() + failures() + unread() + texts() + lines() + whole_files()
    return [Case(case.name, case.files, {f"symbols_{action}": text for action, text in case.gives.items()}) for case in held]

"""What bench_prepare has to print of the type information that it makes: 13,000 groups of ten types, a kernel's size."""

GROUPS = 13000

TEXTS = ["structure_with_members", "name_of_the_structure_t", "enumeration_of_variants", "function_on_the_structure"]


def names_of_last():
    """Where the names of the last group stand: `int` is at 1, `member` at 5, and then come four names for each group."""
    at = len("\0int\0member\0")
    for group in range(GROUPS):
        places = []
        for text in TEXTS:
            places.append(at)
            at += len(f"{text}_{group}\0")
    return places


def items(kind, *rows):
    return "[" + ", ".join(f"{kind} {{ name_offset: 5, {row} }}" for row in rows) + "]"


def last_types():
    """The last group: for each type its name, its size, how far behind the first the type is that it stands for, how
    many types of its kind have its name, and how it is printed."""
    first = 10 * (GROUPS - 1) + 1
    structure, pointer, constant, to_constant, prototype = (first + place for place in (1, 2, 3, 4, 8))
    at = names_of_last()
    names = [f"{text}_{GROUPS - 1}" for text in TEXTS]
    held = zip([first, first, pointer, pointer, first, first], [0, 32, 64, 128, 192, 224])
    members = items("BtfMember", *(f"btf_type: {of}, offset: {bits}" for of, bits in held))
    variants = items("BtfEnum", *(f"value: {value}" for value in range(4)))
    params = items("BtfParam", *(f"btf_type: {of}" for of in (to_constant, first, first)))
    no_size = f"UnexpectedBtfType {{ type_id: {prototype} }}"
    return [
        ("int", 4, 0, GROUPS, "Int { name_offset: 1, size: 4, int_data: 32 }"),
        (names[0], 32, 1, 1, f"Struct {{ name_offset: {at[0]}, size: 32, kind_flag: false, members: {members} }}"),
        ("", 8, 2, 2 * GROUPS, f"Ptr {{ name_offset: 0, btf_type: {structure} }}"),
        ("", 32, 1, GROUPS, f"Const {{ name_offset: 0, btf_type: {structure} }}"),
        ("", 8, 4, 2 * GROUPS, f"Ptr {{ name_offset: 0, btf_type: {constant} }}"),
        (names[1], 32, 1, 1, f"Typedef {{ name_offset: {at[1]}, btf_type: {structure} }}"),
        ("", 16 * 32, 6, GROUPS, f"Array {{ name_offset: 0, element_type: {structure}, index_type: {first}, len: 16 }}"),
        (names[2], 4, 7, 1, f"Enum {{ name_offset: {at[2]}, size: 4, kind_flag: false, variants: {variants} }}"),
        ("", no_size, 8, GROUPS, f"FuncProto {{ name_offset: 0, btf_type: {first}, params: {params} }}"),
        (names[3], no_size, 9, 1, f"Func {{ name_offset: {at[3]}, btf_type: {prototype} }}"),
    ]


def expected_lines():
    rows = last_types()
    # Void is the one candidate of its kind; eight types of a group have a size.
    candidates = 1 + sum(rows[(number - 1) % 10][3] for number in range(7, 10 * GROUPS + 1, 7))
    yield f"types {10 * GROUPS + 1}, candidates of each seventh {candidates}, with a size {8 * GROUPS}"
    first = 10 * (GROUPS - 1) + 1
    # The lowest id of a kind and a name: that of the first group, where the name is no group's own.
    lowest = [1, None, 3, 4, 3, None, 7, None, 9, None]
    for place, (name, size, resolved, count, text) in enumerate(rows):
        found = lowest[place] or first + place
        yield (
            f"{first + place} {name}: size {size}, stands for {first + resolved}, first {found},"
            f" candidates {count} in order true, {text}"
        )

"""What the calls answer when out of memory, as tests/drivers/test_alloc_failures prints it."""

NO_MEMORY = "OutOfMemory"


def located(error):
    return f'{error} {{ function: "", error: OutOfMemory }}'


CALLS = located("EbpfRelocationError")
TYPES = 'BtfRelocationError { section: "", error: OutOfMemory }'


def err(error):
    return f"Err({error})"


# A file that is prepared: its own want of memory, or that of a stage.
STAGES = ["Parse(OutOfMemory)", f"Types({TYPES})", f"Maps({CALLS})", "Ksyms(OutOfMemory)"]
STAGES += [f"Externs({CALLS})", f"Calls({CALLS})"]
PREPARED = [err(error) for error in [NO_MEMORY, *STAGES]]


# By the call, which is the last word up to `=`, with its subject before it.
ANSWERS = {
    "parse": [err(NO_MEMORY)],
    "prepare": PREPARED,
    "inspect": PREPARED,
    "object relocate_btf": [err(TYPES)],
    "object relocate_maps": [err(CALLS)],
    "object resolve_externs": [err(NO_MEMORY)],
    "object resolve_lines": [err(NO_MEMORY)],
    "object resolve_text": [err(NO_MEMORY)],
    "object relocate_externs": [err(CALLS)],
    "object relocate_calls": [err(CALLS)],
    "object patch_map_data": [err(NO_MEMORY)],
    "object clone": [err("AllocError")],
    "object kept_inner": [err("AllocError")],
    "object kept_map": [err("AllocError")],
    "object kept_funcs": [err("AllocError")],
    "object kept_lines": [err("AllocError")],
    "object kept_found_funcs": [err("AllocError")],
    "object kept_found_lines": [err("AllocError")],
    "object kept_ext": [err("AllocError")],
    "object kept_text_sections": [err("AllocError")],
    "object kept_link_map": [err(CALLS)],
    "kernel_types": [err(NO_MEMORY)],
    "object loader_kconfig": [err(NO_MEMORY)],
    "object loader_value": [err(NO_MEMORY)],
    "object loader_number": [err(NO_MEMORY)],
    "object loader_define": [err(NO_MEMORY)],
    "broad loader_kconfig": [err(NO_MEMORY)],
    "broad loader_value": [err(NO_MEMORY)],
    "broad loader_define": [err(NO_MEMORY)],
    "broad loader_slots": [err(NO_MEMORY)],
    "broad loader_leave_out": [err(NO_MEMORY)],
    "code slots": [err(NO_MEMORY)],
    "code program_section": [err(NO_MEMORY)],
    "code section": [err(NO_MEMORY)],
    "code ext": [err(NO_MEMORY)],
    "parse_types": [err(NO_MEMORY)],
    "take_types": [err(NO_MEMORY)],
    "types add_string": [err(NO_MEMORY)],
    "types add_type": [err(NO_MEMORY)],
    "types string_at": [err(NO_MEMORY)],
    "types type_name": [err(NO_MEMORY)],
    "types err_type_name": ["None"],
    "types clone": [err("AllocError")],
    "types id_of": [err(NO_MEMORY)],
    "types index": [err(NO_MEMORY)],
    "types both": [err(NO_MEMORY)],
    "types fields": [err(NO_MEMORY)],
    "small": [err("AllocError")],
}

"""Calls of the C interface with each allocation failing in turn."""
from c_interface import loader_rows, struct_ops_rows
from growths import inputs, rows_of_files
from growths.call_row import Parts
from growths.inputs import COUNTER, KERNEL, LINES, REFERENCES, SMALL, TASKS
from growths.run import Row
from rows import linked
from rows.elf import File

MEMORY = "2"

ALL = REFERENCES, KERNEL, LINES
STRUCT_OPS = struct_ops_rows.held("struct_ops.rs"), struct_ops_rows.kernel(fourth="extra"), b""


class GrowthRow(Row):
    """Actions of `calls` on files; the last has failing allocations. With memory its answer is `answer`; None: whatever it is,
    and then each allocation fails alone."""

    def __init__(self, program, name, files, *actions, answer="0"):
        super().__init__(f"growths: {name}", program, "-m", *files, *actions)
        self.answer = answer
        if answer is None:
            self.endings = ("",)
        parses = actions[-1].split("=")[0] in ("open", "open_broad", "open_within", "prepare", "prepare_handle")
        self.may_do_without = parses or actions[-1] == "ask=check"

    def ample_fault(self, ample):
        parts = Parts(ample.out)
        if ample.status != 0 or ample.err or not parts.is_whole or parts.answer == MEMORY or parts.answer != (self.answer or parts.answer):
            return f"status {ample.status}, {ample.err[:200]!r}, {parts.answer[:200]!r}"
        return None

    def refused_fault(self, ample, run):
        parts, with_memory = Parts(run.out), Parts(ample.out)
        if run.status != 0 or run.err or not parts.is_whole:
            return f"status {run.status}, {run.err[:200]!r}, {run.out[-300:]!r}"
        if parts.answer != MEMORY and (with_memory.answer == "0" or parts.answer != with_memory.answer):
            return f"answers {parts.answer[:300]!r}"
        if parts.front != with_memory.front:
            return "another object before the call"
        if parts.after != parts.before:
            return "another object behind the call"
        return None


def no_kind():
    """An object with a section of code whose name gives no kind."""
    return File().code("nothing/p", bytes(8)).symbol("p", 0x12, 3, 0, 8).bytes()


def rows(program):
    two = inputs.two_calls()
    passes = ["open", "types", "maps", "resolve", "externs", "calls"]
    opened = [("the small object", SMALL), ("two calls", two), ("counter.o", COUNTER), ("references.o", REFERENCES)]
    value = "value=wanted:must:2a000000"
    many = "values=wanted:must:2a000000,seen:must:0102030405060708,other:may:01,wanted:must:2b000000"
    found = [GrowthRow(program, f"ebpf_open, {name}", (data, b"", b""), "open") for name, data in opened]
    broad = [*opened, ("no kind", no_kind())]
    found += [GrowthRow(program, f"ebpf_open, lenient, {name}", (data, b"", b""), "open_broad") for name, data in broad]
    found += [GrowthRow(program, f"ebpf_open, within, {name}", (data, b"", b""), "open_within=1000000:broad") for name, data in broad]
    found += [GrowthRow(program, f"ebpf_clone, {name}", (data, b"", b""), "open", "clone") for name, data in opened]
    found += [
        GrowthRow(program, "ebpf_open, no kind", (no_kind(), b"", b""), "open", answer="144 nothing/p"),
        GrowthRow(program, "ebpf_open over another", (SMALL, b"", b""), "open", "open"),
        GrowthRow(program, "ebpf_prepare, the small object", (SMALL, b"", b""), "prepare"),
        GrowthRow(program, "ebpf_prepare, counter.o", (COUNTER, TASKS, b""), "prepare"),
        GrowthRow(program, "ebpf_prepare, references.o", ALL, "prepare"),
        GrowthRow(program, "ebpf_prepare_handle, the small object", (SMALL, b"", b""), "open", "prepare_handle"),
        GrowthRow(program, "ebpf_prepare_handle, counter.o", (COUNTER, TASKS, b""), "open", "prepare_handle"),
        GrowthRow(program, "ebpf_prepare_handle, references.o", ALL, "open", "prepare_handle"),
        GrowthRow(program, "ebpf_relocate_types, counter.o", (COUNTER, TASKS, b""), "open", "types"),
        GrowthRow(program, "ebpf_set_value", (COUNTER, b"", b""), "open", value),
        GrowthRow(program, "ebpf_set_values", (COUNTER, b"", b""), "open", many),
        GrowthRow(program, "ebpf_set_values, no variable", (COUNTER, b"", b""), "open", f"{many},no:must:2a", answer="151 no"),
        GrowthRow(program, "no variable", (COUNTER, b"", b""), "open", "value=no:must:2a", answer="151 no"),
        GrowthRow(program, "ebpf_set_max_entries", (COUNTER, b"", b""), "open", "entries=counts:9"),
        GrowthRow(program, "ebpf_set_value_size", (COUNTER, b"", b""), "open", "size=counts:9"),
        GrowthRow(program, "ebpf_sanitize", (COUNTER, b"", b""), "open", "sanitize=0"),
    ]
    loaded, settings = (loader_rows.loaded(), b"", b""), (loader_rows.declared(loader_rows.SETTINGS).bytes(), b"", b"CONFIG_TEXT=\"a\"\n")
    found += [
        GrowthRow(program, "ebpf_kernel_types", loaded, "open", "ask=kernel_types"),
        GrowthRow(program, "ebpf_kernel_types, no symbol", (loader_rows.without_symbol(), b"", b""), "ask=kernel_types", answer="742 v {type 2}"),
        GrowthRow(program, "ebpf_attach_target", (SMALL, loader_rows.TARGETS, b""), "ask=target:lsm/g"),
        GrowthRow(program, "ebpf_initial_slots", loaded, "open", "ask=initial"),
        GrowthRow(program, "ebpf_variables", (COUNTER, b"", b""), "open", "ask=variables"),
        GrowthRow(program, "ebpf_value", (COUNTER, b"", b""), "open", "ask=read:wanted"),
        GrowthRow(program, "ebpf_set_map_data", (COUNTER, b"", b""), "open", "data=.rodata:01020304"),
        GrowthRow(program, "ebpf_kconfig", settings, "open", "ask=settings"),
        GrowthRow(program, "ebpf_kconfig_value", settings, "open", "ask=config:CONFIG_TEXT"),
        GrowthRow(program, "ebpf_kconfig_number", settings, "open", "ask=number:LINUX_KERNEL_VERSION"),
        GrowthRow(program, "ebpf_define_kconfig", loaded, "open", "define=CONFIG_COUNT:07000000,CONFIG_COUNT:08000000"),
        GrowthRow(program, "ebpf_define_kconfig, no value", loaded, "open", "define=CONFIG_NAME:00", answer="904 CONFIG_COUNT"),
    ]
    faulty = linked.two_faults(), b"", b""
    found += [
        GrowthRow(program, "ebpf_find_map", (COUNTER, b"", b""), "open", "ask=find_map:tables"),
        GrowthRow(program, "ebpf_find_program", (COUNTER, b"", b""), "open", "ask=find_program:on_packet"),
        GrowthRow(program, "ebpf_link_map, two calls", (two, b"", b""), "open", "ask=link_map:p"),
        GrowthRow(program, "ebpf_link_map, no function", faulty, "open", "ask=link_map:p", answer="602 p {address 48}"),
        GrowthRow(program, "ebpf_link_references, two calls", (two, b"", b""), "open", "ask=link_references:p"),
        GrowthRow(program, "ebpf_link_references, no function", faulty, "open", "ask=link_references:p", answer="602 p {address 48}"),
    ]
    core, types = inputs.core()
    found += [
        GrowthRow(program, "ebpf_record_outcomes", (core, types, b""), "open", "ask=outcomes"),
        GrowthRow(program, "ebpf_record_outcomes, counter.o", (COUNTER, TASKS, b""), "open", "ask=outcomes"),
        GrowthRow(program, "ebpf_record_outcomes, no types", (COUNTER, b"types", b""), "open", "ask=outcomes", answer="200"),
        GrowthRow(program, "ebpf_check", (core, types, b""), "open", "ask=check"),
        GrowthRow(program, "ebpf_check, counter.o", (COUNTER, KERNEL, b""), "open", "ask=check"),
        GrowthRow(program, "ebpf_check, references.o", ALL, "open", "ask=check"),
        GrowthRow(program, "ebpf_struct_ops_maps", STRUCT_OPS, "open_broad", "ask=struct_ops"),
        GrowthRow(program, "ebpf_complete_maps", (struct_ops_rows.held("arenas.rs"), b"", b""), "open_broad", "complete=4096"),
        GrowthRow(program, "ebpf_least_types", (core, types, b""), "open", "ask=least_types"),
        GrowthRow(program, "ebpf_least_types, counter.o", (COUNTER, TASKS, b""), "open", "ask=least_types"),
    ]
    for count in range(3, 1 + len(passes)):
        found.append(GrowthRow(program, f"{passes[count - 1]}, references.o", ALL, *passes[:count]))
    asked = ["programs", "maps", "externs", "sections", "license", "map_data:.data", "slots:on_enter", "program_section:on_enter"]
    for call in [*asked, "func_infos:on_enter", "line_infos:on_exit"]:
        found.append(GrowthRow(program, f"ebpf_{call}, references.o", ALL, "open", f"ask={call}"))
    found += [
        GrowthRow(program, f"rows: {name}, prepared", files, "prepare", answer=None)
        for name, files in rows_of_files.objects().items()
    ]
    return found

"""eBPF object files made ready to load: the C interface of ebpf-object (`ebpf.h`, docs/C.md) in Python.

    import ebpf

    with ebpf.open_path("counter.o") as object:
        print([program.name for program in object.programs()])
        prepared = object.prepare(maps={"counts": 5, ".bss": 6, ".rodata": 7, "tables": 8})
        print(len(prepared.slots("on_packet")))

An `Object` is opened, and its values may be set. `Object.prepare` makes all passes and gives a `Prepared`, whose programs
are as BPF_PROG_LOAD takes them. `Object.steps` makes the passes one by one. The object that a pass was made of is closed,
so no pass is made twice. A call that refuses raises `Refused`, and changes nothing. Both close themselves.

The library is that of the environment's EBPF_LIBRARY (a path), else `libebpf.so.1`. One thread at a time uses an object.
Python 3.10 or later.
"""
import builtins
import ctypes as c
import dataclasses
import os
import types as python_types

VERSION = "0.4.0"

_byte_p, _size, _u32, _u64 = c.c_char_p, c.c_size_t, c.c_uint32, c.c_uint64

# ---- structs of the header; each field's name is the header's


class _Refusal(c.Structure):
    _fields_ = [("number", _u32), ("has", _u32)]
    _fields_ += [
        (name, _u64)
        for name in (
            *("slot", "offset", "symbol", "address", "other_address", "section", "size", "other_size"),
            *("type_id", "relocation", "index", "count", "kind"),
        )
    ]
    _fields_ += [("name_len", _size)]


class _Error(c.Structure):
    _fields_ = [("name", c.c_void_p), ("name_len", _size), ("number", _u32), ("is_cut", _u32), ("refusal", _Refusal)]


class _OpenOptions(c.Structure):
    _fields_ = [("size", _size), ("max_bytes", _u64), ("parsing", _u32), ("reserved", _u32)]


class _Info(c.Structure):
    _names = ("is_big_endian", "has_kernel_version", "kernel_version", "has_types", "has_relocations", "has_typed_externs")
    _fields_ = [(name, _u32) for name in _names]


class _Counts(c.Structure):
    _fields_ = [("rows", _size), ("text", _size)]


class _Program(c.Structure):
    _fields_ = [("name_at", _size), ("name_len", _size), ("section", _size), ("address", _u64), ("slots", _size)]
    _fields_ += [(name, _u32) for name in ("kind", "flags", "program_type", "attach_type")]


class MapShape(c.Structure):
    """The attributes of a map: `extra`, `type`, `key_size`, `value_size`, `max_entries`, `flags`, `pinning`, `key_type_id`,
    `value_type_id`; each number as BPF_MAP_CREATE takes it."""

    _names = ("type", "key_size", "value_size", "max_entries", "flags", "pinning", "key_type_id", "value_type_id")
    _fields_ = [("extra", _u64), *((name, _u32) for name in _names)]


class _Map(c.Structure):
    _fields_ = [("name_at", _size), ("name_len", _size), ("section", _size), ("data_len", _size)]
    _fields_ += [("section_kind", _u32), ("has_inner", _u32), ("shape", MapShape), ("inner", MapShape)]


class _Extern(c.Structure):
    _names = ("type_id", "kernel_type_id", "is_typed", "is_weak", "is_resolved", "has_address")
    _fields_ = [("name_at", _size), ("name_len", _size), ("address", _u64), *((name, _u32) for name in _names)]


class _Section(c.Structure):
    _fields_ = [("name_at", _size), ("name_len", _size), ("number", _size)]


class _InitialSlot(c.Structure):
    _fields_ = [("name_at", _size), ("name_len", _size), ("target_at", _size), ("target_len", _size)]
    _fields_ += [("index", _u32), ("is_program", _u32)]


class _StructOpsMap(c.Structure):
    _names = ("struct_id", "value_type_id", "is_link")
    _fields_ = [(name, _size) for name in ("name_at", "name_len", "value_len", "programs")]
    _fields_ += [(name, _u32) for name in _names]


class _StructOpsProgram(c.Structure):
    _fields_ = [("name_at", _size), ("name_len", _size), ("offset", _u64), ("member", _size)]


class Insn(c.Structure):
    """An instruction slot, a `struct bpf_insn`: `code`, `regs` (the destination in the low four bits, the source in the high
    four), `off`, `imm`."""

    _fields_ = [("code", c.c_uint8), ("regs", c.c_uint8), ("off", c.c_int16), ("imm", c.c_int32)]


class FuncInfo(c.Structure):
    """A `struct bpf_func_info`: `insn_off` in slots, `type_id`."""

    _fields_ = [("insn_off", _u32), ("type_id", _u32)]


class LineInfo(c.Structure):
    """A `struct bpf_line_info`: `insn_off` in slots, `file_name_off`, `line_off`, `line_col`."""

    _fields_ = [("insn_off", _u32), ("file_name_off", _u32), ("line_off", _u32), ("line_col", _u32)]


class _ValueRow(c.Structure):
    _fields_ = [("name", _byte_p), ("name_len", _size), ("value", _byte_p), ("value_len", _size), ("must_exist", _u32)]


class _KconfigExtern(c.Structure):
    _fields_ = [("name_at", _size), ("name_len", _size), ("size", _u32), ("kind", _u32), ("is_signed", _u32), ("is_weak", _u32)]


class _Variable(c.Structure):
    _fields_ = [("name_at", _size), ("name_len", _size), ("map_at", _size), ("map_len", _size), ("offset", _u64), ("size", _u64)]


class _Descriptor(c.Structure):
    _fields_ = [("name", _byte_p), ("name_len", _size), ("descriptor", c.c_int32)]


class _MapSlot(c.Structure):
    _fields_ = [("name_at", _size), ("name_len", _size), ("section", _size), ("address", _u64), ("slot", _size)]


class _PrepareInputs(c.Structure):
    _fields_ = [("size", _size), ("types", _byte_p), ("types_len", _size), ("descriptors", c.POINTER(_Descriptor))]
    _fields_ += [("descriptors_len", _size), ("symbols", _byte_p), ("symbols_len", _size), ("btf", c.c_void_p)]


class _RecordOutcome(c.Structure):
    _fields_ = [("name_at", _size), ("name_len", _size), ("number", _size), ("section", _size), ("address", _u64)]
    _fields_ += [("slot", _size), ("value", _u64)]
    _fields_ += [(name, _u32) for name in ("has_slot", "result", "absence", "fault")]


class _Reason(c.Structure):
    _fields_ = [("name_at", _size), ("name_len", _size), ("subject_at", _size), ("subject_len", _size), ("slot", _size)]
    _fields_ += [("section", _size), ("address", _u64), ("function_slot", _size), ("relocation", _size), ("number", _u64)]
    _fields_ += [(name, _u32) for name in ("kind", "fault", "has_slot", "has_relocation")]


class _VerdictSummary(c.Structure):
    _names = ("programs_ok", "programs_break", "programs_without_target", "reasons")
    _fields_ = [*((name, _size) for name in _names), ("verdict", _u32)]


class _CodeCopy(c.Structure):
    _fields_ = [("name_at", _size), ("name_len", _size), ("base", _size), ("slots", _size), ("section", _size), ("address", _u64)]


class _CodeReference(c.Structure):
    _fields_ = [("slot", _size), ("base", _size), ("is_call", _u32)]


# ---- the calls of the header, each with its parameters

_p = c.POINTER
_handle, _bytes, _room = c.c_void_p, (_byte_p, _size), (c.c_void_p, _size)
_named = (_handle, *_bytes)


def _list(row):
    return (_p(row), _size, *_room, _p(_Counts))


CALLS = {
    "ebpf_version_number": (),
    "ebpf_number_name": (_u32, *_room, _p(_size)),
    "ebpf_strerror": (_u32,),
    "ebpf_last_error": (_handle,),
    "ebpf_explain": (_handle,),
    "ebpf_open": (*_bytes, _p(_OpenOptions), _p(_handle)),
    "ebpf_clone": (_handle, _p(_handle)),
    "ebpf_close": (_handle,),
    "ebpf_btf_open": (*_bytes, _p(_handle)),
    "ebpf_btf_close": (_handle,),
    "ebpf_info": (_handle, _p(_Info)),
    "ebpf_license": (_handle, *_room, _p(_size)),
    "ebpf_states_license": (_handle, _p(_u32)),
    "ebpf_programs": (_handle, *_list(_Program)),
    "ebpf_find_program": (*_named, _p(_Program)),
    "ebpf_maps": (_handle, *_list(_Map)),
    "ebpf_find_map": (*_named, _p(_Map)),
    "ebpf_map_data": (*_named, *_room, _p(_size)),
    "ebpf_externs": (_handle, *_list(_Extern)),
    "ebpf_program_section": (*_named, *_room, _p(_size)),
    "ebpf_sections": (_handle, *_list(_Section)),
    "ebpf_attach_target": (*_bytes, *_bytes, _p(_u32), _p(_u32)),
    "ebpf_attach_target_with": (*_bytes, _handle, _p(_u32), _p(_u32)),
    "ebpf_slots": (*_named, _p(Insn), _size, _p(_size)),
    "ebpf_func_infos": (*_named, _p(FuncInfo), _size, _p(_size)),
    "ebpf_line_infos": (*_named, _p(LineInfo), _size, _p(_size)),
    "ebpf_set_value": (*_named, *_bytes, _u32),
    "ebpf_set_values": (_handle, _p(_ValueRow), _size),
    "ebpf_kconfig": (_handle, *_list(_KconfigExtern)),
    "ebpf_kconfig_value": (*_named, *_bytes, _p(_size)),
    "ebpf_kconfig_number": (*_named, _u64, _p(_size)),
    "ebpf_define_kconfig": (_handle, _p(_ValueRow), _size),
    "ebpf_complete_maps": (_handle, *_bytes, _u32),
    "ebpf_variables": (_handle, *_list(_Variable)),
    "ebpf_value": (*_named, *_room, _p(_size)),
    "ebpf_set_map_data": (*_named, *_bytes),
    "ebpf_set_max_entries": (*_named, _u32),
    "ebpf_set_value_size": (*_named, _u32),
    "ebpf_sanitize": (_handle, _u32),
    "ebpf_leave_out": (_handle, _p(c.c_char_p), _size),
    "ebpf_program_count": (_handle,),
    "ebpf_program_at": (_handle, _size, _p(_Program)),
    "ebpf_map_count": (_handle,),
    "ebpf_map_at": (_handle, _size, _p(_Map)),
    "ebpf_extern_count": (_handle,),
    "ebpf_extern_at": (_handle, _size, _p(_Extern)),
    "ebpf_section_count": (_handle,),
    "ebpf_section_at": (_handle, _size, _p(_Section)),
    "ebpf_kconfig_count": (_handle,),
    "ebpf_kconfig_at": (_handle, _size, _p(_KconfigExtern)),
    "ebpf_variable_count": (_handle,),
    "ebpf_variable_at": (_handle, _size, _p(_Variable)),
    "ebpf_program_slots": (_handle, _size, _p(_size)),
    "ebpf_program_func_infos": (_handle, _size, _p(_size)),
    "ebpf_program_line_infos": (_handle, _size, _p(_size)),
    "ebpf_program_section_name": (_handle, _size),
    "ebpf_map_contents": (_handle, _size, _p(_size)),
    "ebpf_license_text": (_handle,),
    "ebpf_kernel_types": (_handle, *_bytes, _p(_size)),
    "ebpf_least_types": (_handle, _handle, _p(_size)),
    "ebpf_initial_slots": (_handle, *_bytes, _p(_size)),
    "ebpf_initial_slot_at": (_handle, _size, _p(_InitialSlot)),
    "ebpf_struct_ops_maps": (_handle, *_bytes, _handle, _p(_size)),
    "ebpf_struct_ops_map_at": (_handle, _size, _p(_StructOpsMap)),
    "ebpf_struct_ops_program_at": (_handle, _size, _size, _p(_StructOpsProgram)),
    "ebpf_struct_ops_value": (_handle, _size, _p(_size)),
    "ebpf_relocate_types": (_handle, *_bytes),
    "ebpf_relocate_types_with": (_handle, _handle),
    "ebpf_record_outcomes": (_handle, *_bytes, _p(_size)),
    "ebpf_record_outcomes_with": (_handle, _handle, _p(_size)),
    "ebpf_record_outcome_at": (_handle, _size, _p(_RecordOutcome)),
    "ebpf_check": (_handle, _handle, _p(_VerdictSummary)),
    "ebpf_reason_at": (_handle, _size, _p(_Reason)),
    "ebpf_maps_without_descriptors": (_handle, _p(_Descriptor), _size, _p(_size)),
    "ebpf_map_without_descriptor_at": (_handle, _size, _p(_MapSlot)),
    "ebpf_relocate_maps": (_handle, _p(_Descriptor), _size),
    "ebpf_resolve_externs": (_handle, *_bytes, *_bytes),
    "ebpf_resolve_externs_with": (_handle, _handle, *_bytes),
    "ebpf_wants_symbols": (_handle, _p(_u32)),
    "ebpf_relocate_externs": (_handle,),
    "ebpf_relocate_calls": (_handle,),
    "ebpf_link_map": (*_named, _p(_size)),
    "ebpf_code_copy_at": (_handle, _size, _p(_CodeCopy)),
    "ebpf_link_references": (*_named, _p(_CodeReference), _size, _p(_size)),
    "ebpf_prepare": (*_bytes, _p(_PrepareInputs), _p(_handle)),
    "ebpf_prepare_handle": (_handle, _p(_PrepareInputs)),
}
# What those return that return no number. A text that a handle keeps is an address.
RESULTS = {
    "ebpf_close": None,
    "ebpf_btf_close": None,
    "ebpf_strerror": _byte_p,
    "ebpf_explain": _byte_p,
    "ebpf_last_error": _p(_Error),
    "ebpf_program_slots": _p(Insn),
    "ebpf_program_func_infos": _p(FuncInfo),
    "ebpf_program_line_infos": _p(LineInfo),
    **{name: _size for name in CALLS if name.endswith("_count")},
    **{name: c.c_void_p for name in CALLS if name.endswith(("_at", "_section_name", "_contents", "_license_text"))},
    **{name: c.c_void_p for name in ("ebpf_kernel_types", "ebpf_least_types", "ebpf_kconfig_value", "ebpf_kconfig_number")},
    "ebpf_struct_ops_value": c.c_void_p,
}

DONE, ROOM, MEMORY = 0, 1, 2
LENIENT, STRICT = 0, 1


def _loaded():
    """The library, with the types of its calls."""
    path = os.environ.get("EBPF_LIBRARY", "libebpf.so.1")
    try:
        library = c.CDLL(path)
    except OSError as error:
        raise ImportError(f"{error}: install the library, or set EBPF_LIBRARY to the path of libebpf.so") from error
    for name, given in CALLS.items():
        call = getattr(library, name)
        call.argtypes, call.restype = given, RESULTS.get(name, _u32)
    number = library.ebpf_version_number()
    version = f"{number // 1000000}.{number // 1000 % 1000}.{number % 1000}"
    if version.rpartition(".")[0] != VERSION.rpartition(".")[0]:
        raise ImportError(f"{path} has version {version}, and this module is for {VERSION}")
    return library


library = _loaded()


# ---- refusals


class Refused(Exception):
    """Why a call refuses.

    `number`: of `enum ebpf_number`. `text`: what it says. `name`: its stage and variant, as `parse: BadMagic`. `about`: the
    function, the map, the section or the like that is concerned, or None. `details`: the numbers that the error states, by
    the names of `struct ebpf_refusal`. A call that is out of memory raises MemoryError.
    """

    def __init__(self, number, about=None, details=None):
        self.number, self.about, self.details = number, about, details or {}
        self.text, self.name = library.ebpf_strerror(number).decode(), _name_of(number)
        stated = "".join(f", {name} {value}" for name, value in self.details.items())
        super().__init__(f"{self.text} ({number}, {self.name}){f': {about}' if about else ''}{stated}")


def _name_of(number):
    text, length = c.create_string_buffer(64), _size()
    library.ebpf_number_name(number, text, 64, length)
    return text.raw[: length.value].decode()


def _raised(number, about=None, details=None):
    return MemoryError("out of memory") if number == MEMORY else Refused(number, about, details)


def _outcome(handle, number, about=None):
    """Raises what a call says that was given a handle and a name."""
    if number == DONE:
        return
    error = library.ebpf_last_error(handle)[0]
    name = c.string_at(error.name, error.name_len).decode("utf-8", "replace") or about
    names = [name for name, _ in _Refusal._fields_[2:-1]]
    stated = {it: getattr(error.refusal, it) for bit, it in enumerate(names) if error.refusal.has >> bit & 1}
    raise _raised(number, name, stated)


def _value_rows(values, must_exist):
    """A row for each value, {name: bytes}."""
    pairs = [(name.encode(), bytes(value)) for name, value in values.items()]
    return (_ValueRow * len(pairs))(*((name, len(name), value, len(value), must_exist) for name, value in pairs))


def _descriptor_rows(maps):
    """A row for each map, {name: descriptor}."""
    pairs = [(name.encode(), descriptor) for name, descriptor in maps.items()]
    return (_Descriptor * len(pairs))(*((name, len(name), descriptor) for name, descriptor in pairs))


# ---- what an object has


@dataclasses.dataclass(frozen=True)
class Info:
    """What an object says of itself. `kernel_version` is None where the file states none."""

    is_big_endian: bool
    kernel_version: int | None
    has_types: bool
    has_relocations: bool
    has_typed_externs: bool


@dataclasses.dataclass(frozen=True)
class Program:
    """A program. `section` is an index, `address` its address there. `slots`: how many. `kind` is of `enum
    ebpf_program_kind`, `program_type` the kernel's `enum bpf_prog_type` (0: not known), `attach_type` its `enum
    bpf_attach_type` or None."""

    name: str
    section: int
    address: int
    slots: int
    kind: int
    program_type: int
    attach_type: int | None
    is_sleepable: bool
    is_multi: bool
    has_frags: bool
    wants_target: bool
    is_optional: bool


@dataclasses.dataclass(frozen=True)
class Map:
    """A map. `section_kind` is of `enum ebpf_section_kind`. `inner`: the shape of the maps that a map of maps holds, or
    None."""

    name: str
    section: int
    data_len: int
    section_kind: int
    shape: MapShape
    inner: MapShape | None


@dataclasses.dataclass(frozen=True)
class Extern:
    """An extern of .ksyms. `address`: in the kernel, or None. `kernel_type_id`: 0 where it is not known."""

    name: str
    address: int | None
    type_id: int
    kernel_type_id: int
    is_typed: bool
    is_weak: bool
    is_resolved: bool


@dataclasses.dataclass(frozen=True)
class Section:
    """A named section of the file."""

    name: str
    index: int


@dataclasses.dataclass(frozen=True)
class Variable:
    """A variable: `size` bytes from `offset` on in the data of `map`."""

    name: str
    map: str
    offset: int
    size: int


@dataclasses.dataclass(frozen=True)
class KconfigExtern:
    """A kconfig extern. `kind` is of `enum ebpf_kconfig_kind`."""

    name: str
    size: int
    kind: int
    is_signed: bool
    is_weak: bool


@dataclasses.dataclass(frozen=True)
class InitialSlot:
    """An initial value: the map or the program `target` stands in `map` at `index`."""

    map: str
    index: int
    target: str
    is_program: bool


@dataclasses.dataclass(frozen=True)
class StructOpsProgram:
    """A program of a map of struct_ops: its descriptor goes to `offset` of the value, and it is loaded with `member`."""

    name: str
    offset: int
    member: int


@dataclasses.dataclass(frozen=True)
class StructOpsMap:
    """A map of struct_ops: its programs are loaded with `struct_id`, and `value` is zero where their descriptors go."""

    name: str
    struct_id: int
    value_type_id: int
    is_link: bool
    value: bytes
    programs: list


@dataclasses.dataclass(frozen=True)
class MapSlot:
    """A slot that refers to the map `map`: its number in the function at `address` of a section."""

    map: str
    section: int
    address: int
    slot: int


@dataclasses.dataclass(frozen=True)
class CodeCopy:
    """A copy of a function in a linked program: `slots` slots from `base` on."""

    name: str
    base: int
    slots: int
    section: int
    address: int


@dataclasses.dataclass(frozen=True)
class CodeReference:
    """A slot of a linked program that calls the copy at `base`, or loads its address."""

    slot: int
    base: int
    is_call: bool


@dataclasses.dataclass(frozen=True)
class Outcome:
    """The outcome of a CO-RE relocation: one of `value`, `absence` (of `enum ebpf_absence`) and `fault` (of `enum
    ebpf_number`) is not None. `slot` is None where no function has it."""

    section_name: str
    number: int
    section: int
    address: int
    slot: int | None
    value: int | None
    absence: int | None
    fault: int | None


@dataclasses.dataclass(frozen=True)
class Reason:
    """A reason for which programs break on a kernel: `kind` is of `enum ebpf_reason_kind`. `program` is empty where all programs
    break, `subject` where nothing has a name. `slot` is that of the linked program, and comes from `function_slot` of the function
    at `address` of a section. `relocation` is an index of what `outcomes` returns. What a reason has not is None."""

    kind: int
    program: str
    subject: str
    slot: int | None
    section: int | None
    address: int | None
    function_slot: int | None
    relocation: int | None
    number: int
    fault: int | None


@dataclasses.dataclass(frozen=True)
class Verdict:
    """The verdict of a kernel on an object: how many programs run there, and the reasons of the others."""

    is_ok: bool
    programs_ok: int
    programs_break: int
    programs_without_target: int
    reasons: list


def _program(row, name):
    flags = {name: bool(row.flags >> bit & 1) for bit, name in enumerate(("is_sleepable", "is_multi", "has_frags", "wants_target", "is_optional"))}
    attach_type = None if row.attach_type == 0xFFFFFFFF else row.attach_type
    return Program(name, row.section, row.address, row.slots, row.kind, row.program_type, attach_type, **flags)


def _shape(shape):
    """A copy that does not refer to its row."""
    return MapShape.from_buffer_copy(shape)


def _map(row, name):
    inner = _shape(row.inner) if row.has_inner else None
    return Map(name, row.section, row.data_len, row.section_kind, _shape(row.shape), inner)


def _extern(row, name):
    address = row.address if row.has_address else None
    flags = bool(row.is_typed), bool(row.is_weak), bool(row.is_resolved)
    return Extern(name, address, row.type_id, row.kernel_type_id, *flags)


def _result(row, name):
    numbers = [row.value, row.absence, row.fault]
    given = [number if row.result == place else None for place, number in enumerate(numbers)]
    return Outcome(name, row.number, row.section, row.address, row.slot if row.has_slot else None, *given)


def _reason(row, name, place):
    subject = c.string_at(place + row.subject_at, row.subject_len).decode("utf-8", "replace")
    numbers = row.slot, row.section, row.address, row.function_slot
    slots = numbers if row.has_slot else (None,) * 4
    return Reason(row.kind, name, subject, *slots, row.relocation if row.has_relocation else None, row.number, row.fault or None)


class Types:
    """A kernel's types, read once for many calls and many objects: `Types(types)` of bytes as /sys/kernel/btf/vmlinux has
    them. Each call that takes a kernel's types takes bytes, which it reads anew, or these. One thread at a time uses them.
    Refused 200 to 219."""

    def __init__(self, types):
        at = c.c_void_p()
        number = library.ebpf_btf_open(*_data(types), c.byref(at))
        self._at = at.value
        if number != DONE:
            raise _raised(number)

    def __enter__(self):
        return self

    def __exit__(self, *_):
        self.close()

    def __del__(self):
        self.close()

    def close(self):
        """Frees the types. Closed ones stay closed, and each call that is given them raises ValueError."""
        at, self._at = getattr(self, "_at", None), None
        if at and library:
            library.ebpf_btf_close(at)

    @property
    def _handle(self):
        if not self._at:
            raise ValueError("the types are closed")
        return self._at


def _over(call, types, *given):
    """Makes a call over types: over those that were read, or over bytes."""
    if isinstance(types, Types):
        return getattr(library, f"{call}_with")(*given[:1], types._handle, *given[1:])
    return getattr(library, call)(*given[:1], *_data(types), *given[1:])


class Contents:
    """What can be asked of an object at any time. A closed one raises ValueError."""

    def __init__(self, handle):
        self._at = handle

    def __enter__(self):
        return self

    def __exit__(self, *_):
        self.close()

    def __del__(self):
        self.close()

    def close(self):
        """Frees the object. A closed one stays closed."""
        handle, self._at = getattr(self, "_at", None), None
        if handle and library:
            library.ebpf_close(handle)

    @property
    def _handle(self):
        if not self._at:
            raise ValueError("the object is closed, or a pass was made of it")
        return self._at

    def _moved(self, kind):
        """The same object as another type; this one is closed."""
        handle, self._at = self._handle, None
        return kind(handle)

    def _made(self, number, about=None):
        _outcome(self._handle, number, about)

    def _filled(self, call, *given, kind=c.c_char, about=None):
        """The values that a call writes. It is asked until there is room."""
        room = 0
        while True:
            values, count = (kind * room)(), _size()
            number = call(self._handle, *given, values, room, c.byref(count))
            if number != ROOM:
                self._made(number, about)
                return values[: count.value]
            room = count.value

    def _listed(self, row, call):
        """The rows that a call lists, each with the function that gives a text of theirs."""
        counts = _Counts()
        while True:
            rows, text, room = (row * counts.rows)(), c.create_string_buffer(counts.text or 1), (counts.rows, counts.text)
            number = call(self._handle, rows, room[0], text, room[1], c.byref(counts))
            if number != ROOM:
                self._made(number)
                held = text.raw
                return rows[: counts.rows], lambda at, length: held[at : at + length].decode("utf-8", "replace")

    def _rows(self, row, at, count):
        """So many rows that the handle keeps, each with its name and where this is."""
        for index in range(count.value):
            one = row()
            place = at(self._handle, index, c.byref(one))
            if not place:
                self._made(library.ebpf_last_error(self._handle)[0].number)
            yield one, c.string_at(place).decode("utf-8", "replace"), place

    def _kept(self, at, length, about=None):
        """The bytes that a call returned, which the handle keeps; None where it returned null and refused nothing."""
        if not at:
            return self._made(library.ebpf_last_error(self._handle)[0].number, about)
        return c.string_at(at, length.value)

    def copy(self):
        """A copy, so that one parse serves several kernels or values."""
        handle = c.c_void_p()
        self._made(library.ebpf_clone(self._handle, c.byref(handle)))
        return type(self)(handle.value)

    def info(self):
        """What the object says of itself."""
        info = _Info()
        self._made(library.ebpf_info(self._handle, c.byref(info)))
        version = info.kernel_version if info.has_kernel_version else None
        flags = bool(info.has_types), bool(info.has_relocations), bool(info.has_typed_externs)
        return Info(bool(info.is_big_endian), version, *flags)

    def license(self):
        """The license as bytes, without a zero byte: b"GPL" where the file states none."""
        return self._filled(library.ebpf_license)

    def states_license(self):
        """Whether the file states the license."""
        states = _u32()
        self._made(library.ebpf_states_license(self._handle, c.byref(states)))
        return bool(states)

    def programs(self):
        """The programs, in byte order of their names."""
        rows, text = self._listed(_Program, library.ebpf_programs)
        return [_program(row, text(row.name_at, row.name_len)) for row in rows]

    def program(self, name):
        """The program of a name. Refused 4: none has it."""
        row = _Program()
        self._made(library.ebpf_find_program(self._handle, *_text(name), c.byref(row)), name)
        return _program(row, name)

    def maps(self):
        """The maps, in byte order of their names."""
        rows, text = self._listed(_Map, library.ebpf_maps)
        return [_map(row, text(row.name_at, row.name_len)) for row in rows]

    def map(self, name):
        """The map of a name. Refused 5: none has it."""
        row = _Map()
        self._made(library.ebpf_find_map(self._handle, *_text(name), c.byref(row)), name)
        return _map(row, name)

    def map_data(self, name):
        """The initial data of a map. Refused 5: none has the name."""
        return self._filled(library.ebpf_map_data, *_text(name), about=name)

    def externs(self):
        """The externs of .ksyms, in byte order of their names."""
        rows, text = self._listed(_Extern, library.ebpf_externs)
        return [_extern(row, text(row.name_at, row.name_len)) for row in rows]

    def wants_symbols(self):
        """Whether finding the externs reads the kernel's symbols, the text of /proc/kallsyms; else give none."""
        wants = _u32()
        self._made(library.ebpf_wants_symbols(self._handle, c.byref(wants)))
        return bool(wants)

    def maps_without_descriptors(self, maps=()):
        """The slots whose own map is not among these names, by their functions and then by slot. With none each slot that
        refers to a map gets the descriptor of its own map. Ask it before the pass that writes descriptors."""
        rows, count = _descriptor_rows(dict.fromkeys(maps, 0)), _size()
        self._made(library.ebpf_maps_without_descriptors(self._handle, rows, len(rows), c.byref(count)))
        found = self._rows(_MapSlot, library.ebpf_map_without_descriptor_at, count)
        return [MapSlot(name, row.section, row.address, row.slot) for row, name, _ in found]

    def sections(self):
        """The named sections of the file, in byte order of their names."""
        rows, text = self._listed(_Section, library.ebpf_sections)
        return [Section(text(row.name_at, row.name_len), row.number) for row in rows]

    def variables(self):
        """The variables in the data of maps, in byte order of their names."""
        rows, text = self._listed(_Variable, library.ebpf_variables)
        names = ((text(row.name_at, row.name_len), text(row.map_at, row.map_len)) for row in rows)
        return [Variable(*pair, row.offset, row.size) for pair, row in zip(names, rows)]

    def value(self, name):
        """The bytes of a variable as they are now. Refused 10: none has the name."""
        return self._filled(library.ebpf_value, *_text(name), about=name)

    def kconfig(self):
        """The kconfig externs, in the order in which the object's types name them. Refused 900 to 903."""
        rows, text = self._listed(_KconfigExtern, library.ebpf_kconfig)
        names = (text(row.name_at, row.name_len) for row in rows)
        return [KconfigExtern(name, row.size, row.kind, bool(row.is_signed), bool(row.is_weak)) for name, row in zip(names, rows)]

    def kconfig_value(self, name, config):
        """The value of a kconfig extern by a configuration's text (bytes), or None where that has none. Refused 8: no extern
        has the name."""
        length = _size()
        value = library.ebpf_kconfig_value(self._handle, *_text(name), *_data(config), c.byref(length))
        return self._kept(value, length, name)

    def kconfig_number(self, name, number):
        """A number as the value of a kconfig extern. Refused 8: no extern has the name."""
        length = _size()
        return self._kept(library.ebpf_kconfig_number(self._handle, *_text(name), number, c.byref(length)), length, name)

    def kernel_types(self, file):
        """The types of the object's file as BPF_BTF_LOAD takes them; empty where it has none. `file` (bytes) is what the
        object was opened from. Refused 700 to 799."""
        length = _size()
        return self._kept(library.ebpf_kernel_types(self._handle, *_data(file), c.byref(length)), length) or b""

    def initial_slots(self, file):
        """The initial values of maps of maps and of arrays of programs. `file` is what the object was opened from. Refused
        800 to 899."""
        count = _size()
        self._made(library.ebpf_initial_slots(self._handle, *_data(file), c.byref(count)))
        rows = self._rows(_InitialSlot, library.ebpf_initial_slot_at, count)
        target = lambda row, place: c.string_at(place + row.target_at, row.target_len).decode("utf-8", "replace")
        return [InitialSlot(name, row.index, target(row, place), bool(row.is_program)) for row, name, place in rows]

    def struct_ops_maps(self, file, types):
        """The maps of struct_ops that a loader makes, by a kernel's types (`Types`). `file` is what the object was opened
        from. Refused 1200 to 1299."""
        count = _size()
        self._made(library.ebpf_struct_ops_maps(self._handle, *_data(file), types._handle, c.byref(count)))
        rows = self._rows(_StructOpsMap, library.ebpf_struct_ops_map_at, count)
        return [self._struct_ops_map(at, row, name) for at, (row, name, _) in enumerate(rows)]

    def _struct_ops_map(self, at, row, name):
        program_at = lambda handle, index, into: library.ebpf_struct_ops_program_at(handle, at, index, into)
        rows = self._rows(_StructOpsProgram, program_at, _size(row.programs))
        programs = [StructOpsProgram(name, row.offset, row.member) for row, name, _ in rows]
        length = _size()
        value = self._kept(library.ebpf_struct_ops_value(self._handle, at, c.byref(length)), length)
        return StructOpsMap(name, row.struct_id, row.value_type_id, bool(row.is_link), value, programs)

    def slots(self, program):
        """The slots of a program as they stand. Refused 4: none has the name."""
        return self._filled(library.ebpf_slots, *_text(program), kind=Insn, about=program)

    def func_infos(self, program):
        """A program's func info, by slot. Refused 4: none has the name."""
        return self._filled(library.ebpf_func_infos, *_text(program), kind=FuncInfo, about=program)

    def line_infos(self, program):
        """A program's line info, by slot. Refused 4: none has the name."""
        return self._filled(library.ebpf_line_infos, *_text(program), kind=LineInfo, about=program)

    def program_section(self, program):
        """The name of a program's section, or None where it is not listed. Refused 4: none has the name."""
        name = self._filled(library.ebpf_program_section, *_text(program), about=program)
        return name.decode("utf-8", "replace") or None


class _Linkable(Contents):
    """What can be asked of an object until it is linked."""

    def link_map(self, program):
        """The copies of functions that a program is made of once it is linked, its own first. Where the program calls
        externs it is asked behind `Steps.relocate_externs`. Refused 4, 600 to 699."""
        count = _size()
        self._made(library.ebpf_link_map(self._handle, *_text(program), c.byref(count)), program)
        rows = self._rows(_CodeCopy, library.ebpf_code_copy_at, count)
        return [CodeCopy(name, row.base, row.slots, row.section, row.address) for row, name, _ in rows]

    def link_references(self, program):
        """The slots of that linked program that refer to its copies. Refused 4, 600 to 699."""
        rows = self._filled(library.ebpf_link_references, *_text(program), kind=_CodeReference, about=program)
        return [CodeReference(row.slot, row.base, bool(row.is_call)) for row in rows]


class Object(_Linkable):
    """An object of which no pass was made. `ebpf.open` gives one."""

    def set_value(self, name, value, must_exist=True):
        """Writes the value (bytes) of a variable. Refused 150 to 152."""
        self._made(library.ebpf_set_value(self._handle, *_text(name), *_data(value), must_exist), name)

    def set_values(self, values, must_exist=True):
        """Writes the values of many variables, {name: bytes}, all or none. Refused 150 to 152."""
        rows = _value_rows(values, must_exist)
        self._made(library.ebpf_set_values(self._handle, rows, len(rows)))

    def define_kconfig(self, values):
        """Adds the map .kconfig with the values of the kconfig externs, {name: bytes}. Refused 900 to 906."""
        rows = _value_rows(values, False)
        self._made(library.ebpf_define_kconfig(self._handle, rows, len(rows)))

    def complete_maps(self, file, page_size=4096):
        """Gives the arena the data of its variables, and refuses pinnings and arenas that libbpf refuses. `file` is what the
        object was opened from. Refused 1100 to 1199."""
        self._made(library.ebpf_complete_maps(self._handle, *_data(file), page_size))

    def set_map_data(self, name, data):
        """Sets all of the initial data of a map. Refused 5: no map has the name; 9: the data has another length."""
        self._made(library.ebpf_set_map_data(self._handle, *_text(name), *_data(data)), name)

    def set_max_entries(self, name, entries):
        """Sets how many entries a map holds at most. Refused 5."""
        self._made(library.ebpf_set_max_entries(self._handle, *_text(name), entries), name)

    def set_value_size(self, name, size):
        """Sets the size of a map's values, in bytes. Refused 5."""
        self._made(library.ebpf_set_value_size(self._handle, *_text(name), size), name)

    def use_older_helpers(self):
        """Replaces the helper functions 112 to 115 by the older 4 and 45."""
        self._made(library.ebpf_sanitize(self._handle, 0))

    def leave_out(self, *names):
        """Leaves programs out: they are not linked, and what they alone need is not asked for. So a program that calls an
        extern that the kernel lacks doesn't stop the others. Refused 4: no program has the name."""
        if any("\0" in name for name in names):
            raise ValueError("a name has a zero byte")
        rows = (c.c_char_p * len(names))(*(name.encode() for name in names))
        self._made(library.ebpf_leave_out(self._handle, rows, len(names)))

    def outcomes(self, types):
        """The outcome of each CO-RE relocation over a kernel's types (bytes or `Types`), in the order of .BTF.ext. Refused 200
        to 219."""
        count = _size()
        self._made(_over("ebpf_record_outcomes", types, self._handle, c.byref(count)))
        rows = self._rows(_RecordOutcome, library.ebpf_record_outcome_at, count)
        return [_result(row, name) for row, name, _ in rows]

    def check(self, types):
        """The verdict of a kernel (`Types`) on the object, as a `Verdict`. Externs without a type and kconfig externs count as
        found; programs of sections with `?` are judged too."""
        summary = _VerdictSummary()
        self._made(library.ebpf_check(self._handle, types._handle, c.byref(summary)))
        rows = self._rows(_Reason, library.ebpf_reason_at, _size(summary.reasons))
        counts = summary.programs_ok, summary.programs_break, summary.programs_without_target
        return Verdict(summary.verdict == 0, *counts, [_reason(*row) for row in rows])

    def least_types(self, types):
        """The types of a kernel (`Types`) that the CO-RE relocations ask for, as bytes with ids of their own. Each relocation has
        the same outcome over them as over the kernel's. Refused 1000 to 1099: something needs an id of the kernel's."""
        length = _size()
        return self._kept(library.ebpf_least_types(self._handle, types._handle, c.byref(length)), length)

    def prepare(self, types=b"", symbols=b"", maps=python_types.MappingProxyType({})):
        """Runs all passes, and gives the object as a `Prepared`; this one is closed then.

        `types`: the kernel's types, as bytes that /sys/kernel/btf/vmlinux has, or `Types`; empty: functions are not relocated.
        `symbols`: the text of /proc/kallsyms. `maps`: {name: descriptor}. Refused 200 to 699: the object is as it was.
        """
        rows, btf = _descriptor_rows(maps), None
        if isinstance(types, Types):
            types, btf = b"", types._handle
        inputs = _PrepareInputs(c.sizeof(_PrepareInputs), *_data(types), rows, len(rows), *_data(symbols), btf)
        self._made(library.ebpf_prepare_handle(self._handle, c.byref(inputs)))
        return self._moved(Prepared)

    def steps(self):
        """Begins the passes one by one; this object is closed then."""
        return self._moved(Steps)


class Steps(_Linkable):
    """An object between its passes. Each may be left out, and each is made at most once, in the order of the methods.
    Refused 11: the pass was made; 12: a later one was."""

    def relocate_types(self, types):
        """Relocates the functions to a kernel's types (CO-RE), bytes or `Types`. Refused 200 to 299."""
        self._made(_over("ebpf_relocate_types", types, self._handle))

    def relocate_maps(self, maps):
        """Writes descriptors of maps, {name: descriptor}. Refused 300 to 399: a map has none (320), a name is of no map
        (321)."""
        rows = _descriptor_rows(maps)
        self._made(library.ebpf_relocate_maps(self._handle, rows, len(rows)))

    def resolve_externs(self, types, symbols):
        """Finds the externs in a kernel's types, bytes or `Types`, and in its symbols. Refused 200 to 219, 400 to 499."""
        self._made(_over("ebpf_resolve_externs", types, self._handle, *_data(symbols)))

    def relocate_externs(self):
        """Writes what is known of the externs. Refused 500 to 599."""
        self._made(library.ebpf_relocate_externs(self._handle))

    def relocate_calls(self):
        """Links each program, the last pass, and gives the object as a `Prepared`; this one is closed then. Refused 600 to
        699."""
        self._made(library.ebpf_relocate_calls(self._handle))
        return self.finish()

    def finish(self):
        """Leaves out the passes that are left; this object is closed then."""
        return self._moved(Prepared)


class Prepared(Contents):
    """An object after its passes: its programs are as BPF_PROG_LOAD takes them."""


def _text(name):
    held = name.encode()
    return held, len(held)


def _data(given):
    held = bytes(given)
    return held, len(held)


def open(file, strict=False, max_bytes=0):
    """Opens the object of a file (bytes). `strict`: a code section whose name says no kind is refused (144). `max_bytes`: if
    not 0, refuses (157) where the object would own more. Refused 100 to 199."""
    options = _OpenOptions(c.sizeof(_OpenOptions), max_bytes, STRICT if strict else LENIENT)
    handle = c.c_void_p()
    number = library.ebpf_open(*_data(file), c.byref(options), c.byref(handle))
    # also where the file is refused there is a handle, which has the error
    object = Object(handle.value)
    _outcome(handle, number)
    return object


def open_path(path, strict=False, max_bytes=0):
    """Opens the object of the file at a path."""
    with builtins.open(path, "rb") as file:
        return open(file.read(), strict, max_bytes)


# The answers of `attach_target`.
NOT_WANTED, UNNAMED, FOUND, NOT_FOUND = 0, 1, 2, 3


def attach_target(section, types):
    """The type that the programs of a section of this name are attached to, by a kernel's types (bytes or `Types`): (answer,
    id). The answer is NOT_WANTED, UNNAMED, FOUND or NOT_FOUND; the id is 0 where none is found. Refused 200 to 219."""
    answer, type_id, named = _u32(), _u32(), _text(section)
    if isinstance(types, Types):
        number = library.ebpf_attach_target_with(*named, types._handle, c.byref(answer), c.byref(type_id))
    else:
        number = library.ebpf_attach_target(*named, *_data(types), c.byref(answer), c.byref(type_id))
    if number != DONE:
        raise _raised(number, section)
    return answer.value, type_id.value

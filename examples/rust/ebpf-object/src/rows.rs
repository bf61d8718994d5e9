//! What an object has, as values of their own.
use crate::kinds::{KconfigKind, ProgramKind, SectionKind};
use ebpf_sys as sys;

/// A program.
#[derive(Clone, Debug, PartialEq, Eq)]
#[non_exhaustive]
pub struct Program {
    /// Its name.
    pub name: String,
    /// The index of its section.
    pub section: usize,
    /// Its address there, as its symbol states it.
    pub address: u64,
    /// How many slots it has as it stands, linked or not.
    pub slots: usize,
    /// What the name of its section says.
    pub kind: ProgramKind,
    /// The kernel's `enum bpf_prog_type`; 0 where neither name nor kind says one.
    pub program_type: u32,
    /// The kernel's `enum bpf_attach_type`, where the program is loaded with one.
    pub attach_type: Option<u32>,
    /// Whether it is loaded with `BPF_F_SLEEPABLE`.
    pub is_sleepable: bool,
    /// Whether it is attached to many functions at once (`uprobe.multi`, `uretprobe.multi`).
    pub is_multi: bool,
    /// Whether it is loaded with `BPF_F_XDP_HAS_FRAGS`.
    pub has_frags: bool,
    /// Whether it is loaded with the id of a type of what it is attached to ([`attach_target`](crate::attach_target)).
    pub wants_target: bool,
    /// Whether it is loaded only where it is asked for: its section's name begins with `?`.
    pub is_optional: bool,
}

/// The attributes of a map; each number as `BPF_MAP_CREATE` takes it.
#[derive(Clone, Copy, Debug, Default, PartialEq, Eq)]
#[non_exhaustive]
pub struct MapShape {
    /// `map_extra`.
    pub extra: u64,
    /// `enum bpf_map_type`.
    pub map_type: u32,
    /// The size of a key in bytes.
    pub key_size: u32,
    /// The size of a value in bytes.
    pub value_size: u32,
    /// How many entries it holds at most.
    pub max_entries: u32,
    /// `map_flags`.
    pub flags: u32,
    /// Whether it is to be pinned by its name.
    pub is_pinned: bool,
    /// The id of the key's type in [`Contents::kernel_types`](crate::Contents::kernel_types); 0: none.
    pub key_type_id: u32,
    /// The id of the value's type there; 0: none.
    pub value_type_id: u32,
}

/// A map.
#[derive(Clone, Debug, PartialEq, Eq)]
#[non_exhaustive]
pub struct Map {
    /// Its name.
    pub name: String,
    /// The index of its section.
    pub section: usize,
    /// How many bytes its initial data has.
    pub data_len: usize,
    /// What its section is for.
    pub section_kind: SectionKind,
    /// Its attributes.
    pub shape: MapShape,
    /// The attributes of the maps that a map of maps holds.
    pub inner: Option<MapShape>,
}

/// A slot that refers to a map.
#[derive(Clone, Debug, PartialEq, Eq)]
#[non_exhaustive]
pub struct MapSlot {
    /// The map's name.
    pub map: String,
    /// The index of the section of the slot's function.
    pub section: usize,
    /// The function's address there, in bytes.
    pub address: u64,
    /// The number of the slot in the function.
    pub slot: usize,
}

/// An extern of `.ksyms`.
#[derive(Clone, Debug, PartialEq, Eq)]
#[non_exhaustive]
pub struct Extern {
    /// Its name.
    pub name: String,
    /// Its address in the kernel, where that is known.
    pub address: Option<u64>,
    /// Its id in the object's types.
    pub type_id: u32,
    /// Its id in the kernel's types; 0 where it is not known.
    pub kernel_type_id: u32,
    /// Whether the kernel's type is compared with its own.
    pub is_typed: bool,
    /// Whether it may stay unresolved.
    pub is_weak: bool,
    /// Whether the kernel has it.
    pub is_resolved: bool,
}

/// A named section of the file.
#[derive(Clone, Debug, PartialEq, Eq)]
#[non_exhaustive]
pub struct Section {
    /// Its name.
    pub name: String,
    /// Its index in the file.
    pub index: usize,
}

/// A variable in the data of a map.
#[derive(Clone, Debug, PartialEq, Eq)]
#[non_exhaustive]
pub struct Variable {
    /// Its name.
    pub name: String,
    /// The name of its map.
    pub map: String,
    /// Where it begins in the map's data.
    pub offset: u64,
    /// Its size in bytes.
    pub size: u64,
}

/// A kconfig extern (`extern .. __kconfig`).
#[derive(Clone, Debug, PartialEq, Eq)]
#[non_exhaustive]
pub struct KconfigExtern {
    /// Its name.
    pub name: String,
    /// The size of its value in bytes.
    pub size: u32,
    /// What it holds.
    pub kind: KconfigKind,
    /// Whether its numbers are signed.
    pub is_signed: bool,
    /// Whether it may stay without a value, and is zeros then.
    pub is_weak: bool,
}

/// An initial value of a map of maps, or of an array of programs.
#[derive(Clone, Debug, PartialEq, Eq)]
#[non_exhaustive]
pub struct InitialSlot {
    /// The name of the map.
    pub map: String,
    /// The index in the map, which is its key.
    pub index: u32,
    /// The name of the map or of the program that stands there.
    pub target: String,
    /// Whether that is a program.
    pub is_program: bool,
}

/// A copy of a function in a linked program. Slots are counted, each 8 bytes.
#[derive(Clone, Debug, PartialEq, Eq)]
#[non_exhaustive]
pub struct CodeCopy {
    /// The function's name.
    pub name: String,
    /// The slot of the linked program at which the copy begins.
    pub base: usize,
    /// How many slots it has.
    pub slots: usize,
    /// The index of the function's section.
    pub section: usize,
    /// The function's address there, in bytes.
    pub address: u64,
}

/// A slot of a linked program that refers to one of its copies.
#[derive(Clone, Copy, Debug, PartialEq, Eq)]
#[non_exhaustive]
pub struct CodeReference {
    /// Its number in the linked program.
    pub slot: usize,
    /// The slot at which the copy begins that it refers to.
    pub base: usize,
    /// Whether it calls the function; else it loads its address.
    pub is_call: bool,
}

/// What an object says of itself.
#[derive(Clone, Copy, Debug, PartialEq, Eq)]
#[non_exhaustive]
pub struct Info {
    /// Whether the file's byte order is big-endian.
    pub is_big_endian: bool,
    /// The kernel version that the file states, if it states one.
    pub kernel_version: Option<u32>,
    /// Whether the file has .BTF.
    pub has_types: bool,
    /// Whether it has CO-RE relocations.
    pub has_relocations: bool,
    /// Whether some extern's type is compared with the kernel's.
    pub has_typed_externs: bool,
}

impl Program {
    pub(crate) fn of(row: &sys::ebpf_program, name: String) -> Program {
        let has = |flag| row.flags & flag != 0;
        Program {
            name,
            section: row.section,
            address: row.address,
            slots: row.slots,
            kind: row.kind.into(),
            program_type: row.program_type,
            attach_type: (row.attach_type != sys::EBPF_NO_ATTACH_TYPE).then_some(row.attach_type),
            is_sleepable: has(sys::EBPF_SLEEPABLE),
            is_multi: has(sys::EBPF_MULTI),
            has_frags: has(sys::EBPF_FRAGS),
            wants_target: has(sys::EBPF_TARGET),
            is_optional: has(sys::EBPF_OPTIONAL),
        }
    }
}

impl MapShape {
    fn of(row: &sys::ebpf_map_shape) -> MapShape {
        MapShape {
            extra: row.extra,
            map_type: row.type_,
            key_size: row.key_size,
            value_size: row.value_size,
            max_entries: row.max_entries,
            flags: row.flags,
            is_pinned: row.pinning != 0,
            key_type_id: row.key_type_id,
            value_type_id: row.value_type_id,
        }
    }
}

impl Map {
    pub(crate) fn of(row: &sys::ebpf_map, name: String) -> Map {
        Map {
            name,
            section: row.section,
            data_len: row.data_len,
            section_kind: row.section_kind.into(),
            shape: MapShape::of(&row.shape),
            inner: (row.has_inner != 0).then(|| MapShape::of(&row.inner)),
        }
    }
}

impl Extern {
    pub(crate) fn of(row: &sys::ebpf_extern, name: String) -> Extern {
        Extern {
            name,
            address: (row.has_address != 0).then_some(row.address),
            type_id: row.type_id,
            kernel_type_id: row.kernel_type_id,
            is_typed: row.is_typed != 0,
            is_weak: row.is_weak != 0,
            is_resolved: row.is_resolved != 0,
        }
    }
}

impl Info {
    pub(crate) fn of(row: &sys::ebpf_object_info) -> Info {
        Info {
            is_big_endian: row.is_big_endian != 0,
            kernel_version: (row.has_kernel_version != 0).then_some(row.kernel_version),
            has_types: row.has_types != 0,
            has_relocations: row.has_relocations != 0,
            has_typed_externs: row.has_typed_externs != 0,
        }
    }
}

//! The maps of struct_ops of an object.
use crate::error::Error;
use crate::kernel::Types;
use crate::object::Object;
use ebpf_sys as sys;
use std::ffi::CStr;

/// A map of struct_ops, as a kernel takes it.
#[derive(Clone, Debug, PartialEq, Eq)]
#[non_exhaustive]
pub struct StructOpsMap {
    /// Its name.
    pub name: String,
    /// The id of the kernel's struct, which its programs are loaded with (`attach_btf_id`).
    pub struct_id: u32,
    /// The id of the STRUCT that is its value (`btf_vmlinux_value_type_id`).
    pub value_type_id: u32,
    /// Whether a link attaches it (`BPF_F_LINK`).
    pub is_link: bool,
    /// Its value, which is zero where descriptors of programs go.
    pub value: Vec<u8>,
    /// Its programs, in the order of the members.
    pub programs: Vec<StructOpsProgram>,
}

/// A program of a map of struct_ops.
#[derive(Clone, Debug, PartialEq, Eq)]
#[non_exhaustive]
pub struct StructOpsProgram {
    /// Its name.
    pub name: String,
    /// The offset of its descriptor in the value, in bytes: a number of 8 bytes.
    pub offset: u64,
    /// The index of its member in the kernel's struct, which it is loaded with (`expected_attach_type`).
    pub member: usize,
}

impl Object {
    /// The maps of struct_ops that a loader makes, by a kernel's types. `file` is what the object was opened from.
    ///
    /// # Errors
    ///
    /// - [`Error::StructOps`]: the maps can't be made of the file, or don't suit the kernel's structs.
    pub fn struct_ops_maps(&self, file: &[u8], types: &Types) -> Result<Vec<StructOpsMap>, Error> {
        let mut count = 0;
        // SAFETY: the handle and the types are open, the file is borrowed for the call, and the count is ours.
        let number =
            unsafe { sys::ebpf_struct_ops_maps(self.as_raw(), file.as_ptr(), file.len(), types.as_raw(), &mut count) };
        self.outcome(number, "")?;
        let rows = self.rows(count, sys::ebpf_struct_ops_map_at, |row, name, _| (*row, name))?;
        rows.into_iter().enumerate().map(|(at, (row, name))| self.struct_ops_map(at, &row, name)).collect()
    }

    fn struct_ops_map(&self, at: usize, row: &sys::ebpf_struct_ops_map, name: String) -> Result<StructOpsMap, Error> {
        let mut len = 0;
        // SAFETY: the handle is open, and the length is ours.
        let value = unsafe { sys::ebpf_struct_ops_value(self.as_raw(), at, &mut len) };
        Ok(StructOpsMap {
            name,
            struct_id: row.struct_id,
            value_type_id: row.value_type_id,
            is_link: row.is_link != 0,
            value: self.kept("", value, len)?.unwrap_or_default(),
            programs: (0..row.programs)
                .map(|program| self.struct_ops_program(at, program))
                .collect::<Result<_, _>>()?,
        })
    }

    fn struct_ops_program(&self, map: usize, index: usize) -> Result<StructOpsProgram, Error> {
        let mut row = sys::ebpf_struct_ops_program::default();
        // SAFETY: the handle is open, and the row is ours.
        let name = unsafe { sys::ebpf_struct_ops_program_at(self.as_raw(), map, index, &mut row) };
        if name.is_null() {
            return Err(self.last_error(sys::EBPF_NO_ROW, ""));
        }
        // SAFETY: the name ends in a zero byte, and the handle keeps it until a call that changes the object.
        let name = unsafe { CStr::from_ptr(name) }.to_string_lossy().into_owned();
        Ok(StructOpsProgram { name, offset: row.offset, member: row.member })
    }
}

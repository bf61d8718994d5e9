//! What can be asked of an object at any time.
use crate::error::Error;
use crate::object::descriptor_rows;
use crate::rows::{
    CodeCopy, CodeReference, Extern, Info, InitialSlot, KconfigExtern, Map, MapSlot, Program, Section, Variable,
};
use ebpf_sys as sys;
use std::ffi::{CStr, CString};
use std::ptr::{self, NonNull};

/// What an object holds: its programs, its maps and more. [`Object`](crate::Object), [`Steps`](crate::Steps) and
/// [`Prepared`](crate::Prepared) lead to it by `Deref`.
///
/// It may move to another thread (`Send`). One call at a time uses it, as `ebpf.h` asks, so it isn't `Sync`. All that its
/// calls return is both.
///
/// ```
/// fn is_send<T: Send>() {}
/// is_send::<ebpf_object::Object>();
/// ```
///
/// ```compile_fail,E0277
/// fn is_sync<T: Sync>() {}
/// is_sync::<ebpf_object::Object>();
/// ```
#[derive(Debug)]
pub struct Contents {
    handle: NonNull<sys::ebpf_handle>,
}

// SAFETY: `ebpf.h` lets a handle move from thread to thread; no one else has it.
unsafe impl Send for Contents {}

impl Drop for Contents {
    fn drop(&mut self) {
        // SAFETY: the handle is open, no one else has it, and this is its last use.
        unsafe { sys::ebpf_close(self.handle.as_ptr()) }
    }
}

impl Contents {
    /// Takes over a handle that a call gave out.
    ///
    /// # Safety
    ///
    /// The handle is null or open, and no one else has it.
    pub(crate) unsafe fn own(handle: *mut sys::ebpf_handle) -> Result<Contents, Error> {
        NonNull::new(handle).map(|handle| Contents { handle }).ok_or(Error::OutOfMemory)
    }

    pub(crate) fn handle(&mut self) -> *mut sys::ebpf_handle {
        self.handle.as_ptr()
    }

    pub(crate) fn copy(&self) -> Result<Contents, Error> {
        let mut copy = ptr::null_mut();
        // SAFETY: the handle is open, and the copy's place is written alone.
        self.outcome(unsafe { sys::ebpf_clone(self.as_raw(), &mut copy) }, "")?;
        // SAFETY: the call gave out this handle just now.
        unsafe { Contents::own(copy) }
    }

    /// The handle, for calls of `ebpf_sys`. It is open as long as this value lives.
    pub fn as_raw(&self) -> *const sys::ebpf_handle {
        self.handle.as_ptr()
    }

    /// What the object says of itself.
    ///
    /// # Errors
    ///
    /// None is known.
    pub fn info(&self) -> Result<Info, Error> {
        let mut info = sys::ebpf_object_info::default();
        // SAFETY: the handle is open, and the row is ours.
        self.outcome(unsafe { sys::ebpf_info(self.as_raw(), &mut info) }, "")?;
        Ok(Info::of(&info))
    }

    /// The license, as `BPF_PROG_LOAD` takes it: up to its first zero byte. `GPL` where the file states none.
    ///
    /// # Errors
    ///
    /// None is known.
    pub fn license(&self) -> Result<CString, Error> {
        // SAFETY: the handle is open, and the buffer is ours.
        let mut text =
            self.filled::<u8>("", |it| unsafe { sys::ebpf_license(self.as_raw(), it.at.cast(), it.room, it.count) })?;
        text.truncate(text.iter().position(|it| *it == 0).unwrap_or(text.len()));
        Ok(CString::new(text).unwrap_or_default())
    }

    /// Whether the file states the license; else it is the default.
    ///
    /// # Errors
    ///
    /// None is known.
    pub fn states_license(&self) -> Result<bool, Error> {
        let mut states = 0;
        // SAFETY: the handle is open, and the number is ours.
        self.outcome(unsafe { sys::ebpf_states_license(self.as_raw(), &mut states) }, "")?;
        Ok(states != 0)
    }

    /// The programs, in byte order of their names.
    ///
    /// # Errors
    ///
    /// - [`Error::OutOfMemory`].
    ///
    /// # Examples
    ///
    /// ```
    /// use ebpf_object::{Object, OpenOptions, ProgramKind};
    ///
    /// # fn main() -> Result<(), Box<dyn std::error::Error>> {
    /// let object = Object::open(&std::fs::read("tests/data/counter.o")?, OpenOptions::strict())?;
    /// let programs = object.programs()?;
    /// assert_eq!((programs[0].name.as_str(), programs[0].kind), ("on_packet", ProgramKind::Xdp));
    /// # Ok(())
    /// # }
    /// ```
    pub fn programs(&self) -> Result<Vec<Program>, Error> {
        // SAFETY: the handle is open, and the buffers are ours.
        let list = self.listed(|it| unsafe {
            sys::ebpf_programs(self.as_raw(), it.rows, it.rows_room, it.text, it.text_room, it.counts)
        })?;
        Ok(list.values(|row: &sys::ebpf_program, text| Program::of(row, text(row.name_at, row.name_len))))
    }

    /// The program of a name. No list is made.
    ///
    /// # Errors
    ///
    /// - [`Error::NoProgram`]: no program has the name.
    pub fn program(&self, name: &str) -> Result<Program, Error> {
        let mut row = sys::ebpf_program::default();
        // SAFETY: the handle is open, the name is borrowed for the call, and the row is ours.
        let number = unsafe { sys::ebpf_find_program(self.as_raw(), name.as_ptr().cast(), name.len(), &mut row) };
        self.outcome(number, name)?;
        Ok(Program::of(&row, name.to_owned()))
    }

    /// The maps, in byte order of their names.
    ///
    /// # Errors
    ///
    /// - [`Error::OutOfMemory`].
    pub fn maps(&self) -> Result<Vec<Map>, Error> {
        // SAFETY: the handle is open, and the buffers are ours.
        let list = self.listed(|it| unsafe {
            sys::ebpf_maps(self.as_raw(), it.rows, it.rows_room, it.text, it.text_room, it.counts)
        })?;
        Ok(list.values(|row: &sys::ebpf_map, text| Map::of(row, text(row.name_at, row.name_len))))
    }

    /// The map of a name. No list is made.
    ///
    /// # Errors
    ///
    /// - [`Error::NoMap`]: no map has the name.
    pub fn map(&self, name: &str) -> Result<Map, Error> {
        let mut row = sys::ebpf_map::default();
        // SAFETY: the handle is open, the name is borrowed for the call, and the row is ours.
        let number = unsafe { sys::ebpf_find_map(self.as_raw(), name.as_ptr().cast(), name.len(), &mut row) };
        self.outcome(number, name)?;
        Ok(Map::of(&row, name.to_owned()))
    }

    /// The initial data of a map.
    ///
    /// # Errors
    ///
    /// - [`Error::NoMap`]: no map has the name.
    pub fn map_data(&self, map: &str) -> Result<Vec<u8>, Error> {
        // SAFETY: the handle is open, the name is borrowed for the call, and the buffer is ours.
        self.filled(map, |it| unsafe {
            sys::ebpf_map_data(self.as_raw(), map.as_ptr().cast(), map.len(), it.at, it.room, it.count)
        })
    }

    /// The slots whose own map has no row here, by their functions and then by slot. With none each slot that refers to a map
    /// gets the descriptor of its own map. Ask it before the pass that writes descriptors; these are not read.
    ///
    /// # Errors
    ///
    /// - [`Error::OutOfMemory`].
    ///
    /// # Examples
    ///
    /// ```
    /// use ebpf_object::{Object, OpenOptions};
    ///
    /// # fn main() -> Result<(), Box<dyn std::error::Error>> {
    /// let object = Object::open(&std::fs::read("tests/data/counter.o")?, OpenOptions::lenient())?;
    /// let missing = object.maps_without_descriptors(&[(".bss", 5), (".rodata", 6), ("tables", 7)])?;
    /// assert!(missing.iter().all(|slot| slot.map == "counts"));
    /// # Ok(())
    /// # }
    /// ```
    pub fn maps_without_descriptors<S: AsRef<str>>(&self, maps: &[(S, i32)]) -> Result<Vec<MapSlot>, Error> {
        let rows = descriptor_rows(maps);
        let mut count = 0;
        // SAFETY: the handle is open, the names of rows are borrowed for the call, and the count is ours.
        let number =
            unsafe { sys::ebpf_maps_without_descriptors(self.as_raw(), rows.as_ptr(), rows.len(), &mut count) };
        self.outcome(number, "")?;
        self.rows(count, sys::ebpf_map_without_descriptor_at, |row, map, _| MapSlot {
            map,
            section: row.section,
            address: row.address,
            slot: row.slot,
        })
    }

    /// Whether finding the externs reads the kernel's symbols, the text of `/proc/kallsyms`; else give none.
    ///
    /// # Errors
    ///
    /// None is known.
    pub fn wants_symbols(&self) -> Result<bool, Error> {
        let mut wants = 0;
        // SAFETY: the handle is open, and the number is ours.
        self.outcome(unsafe { sys::ebpf_wants_symbols(self.as_raw(), &mut wants) }, "")?;
        Ok(wants != 0)
    }

    /// The externs of `.ksyms`, in byte order of their names.
    ///
    /// # Errors
    ///
    /// - [`Error::OutOfMemory`].
    pub fn externs(&self) -> Result<Vec<Extern>, Error> {
        // SAFETY: the handle is open, and the buffers are ours.
        let list = self.listed(|it| unsafe {
            sys::ebpf_externs(self.as_raw(), it.rows, it.rows_room, it.text, it.text_room, it.counts)
        })?;
        Ok(list.values(|row: &sys::ebpf_extern, text| Extern::of(row, text(row.name_at, row.name_len))))
    }

    /// The named sections of the file, in byte order of their names.
    ///
    /// # Errors
    ///
    /// - [`Error::OutOfMemory`].
    pub fn sections(&self) -> Result<Vec<Section>, Error> {
        // SAFETY: the handle is open, and the buffers are ours.
        let list = self.listed(|it| unsafe {
            sys::ebpf_sections(self.as_raw(), it.rows, it.rows_room, it.text, it.text_room, it.counts)
        })?;
        Ok(list.values(|row: &sys::ebpf_section, text| Section {
            name: text(row.name_at, row.name_len),
            index: row.number,
        }))
    }

    /// The variables in the data of maps, in byte order of their names.
    ///
    /// # Errors
    ///
    /// - [`Error::OutOfMemory`].
    pub fn variables(&self) -> Result<Vec<Variable>, Error> {
        // SAFETY: the handle is open, and the buffers are ours.
        let list = self.listed(|it| unsafe {
            sys::ebpf_variables(self.as_raw(), it.rows, it.rows_room, it.text, it.text_room, it.counts)
        })?;
        Ok(list.values(|row: &sys::ebpf_variable, text| Variable {
            name: text(row.name_at, row.name_len),
            map: text(row.map_at, row.map_len),
            offset: row.offset,
            size: row.size,
        }))
    }

    /// The bytes of a variable in the data of its map, as they are now.
    ///
    /// # Errors
    ///
    /// - [`Error::NoVariable`]: no variable has the name.
    pub fn value(&self, variable: &str) -> Result<Vec<u8>, Error> {
        // SAFETY: the handle is open, the name is borrowed for the call, and the buffer is ours.
        self.filled(variable, |it| unsafe {
            sys::ebpf_value(self.as_raw(), variable.as_ptr().cast(), variable.len(), it.at, it.room, it.count)
        })
    }

    /// The kconfig externs, in the order in which the object's types name them.
    ///
    /// # Errors
    ///
    /// - [`Error::Kconfig`]: one can't be read (900 to 903).
    pub fn kconfig(&self) -> Result<Vec<KconfigExtern>, Error> {
        // SAFETY: the handle is open, and the buffers are ours.
        let list = self.listed(|it| unsafe {
            sys::ebpf_kconfig(self.as_raw(), it.rows, it.rows_room, it.text, it.text_room, it.counts)
        })?;
        Ok(list.values(|row: &sys::ebpf_kconfig_extern, text| KconfigExtern {
            name: text(row.name_at, row.name_len),
            size: row.size,
            kind: row.kind.into(),
            is_signed: row.is_signed != 0,
            is_weak: row.is_weak != 0,
        }))
    }

    /// The value of a kconfig extern by the text of a kernel's configuration, if that has one.
    ///
    /// # Errors
    ///
    /// - [`Error::NoExtern`]: no extern has the name.
    /// - [`Error::Kconfig`]: the text has no value of its type (907, 908).
    pub fn kconfig_value(&self, name: &str, config: &[u8]) -> Result<Option<Vec<u8>>, Error> {
        let (raw, mut len, at, text) = (self.as_raw(), 0, name.as_ptr().cast(), config.as_ptr().cast());
        // SAFETY: the handle is open, the slices are borrowed for the call, and the length is ours.
        let value = unsafe { sys::ebpf_kconfig_value(raw, at, name.len(), text, config.len(), &mut len) };
        self.kept(name, value, len)
    }

    /// A number as the value of a kconfig extern: what a loader knows of the kernel, as `LINUX_KERNEL_VERSION`.
    ///
    /// # Errors
    ///
    /// - [`Error::NoExtern`]: no extern has the name.
    /// - [`Error::Kconfig`]: the number is no value of its type (907, 908).
    pub fn kconfig_number(&self, name: &str, number: u64) -> Result<Vec<u8>, Error> {
        let (at, mut len) = (name.as_ptr().cast(), 0);
        // SAFETY: the handle is open, the name is borrowed for the call, and the length is ours.
        let value = unsafe { sys::ebpf_kconfig_number(self.as_raw(), at, name.len(), number, &mut len) };
        Ok(self.kept(name, value, len)?.unwrap_or_default())
    }

    /// The types of the object's file as `BPF_BTF_LOAD` takes them; empty where it has no section .BTF. `file` is what the
    /// object was opened from.
    ///
    /// # Errors
    ///
    /// - [`Error::KernelTypes`]: the file can't be read, or its types can't be completed.
    ///
    /// # Examples
    ///
    /// ```
    /// use ebpf_object::{Object, OpenOptions};
    ///
    /// # fn main() -> Result<(), Box<dyn std::error::Error>> {
    /// let file = std::fs::read("tests/data/counter.o")?;
    /// let object = Object::open(&file, OpenOptions::lenient())?;
    /// assert_eq!(object.kernel_types(&file)?[..2], [0x9f, 0xeb]);
    /// # Ok(())
    /// # }
    /// ```
    pub fn kernel_types(&self, file: &[u8]) -> Result<Vec<u8>, Error> {
        let mut len = 0;
        // SAFETY: the handle is open, the file is borrowed for the call, and the length is ours.
        let types = unsafe { sys::ebpf_kernel_types(self.as_raw(), file.as_ptr(), file.len(), &mut len) };
        Ok(self.kept("", types, len)?.unwrap_or_default())
    }

    /// The initial values of maps of maps and of arrays of programs, by the maps' names and then by index. `file` is what
    /// the object was opened from; an object with an array of programs is opened leniently.
    ///
    /// # Errors
    ///
    /// - [`Error::InitialSlots`]: they can't be listed.
    pub fn initial_slots(&self, file: &[u8]) -> Result<Vec<InitialSlot>, Error> {
        let mut count = 0;
        // SAFETY: the handle is open, the file is borrowed for the call, and the count is ours.
        let number = unsafe { sys::ebpf_initial_slots(self.as_raw(), file.as_ptr(), file.len(), &mut count) };
        self.outcome(number, "")?;
        self.rows(count, sys::ebpf_initial_slot_at, |row, map, at| InitialSlot {
            map,
            index: row.index,
            // SAFETY: the name of the target is there, in the text that the name of the map begins; a zero byte is behind it.
            target: unsafe { CStr::from_ptr(at.add(row.target_at)) }.to_string_lossy().into_owned(),
            is_program: row.is_program != 0,
        })
    }

    pub(crate) fn code_copies(&self, program: &str) -> Result<Vec<CodeCopy>, Error> {
        let (name, mut count) = (program.as_ptr().cast(), 0);
        // SAFETY: the handle is open, the name is borrowed for the call, and the count is ours.
        let number = unsafe { sys::ebpf_link_map(self.as_raw(), name, program.len(), &mut count) };
        self.outcome(number, program)?;
        self.rows(count, sys::ebpf_code_copy_at, |row, name, _| CodeCopy {
            name,
            base: row.base,
            slots: row.slots,
            section: row.section,
            address: row.address,
        })
    }

    pub(crate) fn code_references(&self, program: &str) -> Result<Vec<CodeReference>, Error> {
        // SAFETY: the handle is open, the name is borrowed for the call, and the buffer is ours.
        let rows = self.filled(program, |it| unsafe {
            sys::ebpf_link_references(self.as_raw(), program.as_ptr().cast(), program.len(), it.at, it.room, it.count)
        })?;
        let value = |row: &sys::ebpf_code_reference| CodeReference {
            slot: row.slot,
            base: row.base,
            is_call: row.is_call != 0,
        };
        Ok(rows.iter().map(value).collect())
    }
}

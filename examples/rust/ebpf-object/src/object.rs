//! An object before its passes.
use crate::contents::Contents;
use crate::error::{Error, Failed};
use crate::kernel::{checked_version, Kernel, Types};
use crate::prepared::Prepared;
use crate::rows::{CodeCopy, CodeReference};
use crate::steps::{Opened, Steps};
use ebpf_sys as sys;
use std::ffi::{c_char, CString};
use std::ops::Deref;
use std::ptr;

/// How a file is parsed.
#[derive(Clone, Copy, Debug, PartialEq, Eq)]
pub struct OpenOptions {
    is_lenient: bool,
    most_bytes: Option<u64>,
}

impl OpenOptions {
    /// Strict parsing: a code section whose name says no kind is refused (144).
    pub fn strict() -> OpenOptions {
        OpenOptions { is_lenient: false, most_bytes: None }
    }

    /// Lenient parsing, as libbpf's: each code section is a program's, whatever its name, and an array of programs may be
    /// declared with its programs. `ebpf_open` in `ebpf.h` has all differences.
    pub fn lenient() -> OpenOptions {
        OpenOptions { is_lenient: true, ..OpenOptions::strict() }
    }

    /// Refuses a file whose object would own more bytes (157), before it is made: for files from strangers. 0 is no limit.
    pub fn within(self, most_bytes: u64) -> OpenOptions {
        OpenOptions { most_bytes: Some(most_bytes), ..self }
    }
}

impl Default for OpenOptions {
    /// Lenient parsing without a limit, as `ebpf_open` does without options.
    fn default() -> OpenOptions {
        OpenOptions::lenient()
    }
}

/// A variable's name and its value.
#[derive(Clone, Copy, Debug, PartialEq, Eq)]
pub struct Setting<'a> {
    name: &'a str,
    value: &'a [u8],
    must_exist: bool,
}

impl<'a> Setting<'a> {
    /// A value of a variable that the object has to have.
    pub fn required(name: &'a str, value: &'a [u8]) -> Setting<'a> {
        Setting { name, value, must_exist: true }
    }

    /// A value that is passed over where the object lacks the variable.
    pub fn optional(name: &'a str, value: &'a [u8]) -> Setting<'a> {
        Setting { name, value, must_exist: false }
    }
}

/// A row for each value.
fn value_rows(settings: &[Setting<'_>]) -> Vec<sys::ebpf_value_row> {
    let row = |it: &Setting<'_>| sys::ebpf_value_row {
        name: it.name.as_ptr().cast(),
        name_len: it.name.len(),
        value: it.value.as_ptr(),
        value_len: it.value.len(),
        must_exist: it.must_exist.into(),
    };
    settings.iter().map(row).collect()
}

/// A row for each map.
pub(crate) fn descriptor_rows<S: AsRef<str>>(maps: &[(S, i32)]) -> Vec<sys::ebpf_descriptor> {
    let row = |(name, descriptor): &(S, i32)| sys::ebpf_descriptor {
        name: name.as_ref().as_ptr().cast(),
        name_len: name.as_ref().len(),
        descriptor: *descriptor,
    };
    maps.iter().map(row).collect()
}

/// An object that was opened, and of which no pass was made. Its values and sizes may be set.
///
/// Its getters are those of [`Contents`].
///
/// # Examples
///
/// ```
/// use ebpf_object::{Kernel, Object, OpenOptions};
///
/// # fn main() -> Result<(), Box<dyn std::error::Error>> {
/// let mut object = Object::open(&std::fs::read("tests/data/counter.o")?, OpenOptions::lenient())?;
/// object.set_value("wanted", &42u32.to_le_bytes())?;
/// // a loader makes these maps first, by bpf(2)
/// let maps = [("counts", 5), (".bss", 6), (".rodata", 7), ("tables", 8)];
/// let prepared = object.prepare(&Kernel::none(), &maps)?;
/// // its own 15 slots, and the 18 of the function that it calls
/// assert_eq!(prepared.slots("on_packet")?.len(), 33);
/// # Ok(())
/// # }
/// ```
#[derive(Debug)]
pub struct Object {
    contents: Contents,
}

impl Deref for Object {
    type Target = Contents;

    fn deref(&self) -> &Contents {
        &self.contents
    }
}

impl Object {
    /// Opens the object of a file.
    ///
    /// # Errors
    ///
    /// - [`Error::Parse`]: the file can't be parsed, or passes the limit.
    /// - [`Error::OtherVersion`]: the library has another interface than this crate.
    pub fn open(file: &[u8], options: OpenOptions) -> Result<Object, Error> {
        checked_version()?;
        let mut handle = ptr::null_mut();
        let parsing = if options.is_lenient { sys::EBPF_LENIENT } else { sys::EBPF_STRICT };
        let max_bytes = options.most_bytes.unwrap_or(0);
        let options = sys::ebpf_open_options { parsing, max_bytes, ..Default::default() };
        // SAFETY: the file is borrowed for the call, and the handle's place is written alone.
        let number = unsafe { sys::ebpf_open(file.as_ptr(), file.len(), &options, &mut handle) };
        // SAFETY: the call gave out this handle just now, also where it refuses.
        let contents = unsafe { Contents::own(handle) }?;
        contents.outcome(number, "")?;
        Ok(Object { contents })
    }

    pub(crate) fn of(contents: Contents) -> Object {
        Object { contents }
    }

    /// A copy, so that one parse serves several kernels or values.
    ///
    /// # Errors
    ///
    /// - [`Error::OutOfMemory`].
    pub fn try_clone(&self) -> Result<Object, Error> {
        self.contents.copy().map(Object::of)
    }

    /// Runs all passes: relocates the functions to the kernel's types, writes the maps' descriptors, finds and writes the
    /// externs, and links each program with the functions that it reaches.
    ///
    /// - Each map that a slot refers to needs a row, a map of variables too ([`Contents::maps`] has all).
    /// - Of two rows of one name the later counts.
    ///
    /// # Errors
    ///
    /// The object is in the [`Failed`], and unchanged.
    ///
    /// - [`Error::Types`]: the kernel's types can't be read, or functions can't be relocated to them.
    /// - [`Error::Maps`]: a map has no row (320), a row is of no map (321), or a descriptor can't be written.
    /// - [`Error::Ksyms`], [`Error::Externs`]: externs can't be found, or can't be written.
    /// - [`Error::Calls`]: programs can't be linked.
    ///
    /// # Examples
    ///
    /// ```
    /// use ebpf_object::{Error, Kernel, Object, OpenOptions};
    ///
    /// # fn main() -> Result<(), Box<dyn std::error::Error>> {
    /// let object = Object::open(&std::fs::read("tests/data/counter.o")?, OpenOptions::strict())?;
    /// let failed = object.prepare(&Kernel::none(), &[("counts", 5)]).unwrap_err();
    /// assert!(matches!(failed.error(), Error::Maps(refusal) if refusal.number == 320));
    /// let object = failed.into_state();
    /// let maps: Vec<(String, i32)> = object.maps()?.into_iter().map(|map| map.name).zip(5..).collect();
    /// object.prepare(&Kernel::none(), &maps)?;
    /// # Ok(())
    /// # }
    /// ```
    pub fn prepare<S: AsRef<str>>(self, kernel: &Kernel<'_>, maps: &[(S, i32)]) -> Result<Prepared, PrepareFailed> {
        let (types, symbols) = (kernel.types(), kernel.symbols());
        self.prepared(maps, |inputs| sys::ebpf_prepare_inputs {
            types: types.as_ptr(),
            types_len: types.len(),
            symbols: symbols.as_ptr(),
            symbols_len: symbols.len(),
            ..inputs
        })
    }

    /// The same over types that were read, and the text of `/proc/kallsyms`, empty where
    /// [`Contents::wants_symbols`] says no.
    ///
    /// # Errors
    ///
    /// As for [`Object::prepare`].
    pub fn prepare_with<S: AsRef<str>>(
        self,
        types: &Types,
        symbols: &[u8],
        maps: &[(S, i32)],
    ) -> Result<Prepared, PrepareFailed> {
        self.prepared(maps, |inputs| sys::ebpf_prepare_inputs {
            btf: types.as_raw(),
            symbols: symbols.as_ptr(),
            symbols_len: symbols.len(),
            ..inputs
        })
    }

    /// Runs all passes with these maps, and with what else is given. Its pointers are borrowed for the call.
    fn prepared<S: AsRef<str>>(
        self,
        maps: &[(S, i32)],
        given: impl FnOnce(sys::ebpf_prepare_inputs) -> sys::ebpf_prepare_inputs,
    ) -> Result<Prepared, PrepareFailed> {
        let mut contents = self.contents;
        let rows = descriptor_rows(maps);
        let inputs = given(sys::ebpf_prepare_inputs {
            descriptors: rows.as_ptr(),
            descriptors_len: rows.len(),
            ..Default::default()
        });
        // SAFETY: the handle is open, and the slices, the types and the names of rows are borrowed for the call.
        let number = unsafe { sys::ebpf_prepare_handle(contents.handle(), &inputs) };
        match contents.outcome(number, "") {
            Ok(()) => Ok(Prepared::of(contents)),
            Err(error) => Err(Failed::new(error, Object { contents })),
        }
    }

    /// Begins the passes one by one.
    pub fn steps(self) -> Steps<Opened> {
        Steps::of(self.contents)
    }

    /// The copies of functions that a program is made of once it is linked, its own first.
    ///
    /// It is asked before the passes. A call of an extern counts as a call of its own slot until the externs are written:
    /// for programs with such calls ask [`Steps::link_map`] behind [`Steps::relocate_externs`].
    ///
    /// # Errors
    ///
    /// - [`Error::NoProgram`]: no program has the name.
    /// - [`Error::Calls`]: the program can't be linked.
    pub fn link_map(&self, program: &str) -> Result<Vec<CodeCopy>, Error> {
        self.contents.code_copies(program)
    }

    /// The slots of the linked program that refer to its copies, in their order. It is asked as [`Object::link_map`] is.
    ///
    /// # Errors
    ///
    /// As for [`Object::link_map`].
    pub fn link_references(&self, program: &str) -> Result<Vec<CodeReference>, Error> {
        self.contents.code_references(program)
    }
}

/// # What is set before the passes
impl Object {
    /// Writes the value of a variable into the data of its map.
    ///
    /// # Errors
    ///
    /// - [`Error::Parse`]: no variable has the name (151), it has another size (150), or no map has it (152).
    pub fn set_value(&mut self, variable: &str, value: &[u8]) -> Result<(), Error> {
        let (handle, name) = (self.contents.handle(), variable.as_ptr().cast());
        // SAFETY: the handle is open, and the slices are borrowed for the call.
        let number = unsafe { sys::ebpf_set_value(handle, name, variable.len(), value.as_ptr(), value.len(), 1) };
        self.outcome(number, variable)
    }

    /// Writes the values of many variables, all or none. Of rows of one name the last counts. One call takes less time
    /// than a [`set_value`](Object::set_value) for each.
    ///
    /// # Errors
    ///
    /// As for [`set_value`](Object::set_value): the first fault in byte order of the names.
    pub fn set_values(&mut self, settings: &[Setting<'_>]) -> Result<(), Error> {
        let rows = value_rows(settings);
        // SAFETY: the handle is open, and the names and values of rows are borrowed for the call.
        let number = unsafe { sys::ebpf_set_values(self.contents.handle(), rows.as_ptr(), rows.len()) };
        self.outcome(number, "")
    }

    /// Adds the map `.kconfig`, whose data are the values of the kconfig externs. Of rows of one name the last counts; a
    /// row whose name no extern has is skipped; a weak extern without a row is zeros.
    ///
    /// # Errors
    ///
    /// - [`Error::Kconfig`]: an extern has no value (904) or one of another size (905), or can't be read.
    pub fn define_kconfig(&mut self, values: &[(&str, &[u8])]) -> Result<(), Error> {
        let settings: Vec<Setting<'_>> = values.iter().map(|(name, value)| Setting::optional(name, value)).collect();
        let rows = value_rows(&settings);
        // SAFETY: the handle is open, and the names and values of rows are borrowed for the call.
        let number = unsafe { sys::ebpf_define_kconfig(self.contents.handle(), rows.as_ptr(), rows.len()) };
        self.outcome(number, "")
    }

    /// Completes the BTF-defined maps: the arena gets the data of its variables. `file` is what the object was opened from,
    /// and a page has `page_size` bytes.
    ///
    /// # Errors
    ///
    /// - [`Error::CompletedMaps`]: a pinning is unknown, or variables in an arena have none with room for them.
    pub fn complete_maps(&mut self, file: &[u8], page_size: u32) -> Result<(), Error> {
        // SAFETY: the handle is open, and the file is borrowed for the call.
        let number = unsafe { sys::ebpf_complete_maps(self.contents.handle(), file.as_ptr(), file.len(), page_size) };
        self.outcome(number, "")
    }

    /// Sets all of the initial data of a map, which has as many bytes as before.
    ///
    /// # Errors
    ///
    /// - [`Error::NoMap`]: no map has the name.
    /// - [`Error::WrongLength`]: the data has another length.
    pub fn set_map_data(&mut self, map: &str, data: &[u8]) -> Result<(), Error> {
        let (handle, name) = (self.contents.handle(), map.as_ptr().cast());
        // SAFETY: the handle is open, and the slices are borrowed for the call.
        let number = unsafe { sys::ebpf_set_map_data(handle, name, map.len(), data.as_ptr(), data.len()) };
        self.outcome(number, map)
    }

    /// Sets how many entries a map holds at most.
    ///
    /// # Errors
    ///
    /// - [`Error::NoMap`]: no map has the name.
    pub fn set_max_entries(&mut self, map: &str, entries: u32) -> Result<(), Error> {
        let handle = self.contents.handle();
        // SAFETY: the handle is open, and the name is borrowed for the call.
        let number = unsafe { sys::ebpf_set_max_entries(handle, map.as_ptr().cast(), map.len(), entries) };
        self.outcome(number, map)
    }

    /// Sets the size of a map's values, in bytes.
    ///
    /// # Errors
    ///
    /// - [`Error::NoMap`]: no map has the name.
    pub fn set_value_size(&mut self, map: &str, size: u32) -> Result<(), Error> {
        let handle = self.contents.handle();
        // SAFETY: the handle is open, and the name is borrowed for the call.
        let number = unsafe { sys::ebpf_set_value_size(handle, map.as_ptr().cast(), map.len(), size) };
        self.outcome(number, map)
    }

    /// Replaces the helper functions 112 to 115 by the older 4 and 45, for a kernel that lacks them.
    ///
    /// # Errors
    ///
    /// None is known.
    pub fn use_older_helpers(&mut self) -> Result<(), Error> {
        let handle = self.contents.handle();
        // SAFETY: the handle is open.
        let number = unsafe { sys::ebpf_sanitize(handle, 0) };
        self.outcome(number, "")
    }

    /// Leaves programs out: they are not linked, and what they alone need is not asked for. So a program that calls an
    /// extern that the kernel lacks doesn't stop the others.
    ///
    /// # Errors
    ///
    /// [`Error::NoProgram`]: no program has the name, of several such names the first.
    pub fn leave_out(&mut self, names: &[&str]) -> Result<(), Error> {
        let with_zero = |name: &&str| CString::new(*name).map_err(|_| Error::NoProgram((*name).into()));
        let terminated: Vec<CString> = names.iter().map(with_zero).collect::<Result<_, _>>()?;
        let pointers: Vec<*const c_char> = terminated.iter().map(|name| name.as_ptr()).collect();
        let handle = self.contents.handle();
        // SAFETY: the handle is open, and a zero byte is behind each name.
        let number = unsafe { sys::ebpf_leave_out(handle, pointers.as_ptr(), pointers.len()) };
        self.outcome(number, "")
    }
}

/// Why an object can't be prepared, and the object as it was.
pub type PrepareFailed = Failed<Object>;

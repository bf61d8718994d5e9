//! A kernel, and what is asked of types alone.
use crate::error::Error;
use ebpf_sys as sys;
use std::borrow::Cow;
use std::ptr::{self, NonNull};
use std::{fs, io};

/// What is known of a kernel: its types and its symbols.
#[derive(Clone, Debug, Default, PartialEq, Eq)]
pub struct Kernel<'a> {
    types: Cow<'a, [u8]>,
    symbols: Cow<'a, [u8]>,
}

impl<'a> Kernel<'a> {
    /// No kernel: functions are not relocated to types, and no extern is found.
    pub fn none() -> Kernel<'a> {
        Kernel::default()
    }

    /// The running kernel, by `/sys/kernel/btf/vmlinux` and `/proc/kallsyms`.
    ///
    /// # Errors
    ///
    /// A file can't be read.
    pub fn running() -> io::Result<Kernel<'static>> {
        Ok(Kernel { types: fs::read("/sys/kernel/btf/vmlinux")?.into(), symbols: fs::read("/proc/kallsyms")?.into() })
    }

    /// These types: raw BTF in the byte order that its magic number states.
    pub fn with_types(self, types: impl Into<Cow<'a, [u8]>>) -> Kernel<'a> {
        Kernel { types: types.into(), ..self }
    }

    /// These symbols: the text of `/proc/kallsyms`. [`Contents::wants_symbols`](crate::Contents::wants_symbols) says whether
    /// an object needs them.
    pub fn with_symbols(self, symbols: impl Into<Cow<'a, [u8]>>) -> Kernel<'a> {
        Kernel { symbols: symbols.into(), ..self }
    }

    /// The types; empty where none are known.
    pub fn types(&self) -> &[u8] {
        &self.types
    }

    /// The symbols; empty where none are known.
    pub fn symbols(&self) -> &[u8] {
        &self.symbols
    }
}

/// A kernel's types, read once for many calls and many objects. Each call that takes them has a twin that takes their bytes
/// and reads them anew; both give the same.
///
/// They may move to another thread (`Send`). One call at a time uses them, as `ebpf.h` asks, so they aren't `Sync`.
///
/// # Examples
///
/// ```
/// use ebpf_object::{Object, OpenOptions, Types};
///
/// # fn main() -> Result<(), Box<dyn std::error::Error>> {
/// let file = std::fs::read("tests/data/counter.o")?;
/// let object = Object::open(&file, OpenOptions::lenient())?;
/// // for the example those of the object itself: a loader reads /sys/kernel/btf/vmlinux
/// let types = object.kernel_types(&file)?;
/// let read = Types::read(&types)?;
/// assert_eq!(object.outcomes_with(&read)?, object.outcomes(&types)?);
/// # Ok(())
/// # }
/// ```
#[derive(Debug)]
pub struct Types {
    at: NonNull<sys::ebpf_btf>,
}

// SAFETY: `ebpf.h` lets types move from thread to thread; no one else has them.
unsafe impl Send for Types {}

impl Drop for Types {
    fn drop(&mut self) {
        // SAFETY: the types are open, no one else has them, and this is their last use.
        unsafe { sys::ebpf_btf_close(self.at.as_ptr()) }
    }
}

impl Types {
    /// Reads types: raw BTF in the byte order that its magic number states.
    ///
    /// # Errors
    ///
    /// - [`Error::Types`]: they can't be read.
    /// - [`Error::OtherVersion`]: the library has another interface than this crate.
    pub fn read(types: &[u8]) -> Result<Types, Error> {
        checked_version()?;
        let mut made = ptr::null_mut();
        // SAFETY: the bytes are borrowed for the call, and the place of the types is written alone.
        let number = unsafe { sys::ebpf_btf_open(types.as_ptr(), types.len(), &mut made) };
        match NonNull::new(made) {
            Some(at) if number == sys::EBPF_DONE => Ok(Types { at }),
            _ => Err(Error::of(number, "", &sys::ebpf_refusal { number, ..Default::default() })),
        }
    }

    /// The types, for calls of `ebpf_sys`. They are open as long as this value lives.
    pub fn as_raw(&self) -> *const sys::ebpf_btf {
        self.at.as_ptr()
    }
}

/// What is known of the type that the programs of a section are attached to.
#[derive(Clone, Copy, Debug, PartialEq, Eq)]
#[non_exhaustive]
pub enum AttachTarget {
    /// They are loaded without the id of a type.
    NotWanted,
    /// They are loaded with one, and the section's name has no name of a target.
    Unnamed,
    /// The id of the target's type.
    Found(u32),
    /// The types have none of the name.
    NotFound,
}

/// The version of the library, as major * 1000000 + minor * 1000 + patch.
pub fn library_version() -> u32 {
    // SAFETY: the call is given nothing.
    unsafe { sys::ebpf_version_number() }
}

/// Refuses a library whose structs and numbers may be others.
pub(crate) fn checked_version() -> Result<(), Error> {
    match sys::ebpf_check_version() {
        sys::EBPF_DONE => Ok(()),
        _ => Err(Error::OtherVersion(library_version())),
    }
}

/// The type that the programs of a section of this name are attached to (`attach_btf_id`). `types` is the kernel's, or for
/// `freplace` that of the program that is replaced.
///
/// # Errors
///
/// - [`Error::Types`]: the types can't be read.
/// - [`Error::OtherVersion`]: the library has another interface than this crate.
pub fn attach_target(section: &str, types: &[u8]) -> Result<AttachTarget, Error> {
    checked_version()?;
    let (mut answer, mut type_id) = (0, 0);
    let (name, len) = (section.as_ptr().cast(), section.len());
    // SAFETY: the slices are borrowed for the call, and the numbers are ours.
    let number = unsafe { sys::ebpf_attach_target(name, len, types.as_ptr(), types.len(), &mut answer, &mut type_id) };
    target(number, section, answer, type_id)
}

/// The same over types that were read.
///
/// # Errors
///
/// - [`Error::OutOfMemory`].
pub fn attach_target_with(section: &str, types: &Types) -> Result<AttachTarget, Error> {
    let (mut answer, mut type_id) = (0, 0);
    let (name, len) = (section.as_ptr().cast(), section.len());
    // SAFETY: the name is borrowed for the call, the types are open, and the numbers are ours.
    let number = unsafe { sys::ebpf_attach_target_with(name, len, types.as_raw(), &mut answer, &mut type_id) };
    target(number, section, answer, type_id)
}

/// What a call said of a target.
fn target(number: u32, section: &str, answer: u32, type_id: u32) -> Result<AttachTarget, Error> {
    if number != sys::EBPF_DONE {
        return Err(Error::of(number, section, &sys::ebpf_refusal { number, ..Default::default() }));
    }
    Ok(match answer {
        sys::EBPF_TARGET_NOT_WANTED => AttachTarget::NotWanted,
        sys::EBPF_TARGET_UNNAMED => AttachTarget::Unnamed,
        sys::EBPF_TARGET_FOUND => AttachTarget::Found(type_id),
        _ => AttachTarget::NotFound,
    })
}

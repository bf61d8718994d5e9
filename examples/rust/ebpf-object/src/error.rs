//! Why a call refuses.
use ebpf_sys as sys;
use std::ffi::CStr;
use std::fmt;

/// What a stage refuses, with all that the library says of it.
#[derive(Clone, Debug, PartialEq, Eq)]
#[non_exhaustive]
pub struct Refusal {
    /// The number, of `enum ebpf_number`.
    pub number: u32,
    /// The stage and the variant, as `parse: BadMagic`. docs/ERRORS.md of ebpf-object has more by this name.
    pub name: String,
    /// What the number says, as `ebpf_strerror` has it.
    pub text: &'static str,
    /// The function, the map, the section or the like that is concerned, if one is.
    pub about: Option<String>,
    /// The numbers that the error states.
    pub details: Details,
}

/// The numbers that an error states, each where it does.
#[derive(Clone, Copy, Debug, Default, PartialEq, Eq)]
#[non_exhaustive]
pub struct Details {
    /// The index of an instruction slot in its function.
    pub slot: Option<u64>,
    /// An offset in bytes: of a relocation in its section, or of a string in .BTF's strings.
    pub offset: Option<u64>,
    /// The index of a symbol in the file's table.
    pub symbol: Option<u64>,
    /// An address in a section, or in the kernel.
    pub address: Option<u64>,
    /// The second one, where two differ.
    pub other_address: Option<u64>,
    /// The index of a section in the file.
    pub section: Option<u64>,
    /// A size in bytes: of what is there or wanted.
    pub size: Option<u64>,
    /// The second one, where two differ: of the value that is given.
    pub other_size: Option<u64>,
    /// The id of a type.
    pub type_id: Option<u64>,
    /// The index of an ELF or CO-RE relocation among those of its section.
    pub relocation: Option<u64>,
    /// The number of a member, an element or a variant that is asked for.
    pub index: Option<u64>,
    /// How many of them there are, or how many slots.
    pub count: Option<u64>,
    /// A map type, a kind of CO-RE relocation, or a machine.
    pub kind: Option<u64>,
}

/// Why a call refuses, by stage. A refused call changes nothing.
///
/// # Examples
///
/// ```
/// use ebpf_object::{Error, Object, OpenOptions};
///
/// let error = Object::open(b"no object", OpenOptions::strict()).unwrap_err();
/// assert!(matches!(&error, Error::Parse(refusal) if refusal.number == 100));
/// assert_eq!(error.to_string(), "the file is too short for its header (100, parse: TooShort)");
/// ```
#[derive(Clone, Debug, PartialEq, Eq)]
#[non_exhaustive]
pub enum Error {
    /// Out of memory.
    OutOfMemory,
    /// No program has the name.
    NoProgram(Box<str>),
    /// No map has the name.
    NoMap(Box<str>),
    /// No kconfig extern has the name.
    NoExtern(Box<str>),
    /// No variable in the data of a map has the name.
    NoVariable(Box<str>),
    /// The data has another length than that of the map of this name.
    WrongLength(Box<str>),
    /// The library has another interface than this crate; its version, as `ebpf_version_number` returns it.
    OtherVersion(u32),
    /// The file can't be parsed, or a value does not fit its variable (100 to 199).
    Parse(Box<Refusal>),
    /// A kernel's types can't be read, or functions can't be relocated to them (200 to 299).
    Types(Box<Refusal>),
    /// The descriptors of maps can't be written (300 to 399).
    Maps(Box<Refusal>),
    /// The externs can't be found (400 to 499).
    Ksyms(Box<Refusal>),
    /// What is known of the externs can't be written (500 to 599).
    Externs(Box<Refusal>),
    /// Programs can't be linked with the functions that they reach (600 to 699).
    Calls(Box<Refusal>),
    /// The file's types can't be made for the kernel (700 to 799).
    KernelTypes(Box<Refusal>),
    /// The initial values of maps can't be listed (800 to 899).
    InitialSlots(Box<Refusal>),
    /// Kconfig externs can't be listed or defined (900 to 999).
    Kconfig(Box<Refusal>),
    /// The least types of a kernel can't be made (1000 to 1099).
    LeastTypes(Box<Refusal>),
    /// The maps can't be completed (1100 to 1199).
    CompletedMaps(Box<Refusal>),
    /// The maps of struct_ops can't be made (1200 to 1299).
    StructOps(Box<Refusal>),
    /// Another number of the library.
    Other(Box<Refusal>),
}

impl Details {
    fn of(refusal: &sys::ebpf_refusal) -> Details {
        let detail = |bit: u32, number: u64| (refusal.has & bit != 0).then_some(number);
        Details {
            slot: detail(sys::EBPF_HAS_SLOT, refusal.slot),
            offset: detail(sys::EBPF_HAS_OFFSET, refusal.offset),
            symbol: detail(sys::EBPF_HAS_SYMBOL, refusal.symbol),
            address: detail(sys::EBPF_HAS_ADDRESS, refusal.address),
            other_address: detail(sys::EBPF_HAS_OTHER_ADDRESS, refusal.other_address),
            section: detail(sys::EBPF_HAS_SECTION, refusal.section),
            size: detail(sys::EBPF_HAS_SIZE, refusal.size),
            other_size: detail(sys::EBPF_HAS_OTHER_SIZE, refusal.other_size),
            type_id: detail(sys::EBPF_HAS_TYPE, refusal.type_id),
            relocation: detail(sys::EBPF_HAS_RELOCATION, refusal.relocation),
            index: detail(sys::EBPF_HAS_INDEX, refusal.index),
            count: detail(sys::EBPF_HAS_COUNT, refusal.count),
            kind: detail(sys::EBPF_HAS_KIND, refusal.kind),
        }
    }
}

impl fmt::Display for Details {
    /// Writes `, slot 3` for each number that is there.
    fn fmt(&self, out: &mut fmt::Formatter<'_>) -> fmt::Result {
        let all = [
            ("section", self.section),
            ("symbol", self.symbol),
            ("address", self.address),
            ("and address", self.other_address),
            ("slot", self.slot),
            ("offset", self.offset),
            ("relocation", self.relocation),
            ("type", self.type_id),
            ("kind", self.kind),
            ("number", self.index),
            ("of", self.count),
            ("size", self.size),
            ("and size", self.other_size),
        ];
        for (name, number) in all {
            if let Some(number) = number {
                write!(out, ", {name} {number}")?;
            }
        }
        Ok(())
    }
}

/// The stage and the variant of a number.
fn name_of(number: u32) -> String {
    let (mut text, mut len) = ([0u8; 64], 0);
    // SAFETY: the text has 64 bytes, which hold each name, and the length is ours.
    unsafe { sys::ebpf_number_name(number, text.as_mut_ptr().cast(), text.len(), &mut len) };
    String::from_utf8_lossy(&text[..len.min(64)]).into_owned()
}

/// What a number says.
pub(crate) fn text_of(number: u32) -> &'static str {
    // SAFETY: the text is static and ends in a zero byte, and the pointer is never null.
    let text: &'static CStr = unsafe { CStr::from_ptr(sys::ebpf_strerror(number)) };
    text.to_str().unwrap_or("an unknown number")
}

impl Refusal {
    pub(crate) fn of(number: u32, about: Option<String>, details: Details) -> Refusal {
        Refusal { number, name: name_of(number), text: text_of(number), about, details }
    }
}

impl Error {
    /// The error of a number, with the name that is concerned or was given, and the details.
    pub(crate) fn of(number: u32, name: &str, refusal: &sys::ebpf_refusal) -> Error {
        match number {
            sys::EBPF_MEMORY => Error::OutOfMemory,
            sys::EBPF_NO_PROGRAM => Error::NoProgram(name.into()),
            sys::EBPF_NO_MAP => Error::NoMap(name.into()),
            sys::EBPF_NO_EXTERN => Error::NoExtern(name.into()),
            sys::EBPF_NO_VARIABLE => Error::NoVariable(name.into()),
            sys::EBPF_WRONG_LENGTH => Error::WrongLength(name.into()),
            _ => {
                let about = (!name.is_empty()).then(|| name.to_owned());
                Error::by_stage(Refusal::of(number, about, Details::of(refusal)))
            }
        }
    }

    fn by_stage(refusal: Refusal) -> Error {
        let number = refusal.number;
        let refusal = Box::new(refusal);
        match number / 100 {
            1 => Error::Parse(refusal),
            2 => Error::Types(refusal),
            3 => Error::Maps(refusal),
            4 => Error::Ksyms(refusal),
            5 => Error::Externs(refusal),
            6 => Error::Calls(refusal),
            7 => Error::KernelTypes(refusal),
            8 => Error::InitialSlots(refusal),
            9 => Error::Kconfig(refusal),
            10 => Error::LeastTypes(refusal),
            11 => Error::CompletedMaps(refusal),
            12 => Error::StructOps(refusal),
            _ => Error::Other(refusal),
        }
    }

    /// The number that the library returned, of `enum ebpf_number`. It is 0 for [`Error::OtherVersion`].
    pub fn number(&self) -> u32 {
        match self {
            Error::OutOfMemory => sys::EBPF_MEMORY,
            Error::NoProgram(_) => sys::EBPF_NO_PROGRAM,
            Error::NoMap(_) => sys::EBPF_NO_MAP,
            Error::NoExtern(_) => sys::EBPF_NO_EXTERN,
            Error::NoVariable(_) => sys::EBPF_NO_VARIABLE,
            Error::WrongLength(_) => sys::EBPF_WRONG_LENGTH,
            Error::OtherVersion(_) => sys::EBPF_DONE,
            _ => self.refusal().map_or(sys::EBPF_DONE, |it| it.number),
        }
    }

    /// What a stage refuses, if one does.
    pub fn refusal(&self) -> Option<&Refusal> {
        match self {
            Error::Parse(it) | Error::Types(it) | Error::Maps(it) | Error::Ksyms(it) | Error::Externs(it) => Some(it),
            Error::Calls(it) | Error::KernelTypes(it) | Error::InitialSlots(it) | Error::Kconfig(it) => Some(it),
            Error::LeastTypes(it) | Error::CompletedMaps(it) | Error::StructOps(it) | Error::Other(it) => Some(it),
            _ => None,
        }
    }
}

impl fmt::Display for Refusal {
    fn fmt(&self, out: &mut fmt::Formatter<'_>) -> fmt::Result {
        write!(out, "{} ({}, {})", self.text, self.number, self.name)?;
        if let Some(about) = &self.about {
            write!(out, ": {about}")?;
        }
        write!(out, "{}", self.details)
    }
}

impl fmt::Display for Error {
    fn fmt(&self, out: &mut fmt::Formatter<'_>) -> fmt::Result {
        match self {
            Error::NoProgram(name) | Error::NoMap(name) | Error::NoExtern(name) => {
                write!(out, "{}: {name}", text_of(self.number()))
            }
            Error::NoVariable(name) | Error::WrongLength(name) => write!(out, "{}: {name}", text_of(self.number())),
            Error::OtherVersion(number) => {
                let (major, minor, patch) = (number / 1_000_000, number / 1_000 % 1_000, number % 1_000);
                let wanted = env!("CARGO_PKG_VERSION");
                write!(out, "libebpf has version {major}.{minor}.{patch}, and this crate is for {wanted}")
            }
            _ => match self.refusal() {
                Some(refusal) => refusal.fmt(out),
                None => out.write_str(text_of(self.number())),
            },
        }
    }
}

impl std::error::Error for Error {}

/// An error, and the object that it leaves as it was.
///
/// It becomes an [`Error`] by `From`, so `?` drops the object where a function returns that.
#[derive(Debug)]
pub struct Failed<S> {
    error: Error,
    state: S,
}

impl<S> Failed<S> {
    pub(crate) fn new(error: Error, state: S) -> Failed<S> {
        Failed { error, state }
    }

    /// Why the call refuses.
    pub fn error(&self) -> &Error {
        &self.error
    }

    /// The object as it was before the call.
    pub fn into_state(self) -> S {
        self.state
    }

    /// The object as it was before the call, and why the call refuses.
    pub fn into_parts(self) -> (S, Error) {
        (self.state, self.error)
    }
}

impl<S> From<Failed<S>> for Error {
    fn from(failed: Failed<S>) -> Error {
        failed.error
    }
}

impl<S> fmt::Display for Failed<S> {
    fn fmt(&self, out: &mut fmt::Formatter<'_>) -> fmt::Result {
        self.error.fmt(out)
    }
}

impl<S: fmt::Debug> std::error::Error for Failed<S> {}

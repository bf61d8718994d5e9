//! The passes one by one.
use crate::contents::Contents;
use crate::error::{Error, Failed};
use crate::kernel::Types;
use crate::object::{descriptor_rows, Object};
use crate::prepared::Prepared;
use crate::rows::{CodeCopy, CodeReference};
use ebpf_sys as sys;
use std::fmt;
use std::marker::PhantomData;
use std::ops::Deref;

/// No pass was made.
#[derive(Debug)]
pub enum Opened {}

/// The last pass was [`Steps::relocate_types`].
#[derive(Debug)]
pub enum TypesRelocated {}

/// The last pass was [`Steps::relocate_maps`].
#[derive(Debug)]
pub enum MapsRelocated {}

/// The last pass was [`Steps::resolve_externs`].
#[derive(Debug)]
pub enum ExternsResolved {}

/// The last pass was [`Steps::relocate_externs`].
#[derive(Debug)]
pub enum ExternsRelocated {}

mod order {
    /// A state in which a pass may be made: neither it nor a later one was made.
    pub trait Before<Pass> {}

    macro_rules! in_order {
        ($first:ident $(, $later:ident)*) => {
            $(impl Before<super::$later> for super::$first {})*
            in_order! { $($later),* }
        };
        () => {};
    }

    in_order! { Opened, TypesRelocated, MapsRelocated, ExternsResolved, ExternsRelocated }
}

/// An object between its passes. `Last` names the last one.
///
/// Each pass may be left out, and each is made at most once, in this order: types, maps, resolution of externs, externs,
/// calls. A pass in another order does not compile:
///
/// ```compile_fail,E0277
/// use ebpf_object::{Failed, MapsRelocated, Steps, TypesRelocated};
///
/// fn turned(steps: Steps<MapsRelocated>) -> Result<Steps<TypesRelocated>, Failed<Steps<MapsRelocated>>> {
///     steps.relocate_types(&[])
/// }
/// ```
///
/// # Examples
///
/// ```
/// use ebpf_object::{Object, OpenOptions};
///
/// # fn main() -> Result<(), Box<dyn std::error::Error>> {
/// let object = Object::open(&std::fs::read("tests/data/call.o")?, OpenOptions::strict())?;
/// let steps = object.steps().relocate_maps::<&str>(&[])?;
/// let copies = steps.link_map("p")?;
/// assert_eq!((copies[1].name.as_str(), copies[1].base), ("f", 2));
/// let prepared = steps.relocate_calls()?;
/// assert_eq!(prepared.slots("p")?.len(), 3);
/// # Ok(())
/// # }
/// ```
pub struct Steps<Last> {
    contents: Contents,
    last: PhantomData<Last>,
}

impl<Last> fmt::Debug for Steps<Last> {
    fn fmt(&self, out: &mut fmt::Formatter<'_>) -> fmt::Result {
        let path = std::any::type_name::<Last>();
        let last = path.rsplit("::").next().unwrap_or(path);
        out.debug_struct("Steps").field("contents", &self.contents).field("last", &last).finish()
    }
}

impl<Last> Deref for Steps<Last> {
    type Target = Contents;

    fn deref(&self) -> &Contents {
        &self.contents
    }
}

impl Steps<Opened> {
    /// Back to an object whose values may be set.
    pub fn into_object(self) -> Object {
        Object::of(self.contents)
    }
}

impl<Last> Steps<Last> {
    pub(crate) fn of(contents: Contents) -> Steps<Last> {
        Steps { contents, last: PhantomData }
    }

    /// Makes a pass.
    fn pass<Next>(
        mut self,
        call: impl FnOnce(*mut sys::ebpf_handle) -> u32,
    ) -> Result<Steps<Next>, Failed<Steps<Last>>> {
        let number = call(self.contents.handle());
        match self.contents.outcome(number, "") {
            Ok(()) => Ok(Steps::of(self.contents)),
            Err(error) => Err(Failed::new(error, self)),
        }
    }

    /// A copy.
    ///
    /// # Errors
    ///
    /// - [`Error::OutOfMemory`].
    pub fn try_clone(&self) -> Result<Steps<Last>, Error> {
        self.contents.copy().map(Steps::of)
    }

    /// The copies of functions that a program is made of once it is linked, its own first. Ask it behind
    /// [`Steps::relocate_externs`] where the program calls externs.
    ///
    /// # Errors
    ///
    /// - [`Error::NoProgram`]: no program has the name.
    /// - [`Error::Calls`]: the program can't be linked.
    pub fn link_map(&self, program: &str) -> Result<Vec<CodeCopy>, Error> {
        self.contents.code_copies(program)
    }

    /// The slots of the linked program that refer to its copies, in their order.
    ///
    /// # Errors
    ///
    /// As for [`Steps::link_map`].
    pub fn link_references(&self, program: &str) -> Result<Vec<CodeReference>, Error> {
        self.contents.code_references(program)
    }

    /// Links each program with the functions that it reaches, which is the last pass. Unlike [`Object::prepare`] it takes
    /// a call of an extern that no pass has written for a call of its own slot.
    ///
    /// # Errors
    ///
    /// - [`Error::Calls`]: a program can't be linked.
    pub fn relocate_calls(self) -> Result<Prepared, Failed<Steps<Last>>> {
        // SAFETY: the handle is open.
        let linked = self.pass::<Last>(|handle| unsafe { sys::ebpf_relocate_calls(handle) })?;
        Ok(linked.finish())
    }

    /// Leaves out the passes that are left.
    pub fn finish(self) -> Prepared {
        Prepared::of(self.contents)
    }
}

impl<Last: order::Before<TypesRelocated>> Steps<Last> {
    /// Relocates the functions to a kernel's types (CO-RE).
    ///
    /// # Errors
    ///
    /// - [`Error::Types`]: the types can't be read, or a relocation can't be applied.
    pub fn relocate_types(self, types: &[u8]) -> Result<Steps<TypesRelocated>, Failed<Steps<Last>>> {
        // SAFETY: the handle is open, and the types are borrowed for the call.
        self.pass(|handle| unsafe { sys::ebpf_relocate_types(handle, types.as_ptr(), types.len()) })
    }

    /// The same over types that were read.
    ///
    /// # Errors
    ///
    /// - [`Error::Types`]: a relocation can't be applied.
    pub fn relocate_types_with(self, types: &Types) -> Result<Steps<TypesRelocated>, Failed<Steps<Last>>> {
        // SAFETY: the handle and the types are open.
        self.pass(|handle| unsafe { sys::ebpf_relocate_types_with(handle, types.as_raw()) })
    }
}

impl<Last: order::Before<MapsRelocated>> Steps<Last> {
    /// Writes descriptors of maps into the slots that refer to them. Each map that a slot refers to needs a row, a map of
    /// variables too ([`Contents::maps_without_descriptors`]).
    ///
    /// # Errors
    ///
    /// - [`Error::Maps`]: a map has no row (320), a row is of no map (321), or a descriptor can't be written.
    pub fn relocate_maps<S: AsRef<str>>(self, maps: &[(S, i32)]) -> Result<Steps<MapsRelocated>, Failed<Steps<Last>>> {
        let rows = descriptor_rows(maps);
        // SAFETY: the handle is open, and the names of rows are borrowed for the call.
        self.pass(|handle| unsafe { sys::ebpf_relocate_maps(handle, rows.as_ptr(), rows.len()) })
    }
}

impl<Last: order::Before<ExternsResolved>> Steps<Last> {
    /// Finds the externs in a kernel's types (empty: none) and in its symbols.
    ///
    /// # Errors
    ///
    /// - [`Error::Types`]: the types can't be read.
    /// - [`Error::Ksyms`]: an extern can't be found, or a line of the symbols can't be read.
    pub fn resolve_externs(self, types: &[u8], symbols: &[u8]) -> Result<Steps<ExternsResolved>, Failed<Steps<Last>>> {
        let (lines, len) = (symbols.as_ptr(), symbols.len());
        // SAFETY: the handle is open, and the slices are borrowed for the call.
        self.pass(|handle| unsafe { sys::ebpf_resolve_externs(handle, types.as_ptr(), types.len(), lines, len) })
    }

    /// The same over types that were read.
    ///
    /// # Errors
    ///
    /// - [`Error::Ksyms`]: an extern can't be found, or a line of the symbols can't be read.
    pub fn resolve_externs_with(
        self,
        types: &Types,
        symbols: &[u8],
    ) -> Result<Steps<ExternsResolved>, Failed<Steps<Last>>> {
        let (lines, len) = (symbols.as_ptr(), symbols.len());
        // SAFETY: the handle and the types are open, and the symbols are borrowed for the call.
        self.pass(|handle| unsafe { sys::ebpf_resolve_externs_with(handle, types.as_raw(), lines, len) })
    }
}

impl<Last: order::Before<ExternsRelocated>> Steps<Last> {
    /// Writes what is known of the externs into the slots that refer to them.
    ///
    /// # Errors
    ///
    /// - [`Error::Externs`]: one can't be written.
    pub fn relocate_externs(self) -> Result<Steps<ExternsRelocated>, Failed<Steps<Last>>> {
        // SAFETY: the handle is open.
        self.pass(|handle| unsafe { sys::ebpf_relocate_externs(handle) })
    }
}

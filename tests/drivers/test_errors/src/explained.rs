//! What the names of an object or a file add to errors.

use crate::lines::{Lines, Sample};
use crate::prepare::{in_p, without_map};
use crate::small_object::{empty_object, put_names};
use ebpf_elf::ElfReadError;
use ebpf_ksyms::KsymsError;
use ebpf_model::RelocationError;
use ebpf_object::Object;
use ebpf_object::obj::{ExplainedParse, ParseError};
use ebpf_object::prepare::{Explained, PrepareError};
use std::alloc::Global;

impl Sample for Explained<'_> {
    const TYPE: &'static str = "prepare::Explained";

    fn variant(&self) -> &'static str {
        self.error.variant()
    }
}

impl Sample for ExplainedParse<'_> {
    const TYPE: &'static str = "obj::ExplainedParse";

    fn variant(&self) -> &'static str {
        self.error.variant()
    }
}

/// What an object adds to.
trait Explicable: Drop {
    /// Adds the line, as the object explains it.
    fn show(&self, lines: &mut Lines, object: &Object);
}

impl Explicable for PrepareError {
    fn show(&self, lines: &mut Lines, object: &Object) {
        lines.show(object.explain(self));
    }
}

/// Adds an error beside an object, and lets go of it. It doesn't know its type, so that its proof doesn't let go of each
/// error in it.
fn show_beside<E: Explicable>(lines: &mut Lines, object: &Object, error: E) {
    error.show(lines, object);
}

/// Adds the errors on maps.
fn show_maps(lines: &mut Lines, object: &Object) {
    let known = without_map(lines, 5);
    show_beside(lines, object, known);
    let unknown = without_map(lines, 6);
    show_beside(lines, object, unknown);
    let far = in_p(lines, RelocationError::MapAddressOverflow { offset: 0x18 });
    show_beside(lines, object, PrepareError::Maps(far));
}

/// Adds the errors on externs.
fn show_externs(lines: &mut Lines, object: &Object) {
    let misplaced = RelocationError::InvalidRelocationOffset {
        offset: 0x1c,
        relocation_number: 2,
    };
    let error = KsymsError::TypedKsymRequiresKernelBtf;
    show_beside(lines, object, PrepareError::Ksyms(error));
    let error = in_p(lines, misplaced);
    show_beside(lines, object, PrepareError::Externs(error));
}

/// Adds the errors on calls and variables.
fn show_calls(lines: &mut Lines, object: &Object) {
    let unknown = RelocationError::UnknownProgram {
        section_index: 5,
        address: 8,
    };
    let error = in_p(lines, unknown);
    show_beside(lines, object, PrepareError::Calls(error));
    let unsupported = RelocationError::UnsupportedTextSymbol { index: 12 };
    let error = in_p(lines, unsupported);
    show_beside(lines, object, PrepareError::Calls(error));
    let error = ParseError::MapNotFound { index: 6 };
    show_beside(lines, object, PrepareError::Parse(error));
}

/// Adds a parse error beside its file.
fn show_parse(lines: &mut Lines, file: &[u8], error: ParseError) {
    lines.show(ExplainedParse::new(file, &error));
}

/// Adds the errors that a file's names add to.
fn show_parsing(lines: &mut Lines, file: &[u8]) {
    let cut = ParseError::SectionError {
        index: 3,
        error: ElfReadError::BadSectionRange,
    };
    show_parse(lines, file, cut);
    let twice = ParseError::SymbolTableConflict {
        section_index: 2,
        address: 0x40,
    };
    show_parse(lines, file, twice);
    let unknown = ParseError::UnknownSymbol {
        section_index: 2,
        address: 0x40,
    };
    show_parse(lines, file, unknown);
}

/// Why a file is refused, where it is.
fn refusal(alloc: Global, file: &[u8]) -> Option<ParseError> {
    Object::parse(alloc, file).err()
}

/// Adds why a file is refused.
fn show_refusal(lines: &mut Lines, file: &[u8]) {
    if let Some(error) = refusal(lines.alloc(), file) {
        show_parse(lines, file, error);
    }
}

/// Adds why a file is refused in which a byte is another.
fn show_changed(lines: &mut Lines, file: &[u8], place: usize, byte: u8) {
    let mut changed = lines.bytes(file);
    if let Some(old) = changed.get_mut(place) {
        *old = byte;
    }
    show_refusal(lines, changed.as_slice());
}

/// Adds the errors that tell no place: of call.o with a relocation of symbol 0, with a program of 12 bytes, with a
/// function of 4, and with a symbol whose name is past the names.
fn show_places(lines: &mut Lines, file: &[u8]) {
    show_changed(lines, file, 0xac, 0);
    show_changed(lines, file, 0x80, 12);
    show_changed(lines, file, 0x98, 4);
    show_changed(lines, file, 0x88, 0xff);
}

/// What gets names.
trait Named: Drop {
    /// Adds the errors that the names add to.
    fn show(&mut self, lines: &mut Lines);
}

impl Named for Object {
    fn show(&mut self, lines: &mut Lines) {
        let step = put_names(lines.alloc(), self);
        lines.has_memory(step);
        show_maps(lines, self);
        show_externs(lines, self);
        show_calls(lines, self);
    }
}

/// Adds the errors that the names of an object add to, and lets go of it. It doesn't know its type, so that its proof
/// doesn't let go of each part of an object.
fn show_named<T: Named>(lines: &mut Lines, mut object: T) {
    object.show(lines);
}

/// Adds the errors that names add to.
pub fn show_all(lines: &mut Lines, file: &[u8]) {
    show_named(lines, empty_object(lines.alloc()));
    show_parsing(lines, file);
    show_places(lines, file);
}

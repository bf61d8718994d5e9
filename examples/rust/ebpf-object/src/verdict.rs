//! The verdict of a kernel on an object.
use crate::error::{Details, Error, Refusal};
use crate::kernel::Types;
use crate::kinds::ReasonKind;
use crate::object::Object;
use ebpf_sys as sys;
use std::ffi::CStr;

/// The verdict of a kernel on an object: whether it runs there, by the types of both.
#[derive(Clone, Debug, PartialEq, Eq)]
#[non_exhaustive]
pub struct Verdict {
    /// Whether all passes succeed, and no program has a reason to break.
    pub is_ok: bool,
    /// How many programs have no reason to break.
    pub programs_ok: usize,
    /// How many break.
    pub programs_break: usize,
    /// How many have no other reason than [`ReasonKind::Target`].
    pub programs_without_target: usize,
    /// The reasons: those of all programs, then those of each program, by their names in byte order.
    pub reasons: Vec<Reason>,
}

/// A reason for which programs break.
#[derive(Clone, Debug, PartialEq, Eq)]
#[non_exhaustive]
pub struct Reason {
    /// What it is.
    pub kind: ReasonKind,
    /// The name of the program; `None`: all programs break.
    pub program: Option<String>,
    /// The name of the extern, the map, the function or the target, where it has one.
    pub subject: Option<String>,
    /// The slot, where it is of one.
    pub slot: Option<ReasonSlot>,
    /// The index of the CO-RE relocation in what [`Object::outcomes_with`] returns, where it is of one.
    pub relocation: Option<usize>,
    /// The number of the helper or of the map type, or the index of the extern's symbol; else 0.
    pub number: u64,
    /// The refusal, where something is refused.
    pub refusal: Option<Box<Refusal>>,
}

/// A slot of a linked program, and where it comes from.
#[derive(Clone, Copy, Debug, PartialEq, Eq)]
#[non_exhaustive]
pub struct ReasonSlot {
    /// The number of the slot in the linked program.
    pub slot: usize,
    /// The index of the section of the function that is copied there.
    pub section: usize,
    /// The function's address there, in bytes.
    pub address: u64,
    /// The number of the slot in the function.
    pub function_slot: usize,
}

fn named(name: String) -> Option<String> {
    (!name.is_empty()).then_some(name)
}

fn reason(row: &sys::ebpf_reason, program: String, subject: String) -> Reason {
    Reason {
        kind: row.kind.into(),
        program: named(program),
        subject: named(subject),
        slot: (row.has_slot != 0).then_some(ReasonSlot {
            slot: row.slot,
            section: row.section,
            address: row.address,
            function_slot: row.function_slot,
        }),
        relocation: (row.has_relocation != 0).then_some(row.relocation),
        number: row.number,
        refusal: (row.fault != 0).then(|| Box::new(Refusal::of(row.fault, None, Details::default()))),
    }
}

impl Object {
    /// The verdict of a kernel with these types. Externs without a type and kconfig externs count as found; programs of
    /// sections with `?` are judged too.
    ///
    /// # Errors
    ///
    /// - [`Error::OutOfMemory`].
    pub fn check(&self, types: &Types) -> Result<Verdict, Error> {
        let mut summary = sys::ebpf_verdict_summary::default();
        // SAFETY: the handle and the types are open, and the summary is ours.
        let number = unsafe { sys::ebpf_check(self.as_raw(), types.as_raw(), &mut summary) };
        self.outcome(number, "")?;
        let reasons = self.rows(summary.reasons, sys::ebpf_reason_at, |row, program, at| {
            // SAFETY: the name of the subject is there, in the text that the name of the program begins; a zero byte is behind it.
            let subject = unsafe { CStr::from_ptr(at.add(row.subject_at)) };
            reason(row, program, subject.to_string_lossy().into_owned())
        })?;
        Ok(Verdict {
            is_ok: summary.verdict == sys::EBPF_VERDICT_OK,
            programs_ok: summary.programs_ok,
            programs_break: summary.programs_break,
            programs_without_target: summary.programs_without_target,
            reasons,
        })
    }
}

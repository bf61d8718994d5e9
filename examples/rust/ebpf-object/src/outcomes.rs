//! The outcomes of CO-RE relocations.
use crate::error::{Details, Error, Refusal};
use crate::kernel::Types;
use crate::kinds::Absence;
use crate::object::Object;
use ebpf_sys as sys;

/// The outcome of a CO-RE relocation over a kernel's types.
#[derive(Clone, Debug, PartialEq, Eq)]
#[non_exhaustive]
pub struct Outcome {
    /// The name of its section; empty where that can't be read.
    pub section: String,
    /// Its number among the relocations of that section in .BTF.ext, from 0 on.
    pub number: usize,
    /// Its slot, where a function of the section has it.
    pub slot: Option<OutcomeSlot>,
    /// What it gives.
    pub result: OutcomeResult,
}

/// The slot of a function that a relocation is for.
#[derive(Clone, Copy, Debug, PartialEq, Eq)]
#[non_exhaustive]
pub struct OutcomeSlot {
    /// The index of the function's section.
    pub section: usize,
    /// The function's address there, in bytes.
    pub address: u64,
    /// The number of the slot in the function.
    pub slot: usize,
}

/// What a relocation gives.
#[derive(Clone, Debug, PartialEq, Eq)]
#[non_exhaustive]
pub enum OutcomeResult {
    /// Its instruction gets this value: also the 0 that says that something is not there.
    Value(u64),
    /// There is no value, and its instruction fails if it is reached.
    Absent(Absence),
    /// It can't be applied, and [`Steps::relocate_types`](crate::Steps::relocate_types) refuses by this.
    Refused(Box<Refusal>),
}

fn outcome(row: &sys::ebpf_record_outcome, section: String) -> Outcome {
    Outcome {
        section,
        number: row.number,
        slot: (row.has_slot != 0).then_some(OutcomeSlot { section: row.section, address: row.address, slot: row.slot }),
        result: match row.result {
            sys::EBPF_RECORD_VALUE => OutcomeResult::Value(row.value),
            sys::EBPF_RECORD_ABSENT => OutcomeResult::Absent(row.absence.into()),
            _ => OutcomeResult::Refused(Box::new(Refusal::of(row.fault, None, Details::default()))),
        },
    }
}

impl Object {
    /// The outcome of each CO-RE relocation over a kernel's types, in the order of .BTF.ext, also behind one that is
    /// refused. An object without types or relocations has none.
    ///
    /// # Errors
    ///
    /// - [`Error::Types`]: the types can't be read (200 to 219).
    pub fn outcomes(&self, types: &[u8]) -> Result<Vec<Outcome>, Error> {
        let mut count = 0;
        // SAFETY: the handle is open, the types are borrowed for the call, and the count is ours.
        let number = unsafe { sys::ebpf_record_outcomes(self.as_raw(), types.as_ptr(), types.len(), &mut count) };
        self.outcome(number, "")?;
        self.rows(count, sys::ebpf_record_outcome_at, |row, section, _| outcome(row, section))
    }
    /// The types of a kernel that the CO-RE relocations ask for, as raw BTF with ids of its own. Each relocation has the same
    /// outcome over them as over the kernel's.
    ///
    /// # Errors
    ///
    /// - [`Error::LeastTypes`]: a relocation, an extern or an attach target needs an id of the kernel's own types.
    pub fn least_types(&self, types: &Types) -> Result<Vec<u8>, Error> {
        let mut len = 0;
        // SAFETY: the handle and the types are open, and the length is ours.
        let least = unsafe { sys::ebpf_least_types(self.as_raw(), types.as_raw(), &mut len) };
        Ok(self.kept("", least, len)?.unwrap_or_default())
    }

    /// The same over types that were read.
    ///
    /// # Errors
    ///
    /// - [`Error::OutOfMemory`].
    pub fn outcomes_with(&self, types: &Types) -> Result<Vec<Outcome>, Error> {
        let mut count = 0;
        // SAFETY: the handle and the types are open, and the count is ours.
        let number = unsafe { sys::ebpf_record_outcomes_with(self.as_raw(), types.as_raw(), &mut count) };
        self.outcome(number, "")?;
        self.rows(count, sys::ebpf_record_outcome_at, |row, section, _| outcome(row, section))
    }
}

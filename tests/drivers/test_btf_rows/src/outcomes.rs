//! The actions, by name.

use crate::changes::{all_bytes, prefixes};
use crate::ext::relocation_kind;
use crate::types::on_types;
use std::alloc::{AllocError, Global};
use test_cases::{Action, Files, Outcomes};

/// What actions on type information give.
#[derive(Clone, Copy)]
pub struct TypeOutcomes;

impl Outcomes for TypeOutcomes {
    fn outcome(
        &self,
        alloc: Global,
        files: &Files,
        action: &Action<'_>,
    ) -> Result<String, AllocError> {
        match action.name {
            "prefixes" => prefixes(alloc, files, action),
            "all_bytes" => all_bytes(alloc, files, action),
            "relocation_kind" => relocation_kind(alloc, action),
            _ => on_types(alloc, files, action),
        }
    }
}

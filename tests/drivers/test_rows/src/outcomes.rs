//! The actions, by name.

use crate::changes::{bytes, prefixes};
use crate::objects::on_object;
use crate::prepared::prepared;
use crate::printed::printed;
use crate::symbols::on_symbols;
use std::alloc::{AllocError, Global};
use test_cases::{Action, Files, Outcomes};
use test_tables::{default_attach_type, kind, loaded, map_copy, map_info, of_number};

/// What actions on object files give.
#[derive(Clone, Copy)]
pub struct ObjectOutcomes;

impl Outcomes for ObjectOutcomes {
    fn outcome(
        &self,
        alloc: Global,
        files: &Files,
        action: &Action<'_>,
    ) -> Result<String, AllocError> {
        if let Some(name) = action.name.strip_prefix("symbols_") {
            return on_symbols(alloc, files, action, name);
        }
        match action.name {
            "kind" => kind(alloc, action),
            "loaded" => loaded(alloc, action),
            "map_type" | "program_type" | "pinning" => of_number(alloc, action),
            "map_info" => map_info(alloc, action),
            "map_copy" => map_copy(alloc),
            "prefixes" => prefixes(alloc, files, action),
            "bytes" | "prepared_bytes" => bytes(alloc, files, action),
            "default_attach_type" => default_attach_type(alloc),
            "prepared" => prepared(alloc, files, action),
            "link" | "inspect" => printed(alloc, files, action),
            _ => on_object(alloc, files, files.get("object"), action),
        }
    }
}

//! Calls on what an object keeps: its maps, and the records of `.BTF.ext`.

use crate::call::Call;
use ebpf_btf_ext::{BtfExt, FoundSections};
use ebpf_parts::maps::Map;
use std::alloc::{AllocError, Global};
use std::io;

/// A call on the map that the word names.
pub fn on_map(map: &Map, call: &Call<'_>) -> io::Result<()> {
    call.begin();
    match call.name {
        "kept_inner" => call.tell(map.inner()),
        "kept_map" => {
            let copy: Result<_, _> = map.clone();
            call.tell(copy)
        }
        _ => call.miss(),
    }
}

/// Whether a section is among those that were found.
fn is_found<S: Drop>(
    found: Result<FoundSections<'_, S>, AllocError>,
    section: &str,
) -> Result<bool, AllocError> {
    match found {
        Ok(sections) => Ok(sections.get(section).is_some()),
        Err(error) => Err(error),
    }
}

/// Whether the section has func info, which is found before.
fn has_funcs(alloc: Global, ext: &BtfExt, section: &str) -> Result<bool, AllocError> {
    is_found(ext.func_info.with_found(alloc, &[section]), section)
}

/// Whether the section has line info, which is found before.
fn has_lines(alloc: Global, ext: &BtfExt, section: &str) -> Result<bool, AllocError> {
    is_found(ext.line_info.with_found(alloc, &[section]), section)
}

/// A call on the records of `.BTF.ext`, of the section that the word names.
pub fn on_ext(ext: &BtfExt, call: &Call<'_>) -> io::Result<()> {
    call.begin();
    match call.name {
        "kept_funcs" => call.tell(ext.func_info.get(call.word)),
        "kept_lines" => call.tell(ext.line_info.get(call.word)),
        "kept_found_funcs" => call.tell(has_funcs(call.rt.alloc(), ext, call.word)),
        "kept_found_lines" => call.tell(has_lines(call.rt.alloc(), ext, call.word)),
        "kept_ext" => {
            let copy: Result<_, _> = ext.clone();
            call.tell(copy)
        }
        _ => call.miss(),
    }
}

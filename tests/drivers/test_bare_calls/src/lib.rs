//! Calls on objects by their names, of which nothing is promised but that they are safe. Programs that test or measure make
//! them, so that their proofs meet none of what the library's own calls are stated by. An object is lent to who asks it, and
//! an answer to who hears it: both are let go of here, so that the programs' proofs don't let go of each part of an object and
//! of each error.
#![tactic(auto)]

mod asking;
mod files;
mod passes;
mod types;

pub use asking::{Asker, Listener};
pub use files::{forget, let_go, on_copy, on_file, on_made, on_parsed, on_prepared, parsed};
pub use passes::{
    link_map, patch_map_data, relocate_btf, relocate_calls, relocate_externs, relocate_maps,
    resolve_externs, resolve_lines, resolve_text, sanitize_functions, text_sections,
};
pub use types::{on_types, on_void_types, relocate_types};

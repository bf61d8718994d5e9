//! One call between two marks, and such calls on what objects are made of: the bytes of a file, its sections, instructions,
//! types, maps, and the small types that grow by one. Nothing is promised of it but that it is safe.
#![tactic(auto)]

mod call;
mod code;
mod kept_parts;
mod small;
mod still;
mod type_questions;
mod types;

pub use call::{Call, Files, Kernel, choose_failures, row, say};
pub use code::on_code;
pub use kept_parts::{on_ext, on_map};
pub use small::on_small;
pub use still::{changed_map, map_by_info, mix, of_maps, on_file};
pub use types::{on_types, parse_types, take_types};

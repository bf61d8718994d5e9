//! What objects hold as text, line by line, for the rows over all crates; and names, numbers and externs as words give them.
//! Nothing is promised of it but that it is safe.
#![tactic(auto)]

mod declared;
mod extern_words;
mod lines;
mod maps;
mod names;
mod parts;
mod records;
mod slots;

pub use declared::{put_btf_defined_maps, put_types};
pub use extern_words::set_externs;
pub use lines::put_lines;
pub use maps::{map_copy, map_info, put_map_ids};
pub use names::{default_attach_type, kind, loaded, of_number};
pub use parts::{put_functions, put_relocations, put_symbols};
pub use records::{put_records, put_type_relocations};
pub use slots::{put_immediates, put_slots, with_slots};

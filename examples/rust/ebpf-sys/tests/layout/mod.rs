//! The layouts of the structs as Rust has them.

/// A field of a struct.
pub struct Field {
    pub name: &'static str,
    pub offset: usize,
    pub size: usize,
}

/// A struct.
pub struct Layout {
    pub name: &'static str,
    pub size: usize,
    pub fields: &'static [Field],
}

/// How many bytes the field has that a function reads.
pub const fn size_read<S, F>(_read: fn(&S) -> &F) -> usize {
    std::mem::size_of::<F>()
}

macro_rules! layout {
    ($name:ident: $($field:ident),*) => {
        Layout {
            name: stringify!($name),
            size: size_of::<$name>(),
            fields: &[$(super::Field {
                name: stringify!($field),
                offset: offset_of!($name, $field),
                size: super::size_read(|it: &$name| &it.$field),
            }),*],
        }
    };
}

#[rustfmt::skip]
mod table;
pub use table::LAYOUTS;

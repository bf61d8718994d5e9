//! What the index of types gives.

use ebpf_btf::{Btf, BtfKind};
use ebpf_core_candidates::TypeIndex;
use std::alloc::{AllocError, Global};
use test_cases::{Action, no_action, shown, value_or_error};

/// Each kind beside its name.
const KINDS: [(&str, BtfKind); 20] = [
    ("Unknown", BtfKind::Unknown),
    ("Int", BtfKind::Int),
    ("Ptr", BtfKind::Ptr),
    ("Array", BtfKind::Array),
    ("Struct", BtfKind::Struct),
    ("Union", BtfKind::Union),
    ("Enum", BtfKind::Enum),
    ("Fwd", BtfKind::Fwd),
    ("Typedef", BtfKind::Typedef),
    ("Volatile", BtfKind::Volatile),
    ("Const", BtfKind::Const),
    ("Restrict", BtfKind::Restrict),
    ("Func", BtfKind::Func),
    ("FuncProto", BtfKind::FuncProto),
    ("Var", BtfKind::Var),
    ("DataSec", BtfKind::DataSec),
    ("Float", BtfKind::Float),
    ("DeclTag", BtfKind::DeclTag),
    ("TypeTag", BtfKind::TypeTag),
    ("Enum64", BtfKind::Enum64),
];

/// The kind of a name.
pub fn kind_of(name: &str) -> Option<BtfKind> {
    for (text, kind) in &KINDS {
        if *text == name {
            return Some(*kind);
        }
    }
    None
}

/// The ids of a kind and a name.
fn listed(
    alloc: Global,
    index: &TypeIndex<'_>,
    kind: BtfKind,
    name: &str,
) -> Result<String, AllocError> {
    value_or_error(alloc, index.candidates(kind, name))
}

/// The candidates of the action's kind and name.
pub fn candidates(alloc: Global, btf: &Btf, action: &Action<'_>) -> Result<String, AllocError> {
    let Some(kind) = kind_of(action.word(0)) else {
        return no_action(alloc);
    };
    match TypeIndex::new(alloc, btf) {
        Ok(index) => listed(alloc, &index, kind, action.word(1)),
        Err(error) => shown(alloc, error),
    }
}

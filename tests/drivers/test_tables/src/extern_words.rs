//! Externs, as words give them.

use ebpf_base::ByName;
use ebpf_model::ExternDesc;
use std::alloc::{AllocError, Global};

/// An extern of type 1 of which nothing is known.
const STRONG: ExternDesc = ExternDesc {
    btf_id: 1,
    is_typed: true,
    is_weak: false,
    kernel_btf_id: None,
    ksym_addr: None,
    is_resolved: false,
};

/// An extern that the kernel has, by the id of its type there.
fn with_id(id: u32) -> ExternDesc {
    ExternDesc {
        kernel_btf_id: Some(id),
        is_resolved: true,
        ..STRONG
    }
}

/// An extern that the kernel has at an address.
fn at_address(address: u64) -> ExternDesc {
    ExternDesc {
        is_typed: false,
        ksym_addr: Some(address),
        is_resolved: true,
        ..STRONG
    }
}

/// What is known of an extern, as `strong`, `weak`, `id:NUMBER` or `address:NUMBER`.
fn known_by(said: &str) -> Option<ExternDesc> {
    match said.split_once(':') {
        None if said == "strong" => Some(STRONG),
        None if said == "weak" => Some(ExternDesc {
            is_weak: true,
            ..STRONG
        }),
        Some(("id", id)) => Some(with_id(id.parse::<u32>().ok()?)),
        Some(("address", address)) => Some(at_address(address.parse::<u64>().ok()?)),
        _ => None,
    }
}

/// The name of an extern and what is known of it, as `NAME=KNOWN`.
fn named(word: &str) -> Option<(&str, ExternDesc)> {
    let (name, said) = word.split_once('=')?;
    Some((name, known_by(said)?))
}

/// Sets the externs that words name. `false` where a word says nothing that may be known.
pub fn set_externs(
    alloc: Global,
    externs: &mut ByName<ExternDesc>,
    words: &[&str],
) -> Result<bool, AllocError> {
    for word in words {
        let Some((name, known)) = named(word) else {
            return Ok(false);
        };
        externs.insert(String::from_str(alloc, name)?, known)?;
    }
    Ok(true)
}

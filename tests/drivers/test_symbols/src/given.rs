//! What is known of externs before their addresses are looked up, as words say it.

use ebpf_base::ByName;
use ebpf_model::ExternDesc;
use std::alloc::{AllocError, Global};

/// An extern without a type, of which nothing is known.
const STRONG: ExternDesc = ExternDesc {
    btf_id: 1,
    is_typed: false,
    is_weak: false,
    kernel_btf_id: None,
    ksym_addr: None,
    is_resolved: false,
};

/// An extern that the kernel has at an address.
fn at_address(address: u64) -> ExternDesc {
    ExternDesc {
        ksym_addr: Some(address),
        is_resolved: true,
        ..STRONG
    }
}

/// An extern of which nothing is known.
fn unknown(is_typed: bool, is_weak: bool) -> ExternDesc {
    ExternDesc {
        is_typed,
        is_weak,
        ..STRONG
    }
}

/// What is known of an extern, as `weak`, `typed` (and weak), `strong_typed`, or its address.
fn known_by(said: &str) -> Option<ExternDesc> {
    if said == "weak" || said == "typed" {
        return Some(unknown(said == "typed", true));
    }
    if said == "strong_typed" {
        return Some(unknown(true, false));
    }
    Some(at_address(said.parse::<u64>().ok()?))
}

/// The name of an extern and what is known of it, as `NAME` or `NAME=KNOWN`.
fn named(word: &str) -> Option<(&str, ExternDesc)> {
    match word.split_once('=') {
        Some((name, said)) => Some((name, known_by(said)?)),
        None => Some((word, STRONG)),
    }
}

/// The externs that words name; none where a word says nothing that may be known.
pub fn externs_by(alloc: Global, words: &[&str]) -> Result<Option<ByName<ExternDesc>>, AllocError> {
    let mut externs = ByName::new(alloc);
    for word in words {
        let Some((name, known)) = named(word) else {
            return Ok(None);
        };
        externs.insert(String::from_str(alloc, name)?, known)?;
    }
    Ok(Some(externs))
}

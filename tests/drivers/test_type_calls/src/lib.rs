//! Tests of small types, of type information and of indexes over it, each by what the call gives. Nothing is promised here.
#![tactic(auto)]

#[cfg(test)]
mod base;
#[cfg(test)]
mod btf;
#[cfg(test)]
mod candidates;
#[cfg(test)]
mod kept;

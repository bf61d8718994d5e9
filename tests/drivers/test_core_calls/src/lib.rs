//! Tests of CO-RE relocations: of places in types, and of what records come to. Nothing is promised here.
#![tactic(auto)]

#[cfg(test)]
mod core_relo;
#[cfg(test)]
mod places;

//! Tests of the least types: what is kept of each shape of types, and that no row can be left out. Nothing is promised here.
#![tactic(auto)]

#[cfg(test)]
mod id_uses;
#[cfg(test)]
mod kept;
#[cfg(test)]
mod parts;
#[cfg(test)]
mod rows;
#[cfg(test)]
mod shown;

//! Tests of linking programs, and of what linked ones are made of, each by what the call gives. Nothing is promised here.
#![tactic(auto)]

#[cfg(test)]
mod functions;
#[cfg(test)]
mod link_maps;
#[cfg(test)]
mod machines;
#[cfg(test)]
mod slots;

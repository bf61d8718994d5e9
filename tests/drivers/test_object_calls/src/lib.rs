//! Tests of calls over whole files: limits, arenas, exception callbacks, the initial values of maps, variables, and what the programs say; each by what the call gives.
//! Nothing is promised here.
#![tactic(auto)]

#[cfg(test)]
mod arenas;
#[cfg(test)]
mod callbacks;
#[cfg(test)]
mod chosen;
#[cfg(test)]
mod commands;
#[cfg(test)]
mod hex;
#[cfg(test)]
mod initial_slots;
#[cfg(test)]
mod limits;
#[cfg(test)]
mod slot_outcomes;
#[cfg(test)]
mod struct_ops;
#[cfg(test)]
mod variables;

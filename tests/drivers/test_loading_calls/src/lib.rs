//! Tests of what is told of a program that a kernel is to load: its target, helpers, types of maps, and the slots that are
//! reached; each by what the call gives. Nothing is promised here.
#![tactic(auto)]

#[cfg(test)]
mod attach;
#[cfg(test)]
mod kernel_numbers;
#[cfg(test)]
mod map_type_ids;
#[cfg(test)]
mod names;
#[cfg(test)]
mod reach;

//! Tests of externs that the kernel's configuration gives, in small objects, each by what the call gives. Nothing is promised
//! here.
#![tactic(auto)]

#[cfg(test)]
mod asked;
#[cfg(test)]
mod configured;
#[cfg(test)]
mod defined;
#[cfg(test)]
mod listed;
#[cfg(test)]
mod objects;
#[cfg(test)]
mod referred;

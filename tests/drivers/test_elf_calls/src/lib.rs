//! Tests of reading ELF files, each by what the call gives. Nothing is promised here.
#![tactic(auto)]

#[cfg(test)]
mod answers;
#[cfg(test)]
mod faults;
#[cfg(test)]
mod file;
#[cfg(test)]
mod machine;
#[cfg(test)]
mod tables;

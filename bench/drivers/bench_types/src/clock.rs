//! How long phases take, run for run.

use crate::error::BenchError;
use std::alloc::{AllocError, Global};
use std::time::Instant;

/// The nanoseconds of a phase, one number for each run.
#[derive(Drop)]
struct Phase {
    name: &'static str,
    /// Whether it is a part of the whole, and not of another phase.
    is_part: bool,
    times: Vec<u128>,
}

/// A clock for phases that follow each other.
#[derive(Drop)]
pub struct Clock {
    alloc: Global,
    phase_start: Instant,
    phases: Vec<Phase>,
    /// Whether each phase was noted: the clock and memory may fail.
    is_whole: bool,
}

/// The microseconds nearest to some nanoseconds.
fn microseconds(nanoseconds: u128) -> u128 {
    nanoseconds.saturating_add(500) / 1000
}

/// The first, the least and the median of some numbers, 0 where there is none.
#[derive(Clone, Copy)]
struct Found {
    first: u128,
    least: u128,
    median: u128,
}

impl Found {
    /// Nothing yet.
    const NONE: Found = Found {
        first: 0,
        least: 0,
        median: 0,
    };

    /// The sums with others.
    fn plus(self, other: Found) -> Found {
        Found {
            first: self.first.saturating_add(other.first),
            least: self.least.saturating_add(other.least),
            median: self.median.saturating_add(other.median),
        }
    }
}

impl Phase {
    /// What is told of its times.
    fn found(&self, alloc: Global) -> Result<Found, AllocError> {
        let mut sorted = Vec::from_slice(alloc, &self.times)?;
        sorted.sort_unstable();
        Ok(Found {
            first: self.times.first().copied().unwrap_or(0),
            least: sorted.first().copied().unwrap_or(0),
            median: sorted.get(sorted.len() / 2).copied().unwrap_or(0),
        })
    }
}

/// Adds a line.
fn put_line(text: &mut String, name: &str, found: Found) -> Result<(), AllocError> {
    let first = microseconds(found.first);
    let least = microseconds(found.least);
    let median = microseconds(found.median);
    writeln!(
        text,
        "{name:<24} first {first:>7} us, least {least:>7} us, median {median:>7} us"
    )
}

impl Clock {
    /// A clock whose first phase begins.
    pub fn start(rt: &HostRuntime) -> Result<Clock, BenchError> {
        Ok(Clock {
            alloc: rt.alloc(),
            phase_start: Instant::now(rt)?,
            phases: Vec::new(rt.alloc()),
            is_whole: true,
        })
    }

    /// Notes the time of a phase.
    fn put(&mut self, name: &'static str, is_part: bool, time: u128) -> Result<(), AllocError> {
        let known = self.phases.iter().position(|phase| phase.name == name);
        if let Some(at) = known
            && let Some(phase) = self.phases.get_mut(at)
        {
            phase.times.push(time)?;
            return Ok(());
        }
        let mut times = Vec::new(self.alloc);
        times.push(time)?;
        self.phases.push(Phase {
            name,
            is_part,
            times,
        })?;
        Ok(())
    }

    /// Notes the time since a phase began.
    fn note(
        &mut self,
        rt: &HostRuntime,
        name: &'static str,
        is_part: bool,
    ) -> Result<(), BenchError> {
        let time = self.phase_start.elapsed(rt)?.as_nanos();
        self.put(name, is_part, time)?;
        Ok(())
    }

    /// Begins a phase.
    pub fn begin(&mut self, rt: &HostRuntime) {
        match Instant::now(rt) {
            Ok(start) => self.phase_start = start,
            Err(_) => self.is_whole = false,
        }
    }

    /// Ends a phase of the whole, and begins the next.
    pub fn end(&mut self, rt: &HostRuntime, name: &'static str) {
        if self.note(rt, name, true).is_err() {
            self.is_whole = false;
        }
        self.begin(rt);
    }

    /// Ends a phase that is a part of another one, and begins the next.
    pub fn end_inner(&mut self, rt: &HostRuntime, name: &'static str) {
        if self.note(rt, name, false).is_err() {
            self.is_whole = false;
        }
        self.begin(rt);
    }

    /// A line for each phase, and one for their sums, those that are parts of others aside.
    pub fn text(&self) -> Result<String, BenchError> {
        let mut text = String::new(self.alloc);
        let mut sum = Found::NONE;
        for phase in &self.phases {
            let found = phase.found(self.alloc)?;
            put_line(&mut text, phase.name, found)?;
            if phase.is_part {
                sum = sum.plus(found);
            }
        }
        put_line(&mut text, "sum", sum)?;
        if !self.is_whole {
            return Err(BenchError::Clock);
        }
        Ok(text)
    }
}

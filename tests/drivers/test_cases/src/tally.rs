//! How many times each outcome was met.

use std::alloc::{AllocError, Global};
use std::ops::Range;

/// Outcomes, and how many times each was met, in the order in which they were met first.
#[derive(Drop)]
pub struct Tally {
    alloc: Global,
    counts: Vec<(String, u64)>,
}

impl Tally {
    /// No outcome.
    pub fn new(alloc: Global) -> Tally {
        Tally {
            alloc,
            counts: Vec::new(alloc),
        }
    }

    /// Counts an outcome.
    pub fn count(&mut self, outcome: &str) -> Result<(), AllocError> {
        for (text, count) in self.counts.iter_mut() {
            if text.as_str() == outcome {
                *count = count.saturating_add(1);
                return Ok(());
            }
        }
        let text = String::from_str(self.alloc, outcome)?;
        self.counts.push((text, 1))?;
        Ok(())
    }

    /// A line for each outcome.
    pub fn text(&self) -> Result<String, AllocError> {
        let mut text = String::new(self.alloc);
        for (outcome, count) in &self.counts {
            let outcome = outcome.as_str();
            writeln!(text, "{count}: {outcome}")?;
        }
        Ok(text)
    }
}

/// How many times each outcome comes, where each number of a range gives one.
pub fn tally_each<F: FnMut(usize) -> Result<String, AllocError> + Drop>(
    alloc: Global,
    numbers: Range<usize>,
    mut gives: F,
) -> Result<String, AllocError> {
    let mut tally = Tally::new(alloc);
    for number in numbers {
        let outcome = gives(number)?;
        tally.count(outcome.as_str())?;
    }
    tally.text()
}

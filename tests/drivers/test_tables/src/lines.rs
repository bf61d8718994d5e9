//! Lines of tables.

use ebpf_base::ByName;
use std::alloc::{AllocError, Global};

/// What has a line behind its name.
pub trait Line {
    /// Appends the line.
    fn put_line(&self, text: &mut String, name: &str) -> Result<(), AllocError>;
}

/// A line for each entry, in byte order of their names.
pub fn put_lines<V: Line>(
    alloc: Global,
    text: &mut String,
    entries: &ByName<V>,
) -> Result<(), AllocError> {
    for name in entries.names(alloc)? {
        if let Some(entry) = entries.get(name) {
            entry.put_line(text, name)?;
        }
    }
    Ok(())
}

/// Words and the numbers behind them, with a space before each but at the text's start.
pub fn put_numbers(text: &mut String, numbers: &[(&str, u64)]) -> Result<(), AllocError> {
    for (word, number) in numbers {
        if !text.is_empty() {
            text.push(' ')?;
        }
        write!(text, "{word} {number}")?;
    }
    Ok(())
}

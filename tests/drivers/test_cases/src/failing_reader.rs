//! A reader that fails.

use std::io::{self, BufRead, ErrorKind, Read};

/// Bytes, and what stands behind them: the end, or a failure at each read.
#[derive(Drop)]
pub struct FailingReader<'a> {
    bytes: &'a [u8],
    failure: Option<ErrorKind>,
    is_asked: bool,
}

impl<'a> FailingReader<'a> {
    /// The bytes, and what stands behind them.
    pub fn new(bytes: &'a [u8], failure: Option<ErrorKind>) -> FailingReader<'a> {
        FailingReader {
            bytes,
            failure,
            is_asked: false,
        }
    }

    /// Whether it was asked for bytes.
    pub fn is_asked(&self) -> bool {
        self.is_asked
    }
}

impl<'a> Read for FailingReader<'a> {
    fn read(&mut self, buf: &mut [u8]) -> io::Result<usize> {
        let part = self.fill_buf()?;
        let mut bytes = part;
        let count = bytes.read(buf)?;
        self.consume(count);
        Ok(count)
    }
}

impl<'a> BufRead for FailingReader<'a> {
    fn fill_buf(&mut self) -> io::Result<&[u8]> {
        self.is_asked = true;
        match self.failure {
            Some(kind) if self.bytes.is_empty() => Err(kind.into()),
            _ => Ok(self.bytes),
        }
    }

    fn consume(&mut self, amount: usize) {
        self.bytes = self.bytes.get(amount..).unwrap_or(&[]);
    }
}

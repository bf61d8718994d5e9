//! Files, read as the programs of the command line read them.

use std::io::Read;
use std::{fs, io};

/// The bytes of a file. Their memory is taken once where the file tells its size, as those of /proc don't.
pub fn read_bytes(rt: &HostRuntime, path: &str) -> io::Result<Vec<u8>> {
    let mut file = fs::open(rt, path)?;
    let size = file.metadata()?.len() as usize;
    let mut bytes = Vec::with_capacity(rt.alloc(), size.saturating_add(1))?;
    file.read_to_end(&mut bytes)?;
    Ok(bytes)
}

//! The code of programs, laid out as the kernel's own structs.
use crate::contents::Contents;
use crate::error::Error;
use ebpf_sys as sys;

pub use sys::ebpf_func_info as FuncInfo;
pub use sys::ebpf_insn as Insn;
pub use sys::ebpf_line_info as LineInfo;

/// # What a program is loaded with
impl Contents {
    /// The slots of a program as they stand, each a `struct bpf_insn`.
    ///
    /// # Errors
    ///
    /// - [`Error::NoProgram`]: no program has the name.
    pub fn slots(&self, program: &str) -> Result<Vec<Insn>, Error> {
        // SAFETY: the handle is open, the name is borrowed for the call, and the buffer is ours.
        self.filled(program, |it| unsafe {
            sys::ebpf_slots(self.as_raw(), program.as_ptr().cast(), program.len(), it.at, it.room, it.count)
        })
    }

    /// A program's func info by slot, each a `struct bpf_func_info`.
    ///
    /// # Errors
    ///
    /// - [`Error::NoProgram`]: no program has the name.
    pub fn func_infos(&self, program: &str) -> Result<Vec<FuncInfo>, Error> {
        // SAFETY: the handle is open, the name is borrowed for the call, and the buffer is ours.
        self.filled(program, |it| unsafe {
            sys::ebpf_func_infos(self.as_raw(), program.as_ptr().cast(), program.len(), it.at, it.room, it.count)
        })
    }

    /// A program's line info by slot, each a `struct bpf_line_info`.
    ///
    /// # Errors
    ///
    /// - [`Error::NoProgram`]: no program has the name.
    pub fn line_infos(&self, program: &str) -> Result<Vec<LineInfo>, Error> {
        // SAFETY: the handle is open, the name is borrowed for the call, and the buffer is ours.
        self.filled(program, |it| unsafe {
            sys::ebpf_line_infos(self.as_raw(), program.as_ptr().cast(), program.len(), it.at, it.room, it.count)
        })
    }

    /// The name of a program's section, which says what the program is attached to; `None` where it is not listed.
    ///
    /// # Errors
    ///
    /// - [`Error::NoProgram`]: no program has the name.
    pub fn program_section(&self, program: &str) -> Result<Option<String>, Error> {
        // SAFETY: the handle is open, the name is borrowed for the call, and the buffer is ours.
        let text = self.filled::<u8>(program, |it| unsafe {
            let (name, text) = (program.as_ptr().cast(), it.at.cast());
            sys::ebpf_program_section(self.as_raw(), name, program.len(), text, it.room, it.count)
        })?;
        Ok((!text.is_empty()).then(|| String::from_utf8_lossy(&text).into_owned()))
    }
}

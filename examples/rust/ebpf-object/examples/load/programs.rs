//! Programs in the kernel.
use crate::bpf::{self, Command, ProgLoad, TestRun};
use crate::Fault;
use ebpf_object::{attach_target_with, AttachTarget, FuncInfo, LineInfo, Prepared, Program, Types};
use std::ffi::CString;
use std::mem::size_of;
use std::os::fd::OwnedFd;

const SLEEPABLE: u32 = 1 << 4;
const HAS_FRAGS: u32 = 1 << 5;
/// Types of programs that run on a context from who runs them.
const RAW_TRACEPOINT: u32 = 17;
const SYSCALL: u32 = 31;
/// The kernel's ENOTSUPP.
const NOT_RUN: i32 = 524;

/// The programs that are loaded, each with its descriptor.
pub struct Programs {
    loaded: Vec<(Program, OwnedFd)>,
}

/// The id of the type that a program is attached to, 0 where it is loaded without one.
fn target_of(object: &Prepared, kernel: &Types, program: &Program) -> Result<u32, Fault> {
    if !program.wants_target {
        return Ok(0);
    }
    let section = object.program_section(&program.name)?.unwrap_or_default();
    match attach_target_with(&section, kernel)? {
        AttachTarget::Found(id) => Ok(id),
        AttachTarget::NotWanted => Ok(0),
        AttachTarget::Unnamed => Err(format!("the section {section} of {} names no target", program.name).into()),
        _ => Err(format!("the kernel's types lack the target of {} in {section}", program.name).into()),
    }
}

/// Hands a program to the kernel; where it refuses once more, for its log.
///
/// # Safety
///
/// The addresses and lengths among the attributes are those of memory that lives through the call.
unsafe fn hand_over(attributes: &mut ProgLoad, name: &str) -> Result<OwnedFd, Fault> {
    // SAFETY: the caller has seen to it.
    if let Ok(loaded) = unsafe { bpf::call_for_descriptor(Command::ProgLoad, attributes) } {
        return Ok(loaded);
    }
    let mut log = vec![0u8; 1 << 24];
    (attributes.log_buf, attributes.log_size, attributes.log_level) =
        (log.as_mut_ptr() as u64, bpf::length(log.len()), 1);
    // SAFETY: the caller has seen to it, and the log has so many bytes.
    let loaded = unsafe { bpf::call_for_descriptor(Command::ProgLoad, attributes) };
    loaded.map_err(|error| bpf::refused(&error, &format!("the program {name}"), &log))
}

fn load(object: &Prepared, kernel: &Types, types: Option<&OwnedFd>, program: &Program) -> Result<OwnedFd, Fault> {
    let name = &program.name;
    if program.program_type == 0 {
        return Err(format!("the section of the program {name} says no type of programs").into());
    }
    let slots = object.slots(name)?;
    let (functions, lines) = (object.func_infos(name)?, object.line_infos(name)?);
    let license = if object.states_license()? { object.license()? } else { CString::default() };
    let mut attributes = ProgLoad {
        prog_type: program.program_type,
        insn_cnt: bpf::length(slots.len()),
        insns: bpf::address(&slots),
        license: bpf::address(license.as_bytes_with_nul()),
        kern_version: object.info()?.kernel_version.unwrap_or(0),
        prog_flags: if program.is_sleepable { SLEEPABLE } else { 0 } | if program.has_frags { HAS_FRAGS } else { 0 },
        prog_name: bpf::short_name(name),
        expected_attach_type: program.attach_type.unwrap_or(0),
        attach_btf_id: target_of(object, kernel, program)?,
        ..ProgLoad::default()
    };
    if let Some(types) = types {
        attributes.prog_btf_fd = bpf::number(types);
        (attributes.func_info, attributes.func_info_cnt) = (bpf::address(&functions), bpf::length(functions.len()));
        attributes.func_info_rec_size = bpf::length(size_of::<FuncInfo>());
        (attributes.line_info, attributes.line_info_cnt) = (bpf::address(&lines), bpf::length(lines.len()));
        attributes.line_info_rec_size = bpf::length(size_of::<LineInfo>());
    }
    // SAFETY: the slots, the license, func info and line info live up to the end of this function.
    let loaded = unsafe { hand_over(&mut attributes, name) }?;
    println!("program {name} slots {}", slots.len());
    Ok(loaded)
}

impl Programs {
    /// Loads each program but those of sections with `?`, of which the one that is asked for alone.
    pub fn load(
        object: &Prepared,
        kernel: &Types,
        types: Option<&OwnedFd>,
        asked: Option<&str>,
    ) -> Result<Programs, Fault> {
        let mut loaded = Vec::new();
        for program in object.programs()? {
            if !program.is_optional || asked == Some(&program.name) {
                let descriptor = load(object, kernel, types, &program)?;
                loaded.push((program, descriptor));
            }
        }
        Ok(Programs { loaded })
    }

    fn find(&self, name: &str) -> Result<&(Program, OwnedFd), Fault> {
        let found = self.loaded.iter().find(|(program, _)| program.name == name);
        found.ok_or_else(|| format!("the program {name} is not loaded: its section begins with ?").into())
    }

    /// The descriptor of a program.
    pub fn descriptor(&self, name: &str) -> Result<&OwnedFd, Fault> {
        Ok(&self.find(name)?.1)
    }

    /// Runs a program once on given bytes: its context where it takes one from who runs it, else a packet. Returns what it
    /// returns.
    pub fn run(&self, name: &str, given: &[u8]) -> Result<u32, Fault> {
        let (program, loaded) = self.find(name)?;
        let (at, len) = (bpf::address(given), bpf::length(given.len()));
        let mut attributes = TestRun { prog_fd: bpf::number(loaded), ..TestRun::default() };
        if matches!(program.program_type, RAW_TRACEPOINT | SYSCALL) {
            (attributes.ctx_in, attributes.ctx_size_in) = (at, len);
        } else {
            (attributes.data_in, attributes.data_size_in, attributes.repeat) = (at, len, 1);
        }
        // SAFETY: the bytes live through the call, and nothing is asked back.
        match unsafe { bpf::call(Command::ProgTestRun, &mut attributes) } {
            Ok(_) => Ok(attributes.retval),
            Err(error) if error.raw_os_error() == Some(NOT_RUN) => {
                Err("the kernel runs no program of this kind by itself".into())
            }
            Err(error) => Err(bpf::refused(&error, &format!("to run {name}"), &[])),
        }
    }
}

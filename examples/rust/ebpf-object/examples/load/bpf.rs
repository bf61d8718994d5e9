//! The calls of bpf(2) that the loader makes, and their attributes as `linux/bpf.h` has them.
use crate::Fault;
use std::ffi::{c_int, c_long};
use std::io;
use std::mem::size_of;
use std::os::fd::{AsRawFd, FromRawFd, OwnedFd};

extern "C" {
    fn syscall(number: c_long, ...) -> c_long;
    fn sysconf(name: c_int) -> c_long;
}

#[cfg(target_arch = "x86_64")]
const SYS_BPF: c_long = 321;
#[cfg(not(target_arch = "x86_64"))]
const SYS_BPF: c_long = 280;

const SC_PAGESIZE: c_int = 30;
const SC_NPROCESSORS_CONF: c_int = 83;

/// `enum bpf_cmd`.
#[derive(Clone, Copy)]
pub enum Command {
    MapCreate = 0,
    MapLookup = 1,
    MapUpdate = 2,
    MapNextKey = 4,
    ProgLoad = 5,
    ProgTestRun = 10,
    BtfLoad = 18,
    MapFreeze = 22,
}

/// The attributes of a command.
///
/// # Safety
///
/// The struct is laid out as the part of `union bpf_attr` for the command, without bytes between its fields.
pub unsafe trait Attributes {}

#[repr(C)]
#[derive(Default)]
pub struct MapCreate {
    pub map_type: u32,
    pub key_size: u32,
    pub value_size: u32,
    pub max_entries: u32,
    pub map_flags: u32,
    pub inner_map_fd: u32,
    pub numa_node: u32,
    pub map_name: [u8; 16],
    pub map_ifindex: u32,
    pub btf_fd: u32,
    pub btf_key_type_id: u32,
    pub btf_value_type_id: u32,
    pub btf_vmlinux_value_type_id: u32,
    pub map_extra: u64,
}

#[repr(C)]
#[derive(Default)]
pub struct MapElement {
    pub map_fd: u32,
    pub unused: u32,
    pub key: u64,
    pub value: u64,
    pub flags: u64,
}

#[repr(C)]
#[derive(Default)]
pub struct ProgLoad {
    pub prog_type: u32,
    pub insn_cnt: u32,
    pub insns: u64,
    pub license: u64,
    pub log_level: u32,
    pub log_size: u32,
    pub log_buf: u64,
    pub kern_version: u32,
    pub prog_flags: u32,
    pub prog_name: [u8; 16],
    pub prog_ifindex: u32,
    pub expected_attach_type: u32,
    pub prog_btf_fd: u32,
    pub func_info_rec_size: u32,
    pub func_info: u64,
    pub func_info_cnt: u32,
    pub line_info_rec_size: u32,
    pub line_info: u64,
    pub line_info_cnt: u32,
    pub attach_btf_id: u32,
    pub attach_prog_fd: u32,
    pub core_relo_cnt: u32,
}

#[repr(C)]
#[derive(Default)]
pub struct TestRun {
    pub prog_fd: u32,
    pub retval: u32,
    pub data_size_in: u32,
    pub data_size_out: u32,
    pub data_in: u64,
    pub data_out: u64,
    pub repeat: u32,
    pub duration: u32,
    pub ctx_size_in: u32,
    pub ctx_size_out: u32,
    pub ctx_in: u64,
    pub ctx_out: u64,
}

#[repr(C)]
#[derive(Default)]
struct BtfLoad {
    btf: u64,
    btf_log_buf: u64,
    btf_size: u32,
    btf_log_size: u32,
    btf_log_level: u32,
    btf_log_true_size: u32,
}

// SAFETY: their fields are those of the kernel's header, each at a multiple of its size.
unsafe impl Attributes for MapCreate {}
// SAFETY: as above.
unsafe impl Attributes for MapElement {}
// SAFETY: as above.
unsafe impl Attributes for ProgLoad {}
// SAFETY: as above.
unsafe impl Attributes for TestRun {}
// SAFETY: as above.
unsafe impl Attributes for BtfLoad {}

/// Makes a call. What it returns is a descriptor where the command gives one.
///
/// # Safety
///
/// The addresses and lengths among the attributes are those of memory that the command may read, or write, for the call.
pub unsafe fn call<A: Attributes>(command: Command, attributes: &mut A) -> io::Result<i32> {
    let address: *mut A = attributes;
    // SAFETY: the attributes have so many bytes; the caller has seen to the addresses among them.
    let answer = unsafe { syscall(SYS_BPF, command as c_long, address, size_of::<A>()) };
    match i32::try_from(answer) {
        Ok(number) if number >= 0 => Ok(number),
        _ => Err(io::Error::last_os_error()),
    }
}

/// The same where the command gives a descriptor.
///
/// # Safety
///
/// As for [`call`]; the command gives a descriptor.
pub unsafe fn call_for_descriptor<A: Attributes>(command: Command, attributes: &mut A) -> io::Result<OwnedFd> {
    // SAFETY: the caller has seen to it.
    let descriptor = unsafe { call(command, attributes) }?;
    // SAFETY: the kernel gave this descriptor just now.
    Ok(unsafe { OwnedFd::from_raw_fd(descriptor) })
}

/// What the kernel refuses, in one line; behind its log where it wrote one.
pub fn refused(error: &io::Error, what: &str, log: &[u8]) -> Fault {
    let log: Vec<u8> = log.iter().copied().take_while(|it| *it != 0).collect();
    let hint = match error.raw_os_error() {
        Some(1) => ": bpf(2) is not permitted here",
        _ => "",
    };
    format!("{}the kernel refuses {what}: {error}{hint}", String::from_utf8_lossy(&log)).into()
}

/// The address of what a slice has.
pub fn address<T>(slice: &[T]) -> u64 {
    slice.as_ptr() as u64
}

/// A descriptor as attributes have it.
pub fn number(descriptor: &OwnedFd) -> u32 {
    descriptor.as_raw_fd().unsigned_abs()
}

/// The kernel keeps 15 bytes of a name.
pub fn short_name(name: &str) -> [u8; 16] {
    let mut kept = [0; 16];
    let len = name.len().min(15);
    kept[..len].copy_from_slice(&name.as_bytes()[..len]);
    kept
}

/// A length as attributes have it.
pub fn length(count: usize) -> u32 {
    u32::try_from(count).unwrap_or(u32::MAX)
}

/// The size of a page.
pub fn page_size() -> u32 {
    // SAFETY: the call reads nothing of this program.
    u32::try_from(unsafe { sysconf(SC_PAGESIZE) }).unwrap_or(4096)
}

/// How many processors there can be.
pub fn processors() -> u32 {
    // SAFETY: the call reads nothing of this program.
    u32::try_from(unsafe { sysconf(SC_NPROCESSORS_CONF) }).unwrap_or(1)
}

/// Loads an object's types; none where there are none.
pub fn load_types(types: &[u8]) -> Result<Option<OwnedFd>, Fault> {
    if types.is_empty() {
        return Ok(None);
    }
    let mut attributes = BtfLoad { btf: address(types), btf_size: length(types.len()), ..BtfLoad::default() };
    // SAFETY: the types have so many bytes.
    let loaded = unsafe { call_for_descriptor(Command::BtfLoad, &mut attributes) };
    if let Ok(loaded) = loaded {
        return Ok(Some(loaded));
    }
    // once more, for the kernel's log
    let mut log = vec![0u8; 1 << 20];
    (attributes.btf_log_buf, attributes.btf_log_size, attributes.btf_log_level) =
        (log.as_mut_ptr() as u64, length(log.len()), 1);
    // SAFETY: the types and the log have so many bytes.
    let loaded = unsafe { call_for_descriptor(Command::BtfLoad, &mut attributes) };
    loaded.map(Some).map_err(|error| refused(&error, "the types of the object", &log))
}

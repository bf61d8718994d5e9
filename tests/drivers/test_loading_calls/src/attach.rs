//! Targets of sections, in small types of a kernel.

use ebpf_btf::{Btf, BtfError};
use ebpf_load_info::attach_target;
use std::alloc::Global;
use std::test::Fail;
use test_same::shows;
use test_types::{add_function, add_typedef, add_variable};

/// A kind of types.
#[derive(Clone, Copy)]
enum Kind {
    Function,
    Typedef,
    Variable,
}

/// The types of a kernel from 2 on; the name of type 1 can't be read.
const KERNEL: [(Kind, &str); 8] = [
    (Kind::Variable, "do_exit"),
    (Kind::Typedef, "do_exit"),
    (Kind::Function, "do_exit"),
    (Kind::Function, "do_exit"),
    (Kind::Function, "btf_trace_sched_switch"),
    (Kind::Typedef, "btf_trace_sched_switch"),
    (Kind::Function, "bpf_lsm_file_open"),
    (Kind::Function, "bpf_iter_task"),
];

fn add(types: &mut Btf, kind: Kind, name: &str) -> Result<u32, BtfError> {
    match kind {
        Kind::Function => {
            let name_offset = types.add_string(name)?;
            add_function(types, name_offset)
        }
        Kind::Typedef => add_typedef(types, name, 0),
        Kind::Variable => add_variable(types, name, 0, 1),
    }
}

fn kernel(alloc: Global) -> Result<Btf, BtfError> {
    let mut types = Btf::new(alloc)?;
    add_function(&mut types, 9999)?;
    for (kind, name) in KERNEL.iter() {
        add(&mut types, *kind, name)?;
    }
    Ok(types)
}

/// Sections whose targets are functions of the kernel or of another program.
const FUNCTIONS: [&str; 10] = [
    "fentry/do_exit",
    "fentry.s/do_exit",
    "fexit/do_exit",
    "fexit.s/do_exit",
    "fmod_ret/do_exit",
    "fmod_ret.s/do_exit",
    "freplace/do_exit",
    "?fentry/do_exit",
    "fexit/vmlinux:do_exit",
    "?fexit.s/vmlinux:do_exit",
];

/// Sections without a target's name.
const UNNAMED: [&str; 4] = ["fentry", "?lsm", "iter/", "freplace/vmlinux:"];

/// Sections that have no target.
const NOT_WANTED: [&str; 9] = [
    "xdp",
    "kprobe/do_exit",
    "raw_tp/sched_switch",
    "raw_tracepoint/sched_switch",
    "fentry.x/do_exit",
    "fentryx/do_exit",
    "??fentry/do_exit",
    "",
    "/do_exit",
];

/// Sections of the other kinds, and names that the types don't have.
const TOLD: [(&str, &str); 14] = [
    ("tp_btf/sched_switch", "Found { type_id: 7 }"),
    ("tp_btf/vmlinux:sched_switch", "Found { type_id: 7 }"),
    ("lsm/file_open", "Found { type_id: 8 }"),
    ("lsm.s/file_open", "Found { type_id: 8 }"),
    ("lsm_cgroup/file_open", "Found { type_id: 8 }"),
    ("iter/task", "Found { type_id: 9 }"),
    ("iter.s/task", "Found { type_id: 9 }"),
    ("tp_btf/do_exit", "NotFound { name: \"btf_trace_do_exit\" }"),
    ("lsm/task", "NotFound { name: \"bpf_lsm_task\" }"),
    (
        "iter/file_open",
        "NotFound { name: \"bpf_iter_file_open\" }",
    ),
    ("fentry/do_fork", "NotFound { name: \"do_fork\" }"),
    ("fentry/do_exit/2", "NotFound { name: \"do_exit/2\" }"),
    ("fentry/xfs:do_exit", "NotFound { name: \"xfs:do_exit\" }"),
    ("fentry/task", "NotFound { name: \"task\" }"),
];

/// Fails where this isn't told of the target of a section.
fn is_told(alloc: Global, types: &Btf, section: &str, want: &str) -> Result<(), Fail> {
    let target = attach_target(alloc, section, types)?;
    shows(alloc, &target, want)
}

/// Fails where it isn't of each of these sections.
fn are_told(alloc: Global, types: &Btf, sections: &[&str], want: &str) -> Result<(), Fail> {
    for section in sections {
        is_told(alloc, types, section, want)?;
    }
    Ok(())
}

#[test]
fn functions(rt: HostRuntime) -> Result<(), Fail> {
    let types = kernel(rt.alloc())?;
    are_told(rt.alloc(), &types, &FUNCTIONS, "Found { type_id: 4 }")
}

#[test]
fn no_names(rt: HostRuntime) -> Result<(), Fail> {
    let types = kernel(rt.alloc())?;
    are_told(rt.alloc(), &types, &UNNAMED, "Unnamed")
}

#[test]
fn no_targets(rt: HostRuntime) -> Result<(), Fail> {
    let types = kernel(rt.alloc())?;
    are_told(rt.alloc(), &types, &NOT_WANTED, "NotWanted")
}

#[test]
fn prefixes(rt: HostRuntime) -> Result<(), Fail> {
    let types = kernel(rt.alloc())?;
    for (section, want) in TOLD.iter() {
        is_told(rt.alloc(), &types, section, want)?;
    }
    Ok(())
}

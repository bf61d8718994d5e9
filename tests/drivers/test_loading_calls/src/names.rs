//! Names of types as bpftool prints them, poisoned slots, and the values of a map by name.

use ebpf_base::ByName;
use ebpf_parts::insn::bpf_insn;
use ebpf_parts::maps::bpf_map_type;
use ebpf_parts::programs::bpf_prog_type;
use std::test::Fail;
use test_same::{holds, same};

#[test]
fn map_types(_rt: HostRuntime) -> Result<(), Fail> {
    same(bpf_map_type::BPF_MAP_TYPE_UNSPEC.name(), "unspec")?;
    same(bpf_map_type::BPF_MAP_TYPE_HASH.name(), "hash")?;
    same(bpf_map_type::BPF_MAP_TYPE_CGROUP_STORAGE_DEPRECATED.name(), "cgroup_storage")?;
    same(bpf_map_type::BPF_MAP_TYPE_INSN_ARRAY.name(), "insn_array")
}

#[test]
fn program_types(_rt: HostRuntime) -> Result<(), Fail> {
    same(bpf_prog_type::BPF_PROG_TYPE_XDP.name(), "xdp")?;
    same(bpf_prog_type::BPF_PROG_TYPE_RAW_TRACEPOINT_WRITABLE.name(), "raw_tracepoint_writable")?;
    same(bpf_prog_type::BPF_PROG_TYPE_NETFILTER.name(), "netfilter")
}

#[test]
fn poisoned(_rt: HostRuntime) -> Result<(), Fail> {
    let poison = bpf_insn { code: 0x85, regs: 0, off: 0, imm: 0x0bad_2310 };
    holds(poison.is_poisoned(), "poison")?;
    holds(!bpf_insn { imm: 1, ..poison }.is_poisoned(), "a call of helper 1")?;
    holds(!bpf_insn { regs: 0x10, ..poison }.is_poisoned(), "a call of a function")?;
    holds(!bpf_insn { off: 1, ..poison }.is_poisoned(), "a call with an offset")?;
    holds(!bpf_insn { code: 0x18, ..poison }.is_poisoned(), "a load")
}

#[test]
fn values_by_name(rt: HostRuntime) -> Result<(), Fail> {
    let mut map = ByName::new(rt.alloc());
    map.insert(String::from_str(rt.alloc(), "b")?, 2u32)?;
    map.insert(String::from_str(rt.alloc(), "a")?, 1u32)?;
    let mut values = Vec::new(rt.alloc());
    for value in map.values() {
        values.push(*value)?;
    }
    holds(values.as_slice() == [1u32, 2].as_slice(), "the values in order of the names")
}

"""What the names of sections say, and numbers of maps, programs and pinnings."""
from rows.case import Case

PROBES = {
    "kprobe": "KProbe",
    "kretprobe": "KRetProbe",
    "uprobe": "UProbe { sleepable: false, multi: false }",
    "uprobe.s": "UProbe { sleepable: true, multi: false }",
    "uprobe.multi": "UProbe { sleepable: false, multi: true }",
    "uprobe.multi.s": "UProbe { sleepable: true, multi: true }",
    "uretprobe": "URetProbe { sleepable: false, multi: false }",
    "uretprobe.s": "URetProbe { sleepable: true, multi: false }",
    "uretprobe.multi": "URetProbe { sleepable: false, multi: true }",
    "uretprobe.multi.s": "URetProbe { sleepable: true, multi: true }",
    "tp_btf": "BtfTracePoint",
    "tracepoint": "TracePoint",
    "tp": "TracePoint",
    "raw_tp": "RawTracePoint",
    "raw_tracepoint": "RawTracePoint",
    "perf_event": "PerfEvent",
    "lsm": "Lsm { sleepable: false }",
    "lsm.s": "Lsm { sleepable: true }",
    "lsm_cgroup": "LsmCgroup",
    "fentry": "FEntry { sleepable: false }",
    "fentry.s": "FEntry { sleepable: true }",
    "fexit": "FExit { sleepable: false }",
    "fexit.s": "FExit { sleepable: true }",
    "iter": "Iter { sleepable: false }",
    "iter.s": "Iter { sleepable: true }",
    "freplace": "Extension",
}

NETWORK = {
    "socket": "SocketFilter",
    "sk_msg": "SkMsg",
    "sockops": "SockOps",
    "classifier": "SchedClassifier",
    "lirc_mode2": "LircMode2",
    "sk_lookup": "SkLookup",
    "flow_dissector": "FlowDissector",
    "xdp": "Xdp { frags: false, attach_type: Interface }",
    "xdp/cpumap": "Xdp { frags: false, attach_type: CpuMap }",
    "xdp/devmap": "Xdp { frags: false, attach_type: DevMap }",
    "xdp.frags": "Xdp { frags: true, attach_type: Interface }",
    "xdp.frags/cpumap": "Xdp { frags: true, attach_type: CpuMap }",
    "xdp.frags/devmap": "Xdp { frags: true, attach_type: DevMap }",
    "sk_skb/stream_parser": "SkSkbStream { kind: StreamParser }",
    "sk_skb/stream_verdict": "SkSkbStream { kind: StreamVerdict }",
    "sk_reuseport": "SkReuseport { attach_type: Select }",
    "sk_reuseport/migrate": "SkReuseport { attach_type: SelectOrMigrate }",
}

CGROUPS = {
    "cgroup_skb/ingress": "CgroupSkb { attach_type: Some(Ingress) }",
    "cgroup_skb/egress": "CgroupSkb { attach_type: Some(Egress) }",
    "cgroup/skb": "CgroupSkb { attach_type: None }",
    "cgroup/sysctl": "CgroupSysctl",
    "cgroup/dev": "CgroupDevice",
    "cgroup/getsockopt": "CgroupSockopt { attach_type: Get }",
    "cgroup/setsockopt": "CgroupSockopt { attach_type: Set }",
    "cgroup/sock": "CgroupSock { attach_type: SockCreate }",
    "cgroup/post_bind4": "CgroupSock { attach_type: PostBind4 }",
    "cgroup/post_bind6": "CgroupSock { attach_type: PostBind6 }",
    "cgroup/sock_create": "CgroupSock { attach_type: SockCreate }",
    "cgroup/sock_release": "CgroupSock { attach_type: SockRelease }",
    "cgroup/bind4": "CgroupSockAddr { attach_type: Bind4 }",
    "cgroup/bind6": "CgroupSockAddr { attach_type: Bind6 }",
    "cgroup/connect4": "CgroupSockAddr { attach_type: Connect4 }",
    "cgroup/connect6": "CgroupSockAddr { attach_type: Connect6 }",
    "cgroup/getpeername4": "CgroupSockAddr { attach_type: GetPeerName4 }",
    "cgroup/getpeername6": "CgroupSockAddr { attach_type: GetPeerName6 }",
    "cgroup/getsockname4": "CgroupSockAddr { attach_type: GetSockName4 }",
    "cgroup/getsockname6": "CgroupSockAddr { attach_type: GetSockName6 }",
    "cgroup/sendmsg4": "CgroupSockAddr { attach_type: UDPSendMsg4 }",
    "cgroup/sendmsg6": "CgroupSockAddr { attach_type: UDPSendMsg6 }",
    "cgroup/recvmsg4": "CgroupSockAddr { attach_type: UDPRecvMsg4 }",
    "cgroup/recvmsg6": "CgroupSockAddr { attach_type: UDPRecvMsg6 }",
}

# Further pieces play no part.
LONGER = {
    "uprobe.multi.s/foo": "UProbe { sleepable: true, multi: true }",
    "uretprobe.s/foo": "URetProbe { sleepable: true, multi: false }",
    "kprobe/foo/bar": "KProbe",
    "kprobe/": "KProbe",
    "xdp/cpumap/foo": "Xdp { frags: false, attach_type: CpuMap }",
    "sk_skb/stream_verdict/foo": "SkSkbStream { kind: StreamVerdict }",
    "sk_reuseport/migrate/foo": "SkReuseport { attach_type: SelectOrMigrate }",
    "cgroup/connect4/": "CgroupSockAddr { attach_type: Connect4 }",
}

REFUSED = (
    ["", "/", "/kprobe", "kprob", "kprobes", "KPROBE", "uprobe.", "uprobe.s.multi"]
    + ["xdp/program_name", "xdp/", "xdp/cpumaps", "xdp.s"]
    + ["sk_skb", "sk_skb/", "sk_skb/stream", "sk_reuseport/", "sk_reuseport/select"]
    + ["cgroup_skb", "cgroup_skb/", "cgroup_skb/skb", "cgroup", "cgroup/", "cgroup/ingress"]
    + ["cgroup/bind", "cgroup/bind5", "cgroup/sendmsg", "tp_btf.s", "raw_tp.w", "license", ".text"]
)


def kinds(name, table):
    return Case(name, {}, {f"kind {section}": kind for section, kind in table.items()})


def cases():
    return [
        kinds("names of probes", PROBES),
        kinds("names of the network", NETWORK),
        kinds("names of control groups", CGROUPS),
        kinds("names with further pieces", LONGER),
        kinds("names of no kind", {name: f'the section name "{name}" says no type of program' for name in REFUSED}),
        Case(
            "numbers",
            {},
            {
                "map_type 34": "Ok(BPF_MAP_TYPE_INSN_ARRAY)",
                "map_type 35": "Err(InvalidTypeBinding { value: 35 })",
                "program_type 32": "Ok(BPF_PROG_TYPE_NETFILTER)",
                "program_type 33": "Err(InvalidTypeBinding { value: 33 })",
                "pinning 1": "Ok(ByName)",
                "pinning 2": "Err(Unsupported { pinning_type: 2 })",
                "default_attach_type": "SockCreate",
            },
        ),
    ]

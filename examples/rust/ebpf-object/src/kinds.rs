//! What the numbers of rows say.
use ebpf_sys as sys;

macro_rules! kinds {
    ($(#[$of:meta])* $name:ident { $($(#[$doc:meta])* $variant:ident = $number:ident,)* }) => {
        $(#[$of])*
        #[derive(Clone, Copy, Debug, PartialEq, Eq, Hash)]
        #[non_exhaustive]
        pub enum $name {
            $($(#[$doc])* $variant,)*
            /// A number that this version of the crate does not know.
            Unknown(u32),
        }

        impl From<u32> for $name {
            fn from(number: u32) -> $name {
                match number {
                    $(sys::$number => $name::$variant,)*
                    other => $name::Unknown(other),
                }
            }
        }

        impl From<$name> for u32 {
            fn from(kind: $name) -> u32 {
                match kind {
                    $($name::$variant => sys::$number,)*
                    $name::Unknown(other) => other,
                }
            }
        }
    };
}

kinds! {
    /// What a program's section name says.
    ProgramKind {
        /// `kretprobe`.
        Kretprobe = EBPF_KIND_KRETPROBE,
        /// `kprobe`.
        Kprobe = EBPF_KIND_KPROBE,
        /// `uprobe`.
        Uprobe = EBPF_KIND_UPROBE,
        /// `uretprobe`.
        Uretprobe = EBPF_KIND_URETPROBE,
        /// `tracepoint`, `tp`.
        Tracepoint = EBPF_KIND_TRACEPOINT,
        /// `socket`.
        SocketFilter = EBPF_KIND_SOCKET_FILTER,
        /// `xdp`.
        Xdp = EBPF_KIND_XDP,
        /// `sk_msg`.
        SkMsg = EBPF_KIND_SK_MSG,
        /// `sk_skb/stream_parser`, `sk_skb/stream_verdict`.
        SkSkb = EBPF_KIND_SK_SKB,
        /// `sockops`.
        SockOps = EBPF_KIND_SOCK_OPS,
        /// `classifier`.
        SchedCls = EBPF_KIND_SCHED_CLS,
        /// `cgroup/skb`, `cgroup_skb/ingress`, `cgroup_skb/egress`.
        CgroupSkb = EBPF_KIND_CGROUP_SKB,
        /// `cgroup/bind4`, `cgroup/connect4` and the like.
        CgroupSockAddr = EBPF_KIND_CGROUP_SOCK_ADDR,
        /// `cgroup/sysctl`.
        CgroupSysctl = EBPF_KIND_CGROUP_SYSCTL,
        /// `cgroup/getsockopt`, `cgroup/setsockopt`.
        CgroupSockopt = EBPF_KIND_CGROUP_SOCKOPT,
        /// `lirc_mode2`.
        LircMode2 = EBPF_KIND_LIRC_MODE2,
        /// `perf_event`.
        PerfEvent = EBPF_KIND_PERF_EVENT,
        /// `raw_tp`, `raw_tracepoint`.
        RawTracepoint = EBPF_KIND_RAW_TRACEPOINT,
        /// `lsm`.
        Lsm = EBPF_KIND_LSM,
        /// `lsm_cgroup`.
        LsmCgroup = EBPF_KIND_LSM_CGROUP,
        /// `tp_btf`.
        BtfTracepoint = EBPF_KIND_BTF_TRACEPOINT,
        /// `fentry`.
        Fentry = EBPF_KIND_FENTRY,
        /// `fexit`.
        Fexit = EBPF_KIND_FEXIT,
        /// `flow_dissector`.
        FlowDissector = EBPF_KIND_FLOW_DISSECTOR,
        /// `freplace`.
        Extension = EBPF_KIND_EXTENSION,
        /// `sk_lookup`.
        SkLookup = EBPF_KIND_SK_LOOKUP,
        /// `sk_reuseport`.
        SkReuseport = EBPF_KIND_SK_REUSEPORT,
        /// `cgroup/sock`, `cgroup/post_bind4` and the like.
        CgroupSock = EBPF_KIND_CGROUP_SOCK,
        /// `cgroup/dev`.
        CgroupDevice = EBPF_KIND_CGROUP_DEVICE,
        /// `iter`.
        Iter = EBPF_KIND_ITER,
        /// A name that says none of these: lenient parsing alone.
        Other = EBPF_KIND_OTHER,
    }
}

kinds! {
    /// What the section that declares a map is for.
    SectionKind {
        /// Nothing that is known.
        None = EBPF_SECTION_NONE,
        /// Maps by `struct bpf_map_def`.
        Maps = EBPF_SECTION_MAPS,
        /// Maps by types, `.maps`.
        BtfMaps = EBPF_SECTION_BTF_MAPS,
        /// Variables, `.data`.
        Data = EBPF_SECTION_DATA,
        /// Constants, `.rodata` and `.kconfig`: freeze the map once it is filled.
        Rodata = EBPF_SECTION_RODATA,
        /// Variables that begin as zeros, `.bss`.
        Bss = EBPF_SECTION_BSS,
    }
}

kinds! {
    /// What a kconfig extern holds.
    KconfigKind {
        /// 1 byte: 1 for y, 0 for n.
        Bool = EBPF_EXTERN_BOOL,
        /// 0 for n, 1 for y, 2 for m.
        Tristate = EBPF_EXTERN_TRISTATE,
        /// 1 byte: a number, or the letter.
        Char = EBPF_EXTERN_CHAR,
        /// 2, 4 or 8 bytes.
        Integer = EBPF_EXTERN_INTEGER,
        /// An array of bytes: a string with a zero byte.
        String = EBPF_EXTERN_STRING,
    }
}

kinds! {
    /// What a kernel's types lack.
    Absence {
        /// A type of the kind and the name.
        Type = EBPF_ABSENT_TYPE,
        /// Types have the kind and the name; none is compatible with the object's own.
        TypeKind = EBPF_ABSENT_TYPE_KIND,
        /// A member of a name on the way to the field, or an element of a number.
        Member = EBPF_ABSENT_MEMBER,
        /// A member has the name; its type is not compatible with the object's own.
        MemberKind = EBPF_ABSENT_MEMBER_KIND,
        /// A variant of the name.
        Enumerator = EBPF_ABSENT_ENUMERATOR,
        /// The field is there, and what is asked of it can't be had.
        Value = EBPF_ABSENT_VALUE,
    }
}

kinds! {
    /// Why programs break on a kernel.
    ReasonKind {
        /// All programs: a section of CO-RE relocations has none.
        EmptySection = EBPF_REASON_EMPTY_SECTION,
        /// All programs: the kernel lacks an extern, or has another of the name.
        Extern = EBPF_REASON_EXTERN,
        /// All programs: a pass before linking refuses the object.
        Pass = EBPF_REASON_PASS,
        /// A CO-RE relocation is refused. It is of all programs where it is in none.
        Relocation = EBPF_REASON_RELOCATION,
        /// The program can't be linked.
        Linking = EBPF_REASON_LINKING,
        /// The program reaches a slot, and the kernel lacks what its CO-RE relocation asks for.
        Poisoned = EBPF_REASON_POISONED,
        /// The program reaches a call of a helper that the kernel lacks.
        Helper = EBPF_REASON_HELPER,
        /// The program reaches a call of a weak extern that the kernel lacks.
        Function = EBPF_REASON_FUNCTION,
        /// A slot refers to a map whose type the kernel lacks.
        MapType = EBPF_REASON_MAP_TYPE,
        /// The types have no target that the program is attached to. It doesn't break by this alone.
        Target = EBPF_REASON_TARGET,
    }
}

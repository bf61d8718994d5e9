"""What the names of programs' sections say, as numbers of the kernel's."""
import re

# The kinds in the order of their numbers, with the kernel's type of the program.
KINDS = {
    "KRetProbe": 2,
    "KProbe": 2,
    "UProbe": 2,
    "URetProbe": 2,
    "TracePoint": 5,
    "SocketFilter": 1,
    "Xdp": 6,
    "SkMsg": 16,
    "SkSkbStream": 14,
    "SockOps": 13,
    "SchedClassifier": 3,
    "CgroupSkb": 8,
    "CgroupSockAddr": 18,
    "CgroupSysctl": 23,
    "CgroupSockopt": 25,
    "LircMode2": 20,
    "PerfEvent": 7,
    "RawTracePoint": 17,
    "Lsm": 29,
    "LsmCgroup": 29,
    "BtfTracePoint": 26,
    "FEntry": 26,
    "FExit": 26,
    "FlowDissector": 22,
    "Extension": 28,
    "SkLookup": 30,
    "SkReuseport": 21,
    "CgroupSock": 9,
    "CgroupDevice": 15,
    "Iter": 26,
}

# Attach types of kinds that have one alone.
ATTACHED = {
    "SkMsg": 7,
    "SockOps": 3,
    "CgroupSysctl": 18,
    "LircMode2": 16,
    "Lsm": 27,
    "LsmCgroup": 43,
    "BtfTracePoint": 23,
    "FEntry": 24,
    "FExit": 25,
    "FlowDissector": 17,
    "SkLookup": 36,
    "CgroupDevice": 6,
    "Iter": 28,
}

# Attach types of the others, by what the name says.
ATTACH = {
    "UProbe": {"multi: true": 48},
    "URetProbe": {"multi: true": 48},
    "Xdp": {"Interface": 37, "CpuMap": 35, "DevMap": 33},
    "SkSkbStream": {"StreamVerdict": 5, "StreamParser": 4},
    "CgroupSkb": {"Ingress": 0, "Egress": 1},
    "CgroupSockAddr": {
        "Bind4": 8,
        "Bind6": 9,
        "Connect4": 10,
        "Connect6": 11,
        "UDPSendMsg4": 14,
        "UDPSendMsg6": 15,
        "UDPRecvMsg4": 19,
        "UDPRecvMsg6": 20,
        "GetPeerName4": 29,
        "GetPeerName6": 30,
        "GetSockName4": 31,
        "GetSockName6": 32,
    },
    "CgroupSockopt": {"Get": 21, "Set": 22},
    "SkReuseport": {"Select": 39, "SelectOrMigrate": 40},
    "CgroupSock": {"SockCreate": 2, "SockRelease": 34, "PostBind4": 12, "PostBind6": 13},
}

FLAGS = {"sleepable": 1, "multi": 2, "frags": 4}

# Kinds whose programs are loaded with the id of a type.
TARGET = {"Lsm", "LsmCgroup", "BtfTracePoint", "FEntry", "FExit", "Extension", "Iter"}


# The number of the kind of programs in sections whose names say none.
OTHER = len(KINDS)


def numbers_of(text):
    """Of a kind as it is printed: `kind K flags F type T attach A`; no attach type is -1."""
    kind = re.match(r"\w+", text)[0]
    if kind == "Other":
        return f"kind {OTHER} flags 0 type 0 attach -1"
    flags = sum(value for name, value in FLAGS.items() if f"{name}: true" in text) + 8 * (kind in TARGET)
    said = [value for name, value in ATTACH.get(kind, {}).items() if re.search(rf"\b{name}\b", text)]
    attach = ATTACHED.get(kind, said[0] if said else -1)
    return f"kind {list(KINDS).index(kind)} flags {flags} type {KINDS[kind]} attach {attach}"


# Flags of names that loaders know; those of kinds by what the name says.
LOADED = {"sleepable": 1, "frags": 4, "target": 8, "optional": 16}


def numbers_loaded(kind, loaded):
    """Of a kind as it is printed whose section has a name that loaders know, by what these know of it."""
    number, _, attach, *words = loaded.removeprefix("type ").split()
    flags = sum(LOADED[word] for word in words) + 2 * ("multi: true" in kind)
    attach = "-1" if attach == "None" else attach[len("Some(") : -1]
    at = OTHER if kind == "Other" else list(KINDS).index(re.match(r"\w+", kind)[0])
    return f"kind {at} flags {flags} type {number} attach {attach}"


def numbers_read(kind, loaded):
    """Of a kind as it is printed, by what loaders know of its section's name, where they know something."""
    return numbers_of(kind) if loaded == "none" else numbers_loaded(kind, loaded)

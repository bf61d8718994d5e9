"""What a loader does with the programs of a section, by its name."""
from rows.case import Case

# libbpf's names of program sections, with the kernel's numbers of the program type and of the attach type. A longer one
# also stands with a slash and a target behind it.
TABLE = """
socket                   exact   1  -
sk_reuseport/migrate     exact  21 40
sk_reuseport             exact  21 39
kprobe                   longer  2  -
uprobe                   longer  2  -
uprobe.s                 longer  2  - sleepable
kretprobe                longer  2  -
uretprobe                longer  2  -
uretprobe.s              longer  2  - sleepable
kprobe.multi             longer  2 42
kretprobe.multi          longer  2 42
kprobe.session           longer  2 56
uprobe.multi             longer  2 48
uretprobe.multi          longer  2 48
uprobe.multi.s           longer  2 48 sleepable
uretprobe.multi.s        longer  2 48 sleepable
ksyscall                 longer  2  -
kretsyscall              longer  2  -
usdt                     longer  2  -
usdt.s                   longer  2  - sleepable
tc/ingress               exact   3 46
tc/egress                exact   3 47
tcx/ingress              exact   3 46
tcx/egress               exact   3 47
tc                       exact   3  -
classifier               exact   3  -
action                   exact   4  -
netkit/primary           exact   3 54
netkit/peer              exact   3 55
tracepoint               longer  5  -
tp                       longer  5  -
raw_tracepoint           longer 17  -
raw_tp                   longer 17  -
raw_tracepoint.w         longer 24  -
raw_tp.w                 longer 24  -
tp_btf                   longer 26 23 target
fentry                   longer 26 24 target
fmod_ret                 longer 26 26 target
fexit                    longer 26 25 target
fentry.s                 longer 26 24 sleepable target
fmod_ret.s               longer 26 26 sleepable target
fexit.s                  longer 26 25 sleepable target
freplace                 longer 28  - target
lsm                      longer 29 27 target
lsm.s                    longer 29 27 sleepable target
lsm_cgroup               longer 29 43 target
iter                     longer 26 28 target
iter.s                   longer 26 28 sleepable target
syscall                  exact  31  - sleepable
xdp.frags/devmap         exact   6 33 frags
xdp/devmap               exact   6 33
xdp.frags/cpumap         exact   6 35 frags
xdp/cpumap               exact   6 35
xdp.frags                exact   6 37 frags
xdp                      exact   6 37
perf_event               exact   7  -
lwt_in                   exact  10  -
lwt_out                  exact  11  -
lwt_xmit                 exact  12  -
lwt_seg6local            exact  19  -
sockops                  exact  13  3
sk_skb/stream_parser     exact  14  4
sk_skb/stream_verdict    exact  14  5
sk_skb/verdict           exact  14 38
sk_skb                   exact  14  -
sk_msg                   exact  16  7
lirc_mode2               exact  20 16
flow_dissector           exact  22 17
cgroup_skb/ingress       exact   8  0
cgroup_skb/egress        exact   8  1
cgroup/skb               exact   8  -
cgroup/sock_create       exact   9  2
cgroup/sock_release      exact   9 34
cgroup/sock              exact   9  2
cgroup/post_bind4        exact   9 12
cgroup/post_bind6        exact   9 13
cgroup/bind4             exact  18  8
cgroup/bind6             exact  18  9
cgroup/connect4          exact  18 10
cgroup/connect6          exact  18 11
cgroup/connect_unix      exact  18 49
cgroup/sendmsg4          exact  18 14
cgroup/sendmsg6          exact  18 15
cgroup/sendmsg_unix      exact  18 50
cgroup/recvmsg4          exact  18 19
cgroup/recvmsg6          exact  18 20
cgroup/recvmsg_unix      exact  18 51
cgroup/getpeername4      exact  18 29
cgroup/getpeername6      exact  18 30
cgroup/getpeername_unix  exact  18 52
cgroup/getsockname4      exact  18 31
cgroup/getsockname6      exact  18 32
cgroup/getsockname_unix  exact  18 53
cgroup/sysctl            exact  23 18
cgroup/getsockopt        exact  25 21
cgroup/setsockopt        exact  25 22
cgroup/dev               exact  15  6
struct_ops               longer 27  -
struct_ops.s             longer 27  - sleepable
sk_lookup                exact  30 36
netfilter                exact  32 45
"""

ROWS = {name: (form, *said) for name, form, *said in map(str.split, TABLE.strip().split("\n"))}


def kind_of(name):
    """The kind of a row's own name."""
    _, number, attach_type, *words = ROWS[name]
    attach_type = "None" if attach_type == "-" else f"Some({attach_type})"
    return " ".join(["type", number, "attach", attach_type, *words])


def with_target(name, target):
    """The kind of a row's name with a slash and a target behind it, which may be a row of its own."""
    longer = f"{name}/{target}"
    if longer in ROWS:
        return longer, kind_of(longer)
    return longer, kind_of(name) if ROWS[name][0] == "longer" else "none"


def loaded(name):
    """The kind of any name: that of its own row, or of the longest one that takes a target behind a slash."""
    rest = name.removeprefix("?")
    own = [rest] if rest in ROWS else [row for row in ROWS if ROWS[row][0] == "longer" and rest.startswith(f"{row}/")]
    if not own:
        return "none"
    return kind_of(max(own, key=len)) + (" optional" if rest != name else "")


def neighbours(name):
    """Names that differ by one byte or by a target."""
    yield name, kind_of(name)
    yield f"?{name}", f"{kind_of(name)} optional"
    yield f"??{name}", "none"
    for other in [name[:-1], f"{name}x", f"/{name}", name.upper()]:
        yield other, kind_of(other) if other in ROWS else "none"
    for target in ["", "x", "x/y"]:
        yield with_target(name, target)


def cases():
    assert len(ROWS) == 101
    asked = dict(row for name in ROWS for row in neighbours(name))
    others = ["", "?", "/", "?/", "license", ".text", "maps", "socket1", "xdp/", "struct_ops.t/x", "cgroup", "cgroup/", "tc/", "tcx"]
    longer = {
        "kprobe/do_exit": kind_of("kprobe"),
        "?kprobe/do_exit": f"{kind_of('kprobe')} optional",
        "kprobe.multi/tcp_*": kind_of("kprobe.multi"),
        "fentry.s/bpf_fentry_test1": kind_of("fentry.s"),
        "struct_ops/x": kind_of("struct_ops"),
        "usdt/libc.so.6:libc:setjmp": kind_of("usdt"),
        "xdp/prog": "none",
        "xdp/cpumap/x": "none",
        "sk_skb/x": "none",
    }
    return [
        Case("how programs are loaded", {}, {f"loaded {name}": kind for name, kind in asked.items()}),
        Case("how programs with targets are loaded", {}, {f"loaded {name}": kind for name, kind in longer.items()}),
        Case("names that loaders don't know", {}, {f"loaded {name}": "none" for name in others}),
    ]

// Values of the kernel's configuration: of a number, a bool, a tristate and a string, ones that have to be known and weak
// ones, and what loaders know of the kernel.
#include "own.h"

enum libbpf_tristate { TRI_NO, TRI_YES, TRI_MODULE };

extern u32 CONFIG_HZ IN(".kconfig");
extern _Bool CONFIG_BPF_SYSCALL IN(".kconfig");
extern enum libbpf_tristate CONFIG_NET IN(".kconfig") WEAK;
extern u64 CONFIG_NO_SUCH_OPTION IN(".kconfig") WEAK;
extern char CONFIG_LOCALVERSION[8] IN(".kconfig") WEAK;
extern u32 LINUX_KERNEL_VERSION IN(".kconfig");
extern _Bool LINUX_HAS_BPF_COOKIE IN(".kconfig");
extern _Bool LINUX_HAS_SYSCALL_WRAPPER IN(".kconfig");

struct values {
	u32 hz;
	u32 version;
	u64 no_such_option;
	u32 net;
	u8 bpf_syscall;
	u8 has_cookie;
	u8 has_wrapper;
	u8 local_version;
};

struct {
	NUMBER(type, ARRAY);
	NUMBER(max_entries, 1);
	TYPE(key, u32);
	TYPE(value, struct values);
} values SEC(".maps");

SEC("tc")
int read_configuration(struct __sk_buff *packet)
{
	u32 key = 0;
	struct values *to = map_lookup_elem(&values, &key);

	if (!to)
		return 1;
	to->hz = CONFIG_HZ;
	to->version = LINUX_KERNEL_VERSION;
	to->no_such_option = CONFIG_NO_SUCH_OPTION;
	to->net = CONFIG_NET;
	to->bpf_syscall = CONFIG_BPF_SYSCALL;
	to->has_cookie = LINUX_HAS_BPF_COOKIE;
	to->has_wrapper = LINUX_HAS_SYSCALL_WRAPPER;
	to->local_version = CONFIG_LOCALVERSION[0];
	return 0;
}

char own_license[] SEC("license") = "GPL";

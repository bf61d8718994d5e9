// Values of enumerations.
#include "words.h"

enum cpuhp_state___a {
	CPUHP_INVALID = -7,
	CPUHP_OFFLINE = 4,
	CPUHP_ONLINE = 5,
	CPUHP_NO_SUCH = 6,
};
enum perf_event_state {
	PERF_EVENT_STATE_DEAD = 1,
	PERF_EVENT_STATE_ERROR = 2,
	PERF_EVENT_STATE_ACTIVE = 3,
};
enum bpf_map_type___v9 {
	BPF_MAP_TYPE_ARRAY___v9 = 99,
	BPF_MAP_TYPE_RINGBUF = 98,
	BPF_MAP_TYPE_NO_SUCH = 97,
};
enum no_such_enum { NO_SUCH_A, NO_SUCH_B };
enum init_ns_ino { IPC_NS_INIT_INO = 1, UTS_NS_INIT_INO = 2 };
enum mm_cid_state { MM_CID_UNSET = 3, MM_CID_LAZY_PUT = 4 };
enum perf_callchain_context { PERF_CONTEXT_HV = 1, PERF_CONTEXT_USER = 2 };
enum blake2b_iv { BLAKE2B_IV0 = 5, BLAKE2B_IV1 = 6 };

SEC("raw_tp/sys_enter")
int values(void *context)
{
	long x = 0;

	HAS_VALUE(cpuhp_state___a, CPUHP_INVALID);
	VALUE(cpuhp_state___a, CPUHP_INVALID);
	HAS_VALUE(cpuhp_state___a, CPUHP_OFFLINE);
	VALUE(cpuhp_state___a, CPUHP_OFFLINE);
	VALUE(cpuhp_state___a, CPUHP_ONLINE);
	HAS_VALUE(cpuhp_state___a, CPUHP_NO_SUCH);
	VALUE(cpuhp_state___a, CPUHP_NO_SUCH);
	HAS_VALUE(perf_event_state, PERF_EVENT_STATE_DEAD);
	VALUE(perf_event_state, PERF_EVENT_STATE_DEAD);
	VALUE(perf_event_state, PERF_EVENT_STATE_ERROR);
	VALUE(perf_event_state, PERF_EVENT_STATE_ACTIVE);
	HAS_VALUE(bpf_map_type___v9, BPF_MAP_TYPE_ARRAY___v9);
	VALUE(bpf_map_type___v9, BPF_MAP_TYPE_ARRAY___v9);
	VALUE(bpf_map_type___v9, BPF_MAP_TYPE_RINGBUF);
	HAS_VALUE(bpf_map_type___v9, BPF_MAP_TYPE_NO_SUCH);
	VALUE(bpf_map_type___v9, BPF_MAP_TYPE_NO_SUCH);
	HAS_VALUE(no_such_enum, NO_SUCH_A);
	VALUE(no_such_enum, NO_SUCH_B);
	return x;
}

// Values of 2^31 and more in an ENUM without sign: the upper half is 0. libbpf 1.1 extends the sign.
SEC("raw_tp/sys_enter")
int large_values(void *context)
{
	long x = 0;

	VALUE(init_ns_ino, IPC_NS_INIT_INO);
	VALUE(init_ns_ino, UTS_NS_INIT_INO);
	VALUE(mm_cid_state, MM_CID_UNSET);
	HAS_VALUE(mm_cid_state, MM_CID_LAZY_PUT);
	VALUE(mm_cid_state, MM_CID_LAZY_PUT);
	return x;
}

// The kernel's are of kind ENUM64 and no candidates for an ENUM. To libbpf 1.1 they are.
SEC("raw_tp/sys_enter")
int wide_values(void *context)
{
	long x = 0;

	HAS_VALUE(perf_callchain_context, PERF_CONTEXT_HV);
	VALUE(perf_callchain_context, PERF_CONTEXT_HV);
	VALUE(perf_callchain_context, PERF_CONTEXT_USER);
	HAS_VALUE(blake2b_iv, BLAKE2B_IV1);
	VALUE(blake2b_iv, BLAKE2B_IV0);
	TYPE_EXISTS(enum blake2b_iv);
	return x;
}

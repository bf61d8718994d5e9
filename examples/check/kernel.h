// What both kernels have. Each is compiled for its type information alone.

enum bpf_func_id {
	BPF_FUNC_unspec = 0,
	BPF_FUNC_map_lookup_elem = 1,
	BPF_FUNC_get_current_task = 35,
	BPF_FUNC_probe_read_kernel = 113,
	__BPF_FUNC_MAX_ID = 212,
} func_id;

enum bpf_map_type {
	BPF_MAP_TYPE_UNSPEC = 0,
	BPF_MAP_TYPE_HASH = 1,
	BPF_MAP_TYPE_ARRAY = 2,
	__MAX_BPF_MAP_TYPE = 34,
} map_type;

typedef void (*btf_trace_sched_switch)(void *, int);
btf_trace_sched_switch sched_switch;

int shrink_node(void *node)
{
	return !node;
}

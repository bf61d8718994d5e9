"""The types of keys and values that maps are created with (libbpf: bpf_object__create_map)."""

# The types of maps that the kernel creates without: PERF_EVENT_ARRAY, STACK_TRACE, CGROUP_ARRAY, ARRAY_OF_MAPS,
# HASH_OF_MAPS, DEVMAP, SOCKMAP, CPUMAP, XSKMAP, SOCKHASH, QUEUE, STACK, DEVMAP_HASH and ARENA.
UNTYPED = {4, 7, 8, 12, 13, 14, 15, 16, 17, 18, 22, 23, 25, 33}

# STRUCT_OPS, whose value has a type of the kernel.
STRUCT_OPS = 26


def created_with(kind, key_id, value_id):
    """What a map of a type takes of the ids that its definition states."""
    if kind in UNTYPED:
        return 0, 0
    return key_id, 0 if kind == STRUCT_OPS else value_id

"""`ebpf btf` and the outcomes over the types that it writes."""

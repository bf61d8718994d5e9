"""What `ebpf check` has to print of objects and kernels' types that are made here."""

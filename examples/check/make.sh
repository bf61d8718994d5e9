#!/bin/sh
# Makes memdrop.o and the two kernels' types in btf/ of the sources beside them, with clang and the tools of LLVM 14, and
# copies them to crates/ebpf/data, on which the gate runs the program.
set -e
cd "$(dirname "$0")"
made() {
    clang -target bpf -O2 -g -fdebug-compilation-dir=. -c "$1" -o "$2"
}
made memdrop.bpf.c memdrop.o
llvm-strip -g memdrop.o
for kernel in 5_18 6_18; do
    made kernel_$kernel.c kernel.o
    llvm-objcopy --dump-section .BTF=btf/"$(echo $kernel | tr _ .)" kernel.o
    rm kernel.o
done
cp memdrop.o btf/5.18 btf/6.18 ../../crates/ebpf/data/

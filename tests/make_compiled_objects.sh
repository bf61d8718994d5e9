#!/bin/sh
# Makes counter.o and references.o of tests/drivers/test_rows/data, which make_rows.py reads, and watch.o and kernel.btf of
# crates/example_library/data, of the sources beside them, with clang and the tools of LLVM 14; and kernel_parts_14.o and
# kernel_parts_19.o of objects/, which fuzz.py damages, of kernel_parts.c with those of LLVM 14 and of LLVM 19.
set -e
cd "$(dirname "$0")/.."
made() {
    (cd "$1" && clang -target bpf -O2 -g -fdebug-compilation-dir=. -c "$2.c" -o "$2.o")
}
rows=tests/drivers/test_rows/data
library=crates/example_library/data
for name in $rows/counter $rows/references $library/watch; do
    made "$(dirname $name)" "$(basename $name)"
    llvm-strip -g $name.o
done
made $library kernel
llvm-objcopy --dump-section .BTF=$library/kernel.btf $library/kernel.o
rm $library/kernel.o
cd tests/objects
for version in 14 19; do
    clang-$version -target bpf -O2 -g -fdebug-compilation-dir=. -c kernel_parts.c -o kernel_parts_$version.o
    llvm-strip-$version -g kernel_parts_$version.o
done

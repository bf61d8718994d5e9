#!/usr/bin/env bash
# Builds examples/out/libebpf.a: the proved static library, the functions by which it takes memory, and the layer in C (c/).
# On it the test programs of c_interface/ and the examples, with gcc and clang; runs them, under the address and
# undefined-behaviour sanitizers too, and with each allocation failing; builds and tests the crates where Rust is there,
# tests the module for Python, and runs the code of docs/C.md and the C of README.md; loads examples/counter.bpf.c into
# the running kernel where that is allowed.
# Ends with 'N passed, M failed'.
# usage: c_interface.sh [--no-kernel | --build]      --build: makes libebpf.a and runs nothing
set -euo pipefail
cd "$(dirname "$0")/.."
crate=crates/capi_exports
archive=$crate/out/libcapi_exports.a
if [ ! -e $archive ] || [ -n "$(find crates/*/src -name '*.rt' -newer $archive -print -quit)" ]; then
    python3 -B tests/c_interface/archive.py
fi
mkdir -p examples/out
kit=$(dirname "$(rt doc)")
compiler=${CC:-cc}
layer=
for source in c/*.c; do
    object=examples/out/$(basename "$source" .c).o
    "$compiler" -std=c11 -O2 -fPIC -Wall -Wextra -Iinclude -c "$source" -o "$object"
    layer+="ADDMOD $object"$'\n'
done
"${AR:-ar}" -M <<END
CREATE examples/out/libebpf.a
ADDLIB $archive
ADDLIB $kit/c/liblibc_c.a
${layer}SAVE
END
if [ "${1:-}" = --build ]; then
    exit
fi
folder=$(mktemp -d)
trap 'rm -rf "$folder"' EXIT
"$compiler" -O2 -Wall -shared -fPIC -o "$folder/refused_growths.so" tests/refused_growths.c
library=$PWD/examples/out/libebpf.a
cd tests
python3 -B -m c_interface "$folder" "$library" "$@"

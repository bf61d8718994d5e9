#!/usr/bin/env bash
# Builds examples/loader over examples/out/libebpf.a by gcc and clang and with the sanitizers, compiles the objects of
# loader/objects with clang, and loads and runs their programs in the running kernel: what they return and what maps hold has
# to be what loader/cases.py says, and what programs are attached to has to be what the kernel's types say. Ends with
# 'N passed, M failed'. Where there is no clang or bpf(2) isn't allowed, it says so and what it left out, and that is no failure.
# usage: loader.sh
set -euo pipefail
cd "$(dirname "$0")/.."
if [ ! -e examples/out/libebpf.a ]; then
    tests/c_interface.sh --build
fi
library=$PWD/examples/out/libebpf.a
folder=$(mktemp -d)
trap 'rm -rf "$folder"' EXIT
cd tests
python3 -B -m loader "$library" "$folder"

#!/usr/bin/env bash
# Makes a new repository, has tools/vendor.sh copy the library into it, twice, and runs the README's program there without a
# proof. Ends with 'N passed, M failed'.
# usage: vendored.sh
set -euo pipefail
top=$(cd "$(dirname "$0")/.." && pwd)
room=$(mktemp -d)
trap 'rm -rf "$room"' EXIT
git init -q "$room"
printf 'mine: ebpf_object\n' >"$room/crates.txt"
mkdir -p "$room/crates/mine"
cp -r "$top/crates/example_prepare/src" "$top/crates/example_prepare/data" "$room/crates/mine"
"$top/tools/vendor.sh" "$room" >/dev/null
cp "$room/crates.txt" "$room/once.txt"
"$top/tools/vendor.sh" "$room" >/dev/null
passed=0 failed=0
judge() {
    if [ "$2" = "$3" ]; then
        passed=$((passed + 1))
    else
        failed=$((failed + 1))
        printf '%s: wanted %s, given %s\n' "$1" "$3" "$2"
    fi
}
judge 'crates.txt after a second copy' "$(cat "$room/crates.txt")" "$(cat "$room/once.txt")"
judge 'the program' "$(cd "$room/crates/mine" && rt try -- data/call.o 2>/dev/null)" "$(cat "$top/crates/example_prepare/stdout")"
echo "$passed passed, $failed failed"
[ "$failed" = 0 ]

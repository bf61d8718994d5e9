#!/usr/bin/env bash
# Lets each allocation fail in turn: of each public call that allocates, in tests/drivers/test_alloc_failures, and of the
# programs over their whole run. The programs have to be built (`rt ci` leaves them in crates/*/out). What is asked
# of each run stands in growths/. Ends with 'N passed, M failed'.
# usage: refused_growths.sh [-v] [WORD..]     -v prints each row; WORD: only rows whose name has it
set -euo pipefail
cd "$(dirname "$0")"
compiler=${CC:-cc}
if ! command -v "$compiler" >/dev/null; then
    echo "refused_growths.sh: no C compiler ($compiler): nothing was run" >&2
    exit 1
fi
folder=$(mktemp -d)
trap 'rm -rf "$folder"' EXIT
"$compiler" -O2 -Wall -shared -fPIC -o "$folder/refused_growths.so" refused_growths.c
python3 -B refused_growths.py "$folder" "$@"

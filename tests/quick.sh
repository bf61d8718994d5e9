#!/usr/bin/env bash
# Runs every test case without a proof, and compares its output with the expected one. A run stops at an index out of range,
# a sum that wraps or a failed unwrap. Also checks that each mutant applies. Ends with 'N passed, M failed'.
# usage: quick.sh [--jobs N] [CRATE..]      N: parts that run at once; CRATE: only the test cases of these crates and drivers
set -euo pipefail
exec python3 -B "$(dirname "$0")/quick.py" "$@"

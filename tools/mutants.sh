#!/usr/bin/env bash
# Tries the mutants that changed since the prover last refused them, and keeps in tests/mutants.tsv which it refuses:
# mutants.py says how.
# usage: mutants.sh [--gate] [--all] [--list] [--plan] [--jobs N] [--crates N] [NAME..]
set -euo pipefail
exec python3 -B "$(dirname "$0")/mutants.py" "$@"

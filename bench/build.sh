#!/usr/bin/env bash
# Proves and builds a driver, with the crates that it stands on, in a repository of its own, and prints the program's path.
# The first time takes as long as the proofs of these crates, an hour or so of a processor; again, only changed crates are
# proved.
# usage: build.sh FOLDER [DRIVER]      FOLDER: where the repository is, or is made; DRIVER: bench_prepare, if none is named
set -euo pipefail
if [ $# -lt 1 ] || [ $# -gt 2 ]; then
    echo "usage: build.sh FOLDER [DRIVER]" >&2
    exit 2
fi
cd "$(dirname "$0")/.."
driver=${2:-bench_prepare}
mkdir -p "$1"
folder=$(cd "$1" && pwd)
python3 -B - "$folder" "$driver" <<'END'
import sys
from pathlib import Path

sys.path.append("tests")
from driver_crates import make_repository

make_repository(Path(sys.argv[1]), [sys.argv[2]])
END
cd "$folder/crates/$driver"
rm -f "out/$driver"
# Without words it prints its usage, with another status than 0.
rt run >&2 || true
if [ ! -x "out/$driver" ]; then
    echo "build.sh: $driver was not built" >&2
    exit 1
fi
echo "$PWD/out/$driver"

#!/usr/bin/env bash
# Proves and builds the programs and the library for C where they are not built, or are older than a source. It says how
# long that takes, then which crate it proves. rt keeps what is proved: after an interruption the same command goes on.
# usage: build.sh [--time]      --time: says how long it takes, and builds nothing
set -euo pipefail
top=$(cd "$(dirname "$0")/.." && pwd)
# shellcheck source=tools/crates.sh
. "$top/tools/crates.sh"
# Seconds for 1,000 lines of Rattle in src/, of a crate that is proved from nothing on four processors.
readonly PACE=100

stop() {
    echo "build.sh: $*" >&2
    exit 1
}

# Prints the file that a crate is built for.
product() {
    if [ "$1" = capi_exports ]; then
        echo "$top/examples/out/libebpf.a"
    else
        echo "$top/crates/$1/out/$1"
    fi
}

# Prints the crates whose product is not there, or older than a source of it.
lacking() {
    local crate below
    for crate in ebpf ebpf_link cli_inspect_program capi_exports; do
        mapfile -t below < <(closure "$top" "$crate")
        is_current "$top" "$(product "$crate")" "${below[@]}" || echo "$crate"
    done
}

# Prints the minutes that crates take, without those whose library rt has kept.
# usage: minutes CRATE ..
minutes() {
    local crate lines=0
    for crate; do
        if [ ! -e "$top/crates/$crate/out/rlib/stamp" ]; then
            lines=$((lines + $(find "$top/crates/$crate/src" -name '*.rt' -exec cat '{}' + | wc -l)))
        fi
    done
    echo $((lines * PACE / 60000 + 1))
}

# Proves a crate, and builds what it is for.
build() {
    case $1 in
    capi_exports) "$top/tests/c_interface.sh" --build ;;
    ebpf | ebpf_link | cli_inspect_program)
        # rt run ends with the program's own status: the stamp says whether it was proved and built
        (cd "$top/crates/$1" && rt run -- --version </dev/null) || [ -e "$top/crates/$1/out/$1.stamp" ]
        ;;
    *) (cd "$top/crates/$1" && rt lib) ;;
    esac
}

if [ $# -gt 1 ] || { [ $# = 1 ] && [ "$1" != --time ]; }; then
    usage_of "$0" >&2
    exit 2
fi
mapfile -t wanted < <(lacking)
if [ ${#wanted[@]} = 0 ]; then
    exit
fi
mapfile -t crates < <(closure "$top" "${wanted[@]}")
command -v rt >/dev/null || stop "${wanted[*]} are not built, and there is no rt to prove them: take a release"
time=$(minutes "${crates[@]}")
echo "build.sh: ${#crates[@]} crates to prove, about $time min on four processors; it may be interrupted"
if [ $# = 1 ]; then
    exit
fi
log=$(mktemp)
trap 'rm -f "$log"' EXIT
# a crate that is being proved has standard error in the log
exec 3>&2
trap 'echo >&3; echo "build.sh: interrupted; the same command goes on from here" >&3; exit 130' INT TERM
number=0
for crate in "${crates[@]}"; do
    number=$((number + 1))
    printf '[%d/%d] %s ..' "$number" "${#crates[@]}" "$crate"
    began=$SECONDS
    if ! build "$crate" >"$log" 2>&1; then
        echo ' failed'
        tail -n 20 "$log" >&2
        stop "$crate is not proved or not built: its last lines are above"
    fi
    echo " $((SECONDS - began)) s"
done

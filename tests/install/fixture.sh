# shellcheck shell=bash disable=SC2154
# A small repository with the scripts of this one, a kit for the stand-in for rt, and what tests/install.sh counts. $top
# is this repository, $room a folder for the test.
passed=0 failed=0

# Counts whether two texts are the same.
# usage: judge NAME FOUND WANTED
judge() {
    if [ "$2" = "$3" ]; then
        passed=$((passed + 1))
    else
        failed=$((failed + 1))
        printf '%s: wanted %s, found %s\n' "$1" "$3" "$2"
    fi
}

# Counts whether a command ends with a status. Its output is in $room/said.
# usage: ends NAME STATUS COMMAND ..
ends() {
    local name=$1 wanted=$2 status=0
    shift 2
    "$@" >"$room/said" 2>&1 || status=$?
    judge "$name" "$status" "$wanted"
    [ "$status" = "$wanted" ] || cat "$room/said"
}

# Prints the sum of a tree: its files, links, modes and contents.
sum_of() {
    (cd "$1" && find . -mindepth 1 -printf '%P %y %m %l\n' | LC_ALL=C sort &&
        find . -type f -print0 | LC_ALL=C sort -z | xargs -0r md5sum)
}

# Makes a crate. A name that begins with 'ebpf' is that of a program, but for capi_exports.
# usage: make_crate REPOSITORY NAME
make_crate() {
    local folder=$1/crates/$2 root=lib.rt
    case $2 in ebpf | ebpf_link | cli_inspect_program) root=main.rt ;; esac
    mkdir -p "$folder/src" "$folder/proofs"
    echo "//! The crate $2." >"$folder/src/$root"
    echo "-- of $2" >"$folder/proofs/Lib.antt"
}

# Makes a repository of the version $RT_VERSION.
# usage: make_repository FOLDER
make_repository() {
    local crate
    mkdir -p "$1/tests/c_interface" "$1/crates/capi_exports/src" "$1/crates/ebpf/src" "$1/examples/loader" "$1/examples/check"
    cp -r "$top"/{tools,share,include,c,LICENSE,HANDLES} "$1"
    cp "$top/tests/c_interface.sh" "$1/tests"
    cp "$top/tests/c_interface/archive.py" "$1/tests/c_interface"
    cp -r "$top/docs" "$top/README.md" "$1"
    tar -C "$top" --exclude=target -c examples/rust examples/python | tar -C "$1" -x
    echo "int main(void) { return 0; }" >"$1/examples/loader/main.c"
    printf '%s\n' '# base' 'low: byteorder' 'mid: low' 'high: low mid' 'side: low' 'ebpf: high' 'ebpf_link: mid' \
        'cli_inspect_program: mid' 'capi_exports staticlib: core side' >"$1/crates.txt"
    for crate in low mid high side ebpf ebpf_link cli_inspect_program capi_exports; do
        make_crate "$1" $crate
    done
    echo "$RT_VERSION" >"$1/VERSION"
    sed -i "s/EBPF_VERSION_NUMBER [0-9]*/EBPF_VERSION_NUMBER 7008009/; s/this interface, [0-9.]*,/this interface, $RT_VERSION,/" \
        "$1/include/ebpf.h"
    printf '%s\n' "/// The version $RT_VERSION of" 'VERSION_NUMBER: u32 = 7008009;' >"$1/crates/capi_exports/src/version.rt"
    echo "VERSION: &str = \"ebpf $RT_VERSION\"" >"$1/crates/ebpf/src/help.rt"
    sed -i "s/$(<"$top/VERSION")/$RT_VERSION/; s/EBPF_VERSION_NUMBER: u32 = [0-9]*/EBPF_VERSION_NUMBER: u32 = 7008009/" \
        "$1"/examples/rust/{Cargo.{toml,lock},ebpf-object/Cargo.toml,ebpf-sys/{build.rs,README.md,src/numbers.rs}} "$1/examples/python/ebpf.py"
    printf '%s\n' '# Changelog' '' "## [$RT_VERSION] - 2026-01-01" >"$1/CHANGELOG.md"
    find "$1" -name out -prune -exec rm -rf '{}' +
}

# Makes the kit of the stand-in: the archives that the library for C is made of.
make_kit() {
    mkdir -p "$RT_KIT/c"
    touch "$RT_KIT/START-HERE.md" "$RT_KIT/WHAT"
    if command -v gcc >/dev/null; then
        # each proved call, of which one returns what is asked of it
        grep -o '\bexact_ebpf_[a-z_]*(' "$top/c/exact.h" | sort -u | sed 's/($//; s/.*/int &(void) { return 7008009; }/' |
            gcc -c -fPIC -x c -o "$RT_KIT/calls.o" -
        ar rcs "$RT_KIT/calls.a" "$RT_KIT/calls.o"
    else
        ar rcs "$RT_KIT/calls.a"
    fi
    ar rcs "$RT_KIT/c/liblibc_c.a"
}

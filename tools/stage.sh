#!/usr/bin/env bash
# Lays out, in an empty folder, what a prefix gets: bin, lib, include and share. It takes what a checkout has built, and
# builds no program. libebpf.so.1 is made where there is a gcc.
# usage: stage.sh FOLDER
set -euo pipefail
top=$(cd "$(dirname "$0")/.." && pwd)
# shellcheck source=tools/crates.sh
. "$top/tools/crates.sh"
# The pages for those who use the programs and the library for C; those that are there are taken.
readonly PAGES=(CLI C ERRORS BEHAVIOUR API)

# Copies a file, under a name below FOLDER, with the version in the place of @VERSION@ where the name is that of a text.
# usage: put MODE FILE NAME
put() {
    mkdir -p "$folder/$(dirname "$3")"
    sed "s/@VERSION@/$version/g" "$2" >"$folder/$3"
    chmod "$1" "$folder/$3"
}

put_programs() {
    local crate
    mkdir -p "$folder/bin"
    for crate in ebpf ebpf_link cli_inspect_program; do
        local name=${crate/#cli_/ebpf_}
        name=${name%_program}
        install -m 755 "$top/crates/$crate/out/$crate" "$folder/bin/${name//_/-}"
    done
}

put_library() {
    mkdir -p "$folder/lib"
    install -m 644 "$top/examples/out/libebpf.a" "$folder/lib/libebpf.a"
    put 644 "$top/include/ebpf.h" include/ebpf.h
    put 644 "$top/share/ebpf.pc.in" lib/pkgconfig/ebpf.pc
    if command -v gcc >/dev/null; then
        # the calls of the header alone are visible
        echo '{ global: ebpf_*; local: *; };' >"$folder/calls"
        gcc -shared -o "$folder/lib/libebpf.so.1" -Wl,-soname,libebpf.so.1 -Wl,--version-script="$folder/calls" \
            -Wl,--whole-archive "$folder/lib/libebpf.a" -Wl,--no-whole-archive
        chmod 755 "$folder/lib/libebpf.so.1"
        ln -s libebpf.so.1 "$folder/lib/libebpf.so"
        rm "$folder/calls"
    else
        echo 'stage.sh: there is no gcc, so libebpf.so.1 is left out' >&2
    fi
}

put_manual() {
    local page=$top/docs/CLI.md it
    mkdir -p "$folder"/share/man/man{1,3}
    python3 -B "$top/tools/man_page.py" "$version" "$page" >"$folder/share/man/man1/ebpf.1"
    python3 -B "$top/tools/man_page.py" "$version" "$top/include/ebpf.h" >"$folder/share/man/man3/ebpf.3"
    chmod 644 "$folder"/share/man/man?/ebpf.?
    for it in ebpf-link ebpf-inspect; do
        put 644 "$top/share/man/man1/$it.1" "share/man/man1/$it.1"
    done
}

put_completions() {
    local bash=share/bash-completion/completions fish=share/fish/vendor_completions.d it
    put 644 "$top/share/completions/ebpf.bash" "$bash/ebpf"
    put 644 "$top/share/completions/ebpf.fish" "$fish/ebpf.fish"
    put 644 "$top/share/completions/_ebpf" share/zsh/site-functions/_ebpf
    # both shells look for a file of the command's name
    for it in ebpf-link ebpf-inspect; do
        ln -s ebpf "$folder/$bash/$it"
        ln -s ebpf.fish "$folder/$fish/$it.fish"
    done
}

put_documents() {
    local it doc=share/doc/ebpf
    for it in README.md CHANGELOG.md LICENSE; do
        put 644 "$top/$it" "$doc/$it"
    done
    for it in "${PAGES[@]}"; do
        [ ! -e "$top/docs/$it.md" ] || put 644 "$top/docs/$it.md" "$doc/docs/$it.md"
    done
    mkdir -p "$folder/$doc/examples"
    (cd "$top/examples" && find . -name out -prune -o -path './rust' -prune -o -type f \
        -exec install -D -m 644 '{}' "$folder/$doc/examples/{}" ';')
}

if [ $# != 1 ] || [ ! -d "$1" ] || [ -n "$(ls -A "$1")" ]; then
    usage_of "$0" >&2
    exit 2
fi
folder=$(cd "$1" && pwd)
version=$(version_of "$top")
put_programs
put_library
put_manual
put_completions
put_documents

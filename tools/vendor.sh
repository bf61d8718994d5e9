#!/usr/bin/env bash
# Copies crates, with the crates below them, into another repository: their code, definitions and proofs, their lines of
# crates.txt between two marks, and the license. A further call adds crates, brings those of earlier calls up to date,
# and removes what is gone here. It runs in a checkout or in an unpacked ebpf-VERSION-rattle.tar.xz.
#
# The line 'asked for' between the marks has the crates of all calls. To drop one, delete its name there and call again.
#
# usage: vendor.sh DEST [--proved] [CRATE ..]
#   DEST      the folder of a repository
#   CRATE     a crate; without any: those of earlier calls, or ebpf_object
#   --proved  copies the proved libraries too (out/rlib): rt check takes them, and proves none of these crates again.
#             rt ci takes no library of others: it proves each once on a machine
set -euo pipefail
top=$(cd "$(dirname "$0")/.." && pwd)
# shellcheck source=tools/crates.sh
. "$top/tools/crates.sh"
readonly BEGIN='# ebpf-object: begin' END='# ebpf-object: end' ASKED='# asked for:'
changed=0

usage() {
    usage_of "$0" >&2
    exit 2
}

stop() {
    echo "vendor.sh: $*" >&2
    exit 1
}

# Prints the lines between the marks in DEST's crates.txt.
block() {
    sed -n "/^$BEGIN\$/,/^$END\$/p" "$dest/crates.txt"
}

# Prints the lines of DEST's crates.txt that are not between the marks.
own_lines() {
    sed "/^$BEGIN\$/,/^$END\$/d" "$dest/crates.txt"
}

# Prints the crates of earlier calls. An older vendor.sh wrote no line 'asked for': then those that no other line names.
asked_before() {
    if grep -q "^$ASKED" <<<"$(block)"; then
        block | sed -n "s/^$ASKED//p"
    else
        block | awk -F: '/^[^#]/ { split($1, left, " "); names[left[1]]; below = below " " $2 " " }
            END { for (name in names) if (!index(below, " " name " ")) print name }'
    fi
}

# Prints the crates that are wanted now, in the order of crates.txt here: those of earlier calls and those that are
# named.
# usage: wanted_crates CRATE ..
wanted_crates() {
    local crate before all
    before=$(asked_before | tr '\n' ' ')
    all=" $before$* "
    if [ -z "${all// /}" ]; then
        all=' ebpf_object '
    fi
    for crate in $before; do
        is_listed "$top" "$crate" || echo "vendor.sh: there is no crate $crate any more: it is removed" >&2
    done
    for crate in $(listed "$top"); do
        if [[ $all == *" $crate "* ]]; then
            echo "$crate"
        fi
    done
}

# Makes the folders src, specs and proofs of a crate as they are here.
copy_crate() {
    local from=$top/crates/$1 to=$dest/crates/$1 part
    mkdir -p "$to"
    for part in src specs proofs; do
        if [ ! -d "$from/$part" ] && [ ! -e "$to/$part" ]; then
            continue
        fi
        if ! diff -rq "$from/$part" "$to/$part" >/dev/null 2>&1; then
            rm -rf "${to:?}/$part"
            [ ! -d "$from/$part" ] || cp -r "$from/$part" "$to/$part"
            changed=$((changed + 1))
        fi
    done
}

# Removes what this script and rt made of a crate. What else is in its folder stays.
remove_crate() {
    local folder=$dest/crates/$1 part
    for part in src specs proofs out LICENSE; do
        rm -rf "${folder:?}/$part"
    done
    rmdir "$folder" 2>/dev/null || [ ! -d "$folder" ] || echo "vendor.sh: $folder has other files, and stays" >&2
    echo "vendor.sh: $1 is removed: no vendored crate needs it"
}

# Writes DEST's crates.txt: its own lines, then the block.
write_lines() {
    local rest crate
    rest=$(own_lines)
    {
        [ -z "$rest" ] || printf '%s\n' "$rest"
        printf '%s\n' "$BEGIN" "$ASKED ${wanted[*]}"
        for crate in "${crates[@]}"; do
            grep "^${crate}[ :]" "$top/crates.txt"
        done
        echo "$END"
    } >"$dest/crates.txt.new"
    mv "$dest/crates.txt.new" "$dest/crates.txt"
}

# Whether DEST has the very library of a crate that is here, under a stamp.
# usage: has_library CRATE STAMP
has_library() {
    local to=$dest/crates/$1/out/rlib
    [ "$(cat "$to/stamp" 2>/dev/null)" = "$2" ] &&
        cmp -s "$top/crates/$1/out/rlib/$1.rlib/format" "$to/$1.rlib/format"
}

# Removes the stamp of each library in DEST but some. A library fits only those that it was built over, so rt has to
# build anew what was built over others.
# usage: drop_stamps CRATE ..
drop_stamps() {
    local stamp crate
    for stamp in "$dest"/crates/*/out/rlib/stamp; do
        crate=${stamp%/out/rlib/stamp}
        if [[ " $* " != *" ${crate##*/} "* ]]; then
            rm -f "$stamp"
        fi
    done
}

# Copies the proved libraries, each with the stamp by which rt knows the sources that it was proved of.
copy_libraries() {
    local stamps crate stamp to same=() others=()
    stamps=$(python3 -B "$top/tools/proved.py" "$top" "${crates[@]}")
    while read -r crate stamp; do
        if has_library "$crate" "$stamp"; then
            same+=("$crate")
        elif [ -n "$crate" ]; then
            others+=("$crate $stamp")
        fi
    done <<<"$stamps"
    if [ ${#others[@]} -gt 0 ]; then
        drop_stamps "${same[@]}"
    fi
    for it in "${others[@]}"; do
        read -r crate stamp <<<"$it"
        to=$dest/crates/$crate/out/rlib
        rm -rf "$to"
        mkdir -p "$to"
        cp -r --reflink=auto "$top/crates/$crate/out/rlib/$crate.rlib" "$to"
        printf %s "$stamp" >"$to/stamp"
    done
    echo "vendor.sh: ${#others[@]} proved libraries were copied, ${#same[@]} were there, of ${#crates[@]} crates"
    if [ -e "$dest/.git" ] && ! git -C "$dest" check-ignore -q crates/any/out/; then
        echo "vendor.sh: add the line out/ to $dest/.gitignore"
    fi
    python3 -B "$top/tools/proved.py" --taken "$dest" "${crates[@]}" || true
}

# Prints the version here, and the commit where it is known.
name_of_source() {
    local commit=''
    if [ -e "$top/.git" ]; then
        commit=$(git -C "$top" rev-parse HEAD 2>/dev/null || true)
    elif [ -e "$top/KIT" ]; then
        commit=$(sed -n 's/^commit //p' "$top/KIT")
    fi
    echo "$(version_of "$top")${commit:+ (${commit:0:12})}"
}

proved=0 dest='' named=()
for word; do
    case $word in
    --proved) proved=1 ;;
    -*) usage ;;
    *) if [ -z "$dest" ]; then dest=$word; else named+=("$word"); fi ;;
    esac
done
if [ -z "$dest" ] || [ ! -d "$dest" ]; then
    usage
fi
dest=$(cd "$dest" && pwd)
[ "$dest" != "$top" ] || stop 'DEST is the repository that is copied'
for crate in "${named[@]}"; do
    is_listed "$top" "$crate" || stop "crates.txt has no crate $crate"
done
[ -e "$dest/crates.txt" ] || touch "$dest/crates.txt"
before=$(block | sed -n 's/^\([A-Za-z0-9_]*\)[ :].*/\1/p')
mapfile -t wanted < <(wanted_crates "${named[@]}")
mapfile -t crates < <(closure "$top" "${wanted[@]}")
for crate in "${crates[@]}"; do
    if grep -q "^${crate}[ :]" <<<"$(own_lines)"; then
        stop "$dest/crates.txt has a crate $crate of its own"
    fi
done
for crate in "${crates[@]}"; do
    copy_crate "$crate"
done
write_lines
for crate in $before; do
    if [[ " ${crates[*]} " != *" $crate "* ]]; then
        remove_crate "$crate"
    fi
done
for crate in "${wanted[@]}"; do
    cp "$top/LICENSE" "$dest/crates/$crate/LICENSE"
done
source=$(name_of_source)
echo "vendor.sh: ${#crates[@]} crates of $source in $dest/crates, $changed of their folders were new or changed;"
list=${wanted[*]}
echo "list '${list// /\' or \'}' behind your own crate's name in $dest/crates.txt"
if [ "$proved" = 1 ]; then
    copy_libraries
fi

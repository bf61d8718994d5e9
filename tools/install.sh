#!/usr/bin/env bash
# Installs the programs ebpf, ebpf-link and ebpf-inspect, the library for C, manual pages, completions and documents
# below PREFIX. An unpacked ebpf-VERSION-x86_64-linux.tar.xz has this script at its top: it copies, in a second. In a
# checkout it copies what is built and no older than its sources. It proves and builds the rest first, which takes hours
# from nothing; where that is interrupted, the same command goes on from there. Below a PREFIX of one's own it needs no
# root.
#
# PREFIX/share/ebpf/installed lists the files, for --uninstall and for the next version. DESTDIR, where it is set,
# stands before PREFIX, for packages.
#
# usage: install.sh PREFIX [--uninstall]
set -euo pipefail
here=$(cd "$(dirname "$0")" && pwd)
readonly LIST=share/ebpf/installed

usage() {
    awk '!/^#/ { if (on) exit } /^# usage:/ { on = 1 } on { sub(/^# ?/, ""); print }' "$0" >&2
    exit 2
}

stop() {
    echo "install.sh: $*" >&2
    exit 1
}

# Prints the files and links of a tree.
files_of() {
    (cd "$1" && find bin lib include share \( -type f -o -type l \) 2>/dev/null | LC_ALL=C sort)
}

# Prints the lines of the list that is there, files or folders (these end in '/').
listed_files() { [ ! -e "$root/$LIST" ] || sed -n '/^\//d; /\.\.\//d; /\/$/!p' "$root/$LIST"; }
listed_folders() { [ ! -e "$root/$LIST" ] || sed -n '/^\//d; /\.\.\//d; /\/$/p' "$root/$LIST"; }

# Prints the folders that some files need and that are not there, from PREFIX ('./') down.
# usage: lacking_folders < FILES
lacking_folders() {
    local path
    [ -d "$root" ] || echo ./
    while read -r path; do
        while [[ $path == */* ]]; do
            path=${path%/*}
            [ -d "$root/$path" ] || echo "$path/"
        done
    done | LC_ALL=C sort -u
}

# Copies one file or link over what is there.
# usage: put TREE PATH
put() {
    local mode=644
    mkdir -p "$root/$(dirname "$2")"
    if [ -L "$1/$2" ]; then
        ln -sfn "$(readlink "$1/$2")" "$root/$2"
    else
        [ ! -x "$1/$2" ] || mode=755
        install -m $mode "$1/$2" "$root/$2"
    fi
}

# Copies a tree to PREFIX. The list is written first, so that --uninstall also removes what was cut off.
install_tree() {
    local tree=$1 files before folders path
    files=$(files_of "$tree"; echo $LIST)
    before=$(listed_files)
    folders=$(listed_folders; lacking_folders <<<"$files")
    mkdir -p "$root/${LIST%/*}"
    LC_ALL=C sort -u <<<"$files"$'\n'"$before"$'\n'"$folders" | sed '/^$/d' >"$root/$LIST.new"
    mv "$root/$LIST.new" "$root/$LIST"
    while read -r path; do
        [ "$path" = $LIST ] || put "$tree" "$path"
    done <<<"$files"
    while read -r path; do
        [ -z "$path" ] || grep -qxF -- "$path" <<<"$files" || rm -f "$root/$path"
    done <<<"$before"
    LC_ALL=C sort -u <<<"$files"$'\n'"$folders" | sed '/^$/d' >"$root/$LIST.new"
    mv "$root/$LIST.new" "$root/$LIST"
    echo "install.sh: $(wc -l <<<"$files") files are below $root"
    case :${PATH:-}: in
    *":$prefix/bin:"*) ;;
    *) [ -n "${DESTDIR:-}" ] || echo "install.sh: add $prefix/bin to PATH" ;;
    esac
}

# Removes the listed files, and of the folders that were made those that are empty.
uninstall() {
    local files folders path
    [ -e "$root/$LIST" ] || stop "there is no $root/$LIST: nothing was installed there"
    files=$(listed_files)
    folders=$(listed_folders | LC_ALL=C sort -r)
    while read -r path; do
        rm -f "$root/$path"
    done <<<"$files"
    while read -r path; do
        [ -z "$path" ] || rmdir "$root/${path#./}" 2>/dev/null || true
    done <<<"$folders"
    echo "install.sh: $(wc -l <<<"$files") files below $root are removed"
}

uninstalls=0 prefix=''
for word; do
    case $word in
    --uninstall) uninstalls=1 ;;
    -* | '') usage ;;
    *) [ -z "$prefix" ] || usage; prefix=$word ;;
    esac
done
[ -n "$prefix" ] || usage
[[ $prefix == /* ]] || prefix=$PWD/$prefix
[ "$prefix" = / ] || prefix=${prefix%/}
root=${DESTDIR:-}$prefix
if [ $uninstalls = 1 ]; then
    uninstall
elif [ -e "$here/bin/ebpf" ]; then
    install_tree "$here"
else
    "$here/build.sh"
    tree=$(mktemp -d)
    trap 'rm -rf "$tree"' EXIT
    "$here/stage.sh" "$tree"
    install_tree "$tree"
fi

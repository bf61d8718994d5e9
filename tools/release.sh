#!/usr/bin/env bash
# Makes the archives of a release in dist/, from a checkout whose programs and libraries are proved and built:
#
#   ebpf-VERSION-x86_64-linux.tar.xz  what a prefix gets, with install.sh
#   ebpf-VERSION-rattle.tar.xz        sources and proved libraries for Rattle, with vendor.sh. KIT in it names the
#                                     toolchain and the logic that they are proved with
#   ebpf_VERSION_amd64.deb            with --deb: a Debian package of the first
#
# The same input gives the same bytes. Times in the archives are SOURCE_DATE_EPOCH, or the commit's. The archives of a
# checkout whose versions differ, or one of whose libraries isn't proved, are not made.
#
# usage: release.sh [--deb] [--trial] [CRATE ..]
#   CRATE    a library for Rattle, with those below it; without any: those of crates.txt under the heading `library`
#   --trial  makes what can be made: versions may differ, and libraries that aren't proved are left out
set -euo pipefail
top=$(cd "$(dirname "$0")/.." && pwd)
# shellcheck source=tools/crates.sh
. "$top/tools/crates.sh"
umask 022
# What a reader of the sources needs beside them.
readonly FILES=(README.md CHANGELOG.md LICENSE VERSION HANDLES docs/{LIBRARY,API,ERRORS,BEHAVIOUR,PROOFS,DEFINITIONS}.md
    tools/{vendor.sh,crates.sh,proved.py})
readonly BUILT=(crates/ebpf/out/ebpf crates/ebpf_link/out/ebpf_link crates/cli_inspect_program/out/cli_inspect_program
    examples/out/libebpf.a)

# Where a Debian package has the library for C.
readonly LIBRARIES=lib/x86_64-linux-gnu

stop() {
    echo "release.sh: $*" >&2
    exit 1
}

# Packs a folder of the room into dist/NAME.tar.xz. Blocks of one size, always by four threads, give the same bytes anywhere.
# usage: pack NAME
pack() {
    local made=$dist/$1.tar.xz
    tar -C "$room" --sort=name --format=gnu --mtime="@$time" --owner=0 --group=0 --numeric-owner --mode=u=rwX,go=rX \
        -c "$1" | xz -6 -T4 --block-size=64MiB >"$made.new"
    mv "$made.new" "$made"
    echo "release.sh: $made: $(stat -c %s "$made") bytes, $(du -sb --apparent-size "$room/$1" | cut -f1) unpacked"
}

# Lays out and packs what a prefix gets.
binary_archive() {
    local name=ebpf-$version-x86_64-linux
    mkdir "$room/$name"
    "$top/tools/stage.sh" "$room/$name"
    install -m 755 "$top/tools/install.sh" "$room/$name/install.sh"
    "$top/tools/versions.py" "$room/$name" || [ "$trial" = 1 ] || stop 'the versions differ'
    pack "$name"
}

# Prints the toolchain and the logic of the proofs.
# usage: kit_of CRATE
kit_of() {
    rt version | sed 's/^/kit /'
    sed 's/^/kit-/' "$(dirname "$(rt doc)")/WHAT"
    grep -aE '^(rattle-build|logic) ' "$top/crates/$1/out/rlib/$1.rlib/format"
    echo "commit $(git -C "$top" rev-parse HEAD 2>/dev/null || echo unknown)"
}

# Copies a crate with its proved library, under the stamp by which rt knows its sources.
# usage: put_crate FOLDER CRATE STAMP
put_crate() {
    local from=$top/crates/$2 to=$1/crates/$2 part
    mkdir -p "$to/out/rlib"
    for part in src specs proofs; do
        [ ! -d "$from/$part" ] || cp -r "$from/$part" "$to/$part"
    done
    cp -r --reflink=auto "$from/out/rlib/$2.rlib" "$to/out/rlib"
    printf %s "$3" >"$to/out/rlib/stamp"
}

# Lays out and packs the sources and the proved libraries.
rattle_archive() {
    local name=ebpf-$version-rattle crates stamps crate stamp file folder
    folder=$room/$name
    mapfile -t crates < <(closure "$top" "$@")
    stamps=$(python3 -B "$top/tools/proved.py" "$top" "${crates[@]}")
    if [ "$(grep -c . <<<"$stamps" || true)" != ${#crates[@]} ] && [ "$trial" = 0 ]; then
        stop 'libraries lack proofs, as the lines above say: run rt ci here first'
    fi
    [ -n "$stamps" ] || stop 'no library is proved'
    mkdir "$folder"
    while read -r crate stamp; do
        put_crate "$folder" "$crate" "$stamp"
        grep "^${crate}[ :]" "$top/crates.txt" >>"$folder/crates.txt"
    done <<<"$stamps"
    for file in "${FILES[@]}"; do
        [ ! -e "$top/$file" ] || install -D -m 644 "$top/$file" "$folder/$file"
    done
    chmod 755 "$folder"/tools/{vendor.sh,proved.py}
    kit_of "$(head -n 1 <<<"$stamps" | cut -d' ' -f1)" >"$folder/KIT"
    pack "$name"
}

# Prints the oldest version of the C library that has all symbols that programs use.
# usage: libc_of PROGRAM ..
libc_of() {
    objdump -T "$@" | sed -n 's/.*GLIBC_\([0-9.]*\).*/\1/p' | sort -V | tail -n 1
}

# Makes a Debian package of what a prefix gets. The shared library stays out: a package of it would bear its version.
debian_package() {
    local tree=$room/deb made=$dist/ebpf_${version}_amd64.deb doc size
    doc=$tree/usr/share/doc/ebpf
    mkdir -p "$tree/DEBIAN" "$tree/usr"
    cp -r "$room/ebpf-$version-x86_64-linux"/{bin,lib,include,share} "$tree/usr"
    rm -f "$tree"/usr/lib/libebpf.so*
    mkdir "$tree/usr/$LIBRARIES"
    mv "$tree"/usr/lib/{libebpf.a,pkgconfig} "$tree/usr/$LIBRARIES"
    sed -i 's|^\(prefix=.*\)|\1/..|; s|^\(libdir=.*\)/lib|\1/'"$LIBRARIES"'|' "$tree/usr/$LIBRARIES/pkgconfig/ebpf.pc"
    mkdir "$tree/usr/share/zsh/vendor-completions"
    mv "$tree/usr/share/zsh/site-functions/_ebpf" "$tree/usr/share/zsh/vendor-completions"
    rmdir "$tree/usr/share/zsh/site-functions"
    strip --strip-unneeded --remove-section=.comment "$tree"/usr/bin/*
    strip --strip-debug --enable-deterministic-archives "$tree/usr/$LIBRARIES/libebpf.a"
    printf '%s\n' 'Format: https://www.debian.org/doc/packaging-manuals/copyright-format/1.0/' 'Files: *' \
        'Copyright: 2021-2026 the authors of aya-obj' ' 2025-2026 the authors of ebpf-object' 'License: Apache-2.0' \
        ' On Debian systems the text is in /usr/share/common-licenses/Apache-2.0.' >"$doc/copyright"
    rm "$doc/LICENSE"
    printf '%s\n' "ebpf ($version) unstable; urgency=medium" '' '  * See CHANGELOG.md.' '' \
        " -- $(sed -n 's/^Maintainer: //p' "$top/share/debian-control.in")  $(date -uRd "@$time")" >"$doc/changelog"
    gzip -9n "$doc/changelog" "$doc/CHANGELOG.md" "$tree"/usr/share/man/man*/*.[13]
    install -D -m 644 "$top/share/lintian-overrides" "$tree/usr/share/lintian/overrides/ebpf"
    size=$(du -sk --apparent-size "$tree/usr" | cut -f1)
    sed "s/@VERSION@/$version/; s/@SIZE@/$size/; s/@LIBC@/$(libc_of "$tree"/usr/bin/*)/" "$top/share/debian-control.in" \
        >"$tree/DEBIAN/control"
    (cd "$tree" && find usr -type f | LC_ALL=C sort | xargs -d '\n' md5sum >DEBIAN/md5sums)
    chmod -R u=rwX,go=rX "$tree"
    SOURCE_DATE_EPOCH=$time dpkg-deb --root-owner-group -Zxz -z9 --threads-max=1 -b "$tree" "$made" >/dev/null
    echo "release.sh: $made: $(stat -c %s "$made") bytes"
}

deb=0 trial=0 named=()
for word; do
    case $word in
    --deb) deb=1 ;;
    --trial) trial=1 ;;
    -*)
        usage_of "$0" >&2
        exit 2
        ;;
    *) named+=("$word") ;;
    esac
done
for crate in "${named[@]}"; do
    grep -qx -- "$crate" <<<"$(libraries "$top")" || stop "crates.txt has no library $crate"
done
[ ${#named[@]} -gt 0 ] || mapfile -t named < <(product "$top")
for file in "${BUILT[@]}"; do
    [ -e "$top/$file" ] || stop "$file is not built: run tools/build.sh"
done
if [ "$trial" = 0 ]; then
    late=$("$top/tools/build.sh" --time)
    [ -z "$late" ] || stop 'something is older than its sources: run tools/build.sh'
fi
version=$(version_of "$top")
time=${SOURCE_DATE_EPOCH:-$(git -C "$top" log -1 --format=%ct 2>/dev/null || echo 0)}
dist=$top/dist
mkdir -p "$dist"
room=$(mktemp -d)
trap 'rm -rf "$room"' EXIT
binary_archive
rattle_archive "${named[@]}"
if [ "$deb" = 1 ]; then
    debian_package
fi

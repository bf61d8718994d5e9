#!/usr/bin/env bash
# Tests tools/install.sh, build.sh, stage.sh, release.sh, vendor.sh, proved.py and versions.py on a small repository,
# with a stand-in for rt, so without a proof. Ends with 'N passed, M failed'.
# usage: install.sh
set -euo pipefail
top=$(cd "$(dirname "$0")/.." && pwd)
room=$(mktemp -d)
trap 'rm -rf "$room"' EXIT
export RT_LOG=$room/log RT_KIT=$room/kit RT_VERSION=7.8.9 PATH_BEFORE=$PATH PYTHONDONTWRITEBYTECODE=1
export SOURCE_DATE_EPOCH=1000000000
# shellcheck source=tests/install/fixture.sh
. "$top/tests/install/fixture.sh"

# An install that is cut off installs nothing; the same command goes on from there.
test_interruption() {
    local status=0 installing
    RT_HANGS_AT=high setsid "$repository/tools/install.sh" "$prefix" >"$room/said" 2>&1 &
    installing=$!
    for _ in {1..100}; do
        [ ! -e "$RT_LOG.hangs" ] || break
        sleep 0.1
    done
    kill -TERM -- "-$installing"
    wait $installing || status=$?
    for _ in {1..100}; do
        ! grep -q '^build.sh: interrupted' "$room/said" || break
        sleep 0.1
    done
    judge 'the status of an interrupted install' $status 143
    judge 'what an interrupted install says last' "$(tail -n 1 "$room/said")" \
        'build.sh: interrupted; the same command goes on from here'
    judge 'what an interrupted install says first' "$(head -n 1 "$room/said" | cut -d, -f1)" 'build.sh: 8 crates to prove'
    judge 'how far an interrupted install got' "$(grep '^\[' "$room/said" | tail -n 1)" '[3/8] high ..'
    judge 'a prefix after an interruption' "$([ -e "$prefix" ] && echo there || echo none)" none
    judge 'the crates before the interruption' "$(xargs <"$RT_LOG")" 'low mid'
    ends 'an install after an interruption' 0 "$repository/tools/install.sh" "$prefix"
    judge 'the crates after it' "$(xargs <"$RT_LOG")" 'low mid high side ebpf ebpf_link cli_inspect_program capi_exports'
    touch "$repository/crates/mid/src/lib.rt"
    ends 'the time after a change' 0 "$repository/tools/build.sh" --time
    judge 'what is built then' "$(cut -d, -f1 "$room/said")" 'build.sh: 6 crates to prove'
    find "$repository" -path '*/out/*' -exec touch '{}' +
}

test_installed() {
    local file
    for file in bin/ebpf bin/ebpf-link bin/ebpf-inspect lib/libebpf.a lib/pkgconfig/ebpf.pc include/ebpf.h \
        share/man/man1/{ebpf,ebpf-link,ebpf-inspect}.1 share/man/man3/ebpf.3 \
        share/bash-completion/completions/{ebpf,ebpf-link,ebpf-inspect} \
        share/zsh/site-functions/_ebpf share/fish/vendor_completions.d/{ebpf,ebpf-link,ebpf-inspect}.fish \
        share/doc/ebpf/{LICENSE,README.md,CHANGELOG.md,docs/C.md,examples/loader/main.c}; do
        judge "$file" "$([ -s "$prefix/$file" ] && echo there || echo none)" there
    done
    judge 'files with a placeholder' "$(grep -rl '@VERSION@' "$prefix" || true)" ''
    judge 'modes' "$(stat -c %a "$prefix"/bin/ebpf-link "$prefix"/lib/libebpf.a | xargs)" '755 644'
    ends 'the versions' 0 "$repository/tools/versions.py" "$prefix"
    sed -i 's/^Version.*/Version: 7.8.8/' "$prefix/lib/pkgconfig/ebpf.pc"
    ends 'a version that differs' 1 "$repository/tools/versions.py" "$prefix"
}

# A program is compiled and linked by what pkg-config says.
test_library() {
    local shared=$prefix/lib
    if ! command -v gcc >/dev/null || ! command -v pkg-config >/dev/null; then
        return
    fi
    export PKG_CONFIG_PATH=$prefix/lib/pkgconfig
    echo '#include <ebpf.h>
        int main(void) { return ebpf_version_number() != EBPF_VERSION_NUMBER; }' >"$room/version.c"
    # shellcheck disable=SC2046
    ends 'a program with libebpf.so' 0 gcc "$room/version.c" $(pkg-config --cflags --libs ebpf) -o "$room/shared"
    ends 'its run' 0 env LD_LIBRARY_PATH="$shared" "$room/shared"
    # shellcheck disable=SC2046
    ends 'a program with libebpf.a' 0 gcc "$room/version.c" $(pkg-config --cflags ebpf) "$prefix/lib/libebpf.a" -o "$room/static"
    ends 'its run' 0 "$room/static"
}

# A second install mends what was changed, and removes what an earlier version had.
test_second_install() {
    local sum
    ends 'an install over one' 0 "$repository/tools/install.sh" "$prefix"
    sum=$(sum_of "$prefix")
    echo old >"$prefix/bin/ebpf-old"
    echo bin/ebpf-old >>"$prefix/share/ebpf/installed"
    echo '../outside' >>"$prefix/share/ebpf/installed"
    echo kept >"$room/outside"
    ends 'an install over an older one' 0 "$repository/tools/install.sh" "$prefix"
    judge 'what is installed then' "$(sum_of "$prefix")" "$sum"
    judge 'a file outside' "$(cat "$room/outside")" kept
}

test_uninstall() {
    mkdir -p "$prefix/share/own"
    echo own >"$prefix/share/own/file"
    ends 'removing' 0 "$repository/tools/install.sh" "$prefix" --uninstall
    judge 'what is left' "$(cd "$prefix" && find . -mindepth 1 | LC_ALL=C sort | xargs)" './share ./share/own ./share/own/file'
    rm -r "$prefix"
    ends 'removing without a list' 1 "$repository/tools/install.sh" "$prefix" --uninstall
    ends 'an install into a new prefix' 0 "$repository/tools/install.sh" "$prefix"
    ends 'removing it' 0 "$repository/tools/install.sh" --uninstall "$prefix"
    judge 'a prefix that was made' "$([ -e "$prefix" ] && echo there || echo none)" none
    mkdir -p "$prefix/bin"
    ends 'an install into a prefix with a folder' 0 "$repository/tools/install.sh" "$prefix"
    ends 'removing it' 0 "$repository/tools/install.sh" "$prefix" --uninstall
    judge 'what is left of it' "$(cd "$prefix" && find . -print0 | xargs -0)" '. ./bin'
    ends 'an install with DESTDIR' 0 env DESTDIR="$room/package" "$repository/tools/install.sh" /usr
    judge 'where it is' "$([ -x "$room/package/usr/bin/ebpf" ] && echo there)" there
    ends 'no prefix' 2 "$repository/tools/install.sh"
    ends 'an unknown option' 2 "$repository/tools/install.sh" --prefix x
}

test_release() {
    local name=ebpf-7.8.9-x86_64-linux place="$room/a place"
    ends 'a release' 0 "$repository/tools/release.sh"
    (cd "$repository/dist" && md5sum ./*.tar.xz) >"$room/sums"
    find "$repository/crates" "$repository/docs" -exec touch '{}' +
    find "$repository" -path '*/out/*' -exec touch '{}' +
    ends 'a second release' 0 "$repository/tools/release.sh"
    judge 'the bytes of a second release' "$(cd "$repository/dist" && md5sum ./*.tar.xz)" "$(cat "$room/sums")"
    mkdir "$place"
    tar -C "$place" -xf "$repository/dist/$name.tar.xz"
    ends 'an install from an archive' 0 env PATH="$PATH_BEFORE" "$place/$name/install.sh" "$place/prefix"
    judge 'the program' "$("$place/prefix/bin/ebpf")" 'ebpf 7.8.9'
    ends 'removing it' 0 "$place/$name/install.sh" "$place/prefix" --uninstall
    judge 'what is left of it' "$(ls "$place")" "$name"
    rm "$repository/crates/mid/out/rlib/stamp"
    ends 'a release with a library that is not proved' 1 "$repository/tools/release.sh"
    printf %s stamp-of-mid >"$repository/crates/mid/out/rlib/stamp"
    touch "$repository/crates/low/src/lib.rt"
    ends 'a release of what is older than its sources' 1 "$repository/tools/release.sh"
}

test_package() {
    if ! command -v dpkg-deb >/dev/null || ! command -v gcc >/dev/null; then
        return
    fi
    find "$repository" -path '*/out/*' -exec touch '{}' +
    # strip takes no script
    cp "$(type -P true)" "$repository/crates/ebpf/out/ebpf"
    cp "$(type -P true)" "$repository/crates/ebpf_link/out/ebpf_link"
    cp "$(type -P true)" "$repository/crates/cli_inspect_program/out/cli_inspect_program"
    ends 'a Debian package' 0 "$repository/tools/release.sh" --trial --deb side
    judge 'its version' "$(dpkg-deb -f "$repository/dist/ebpf_7.8.9_amd64.deb" Version)" 7.8.9
    judge 'its program' "$(dpkg-deb -c "$repository/dist/ebpf_7.8.9_amd64.deb" | grep -c ' ./usr/bin/ebpf$')" 1
}

# Prints the crates between the marks.
vendored() { sed -n '/ begin$/,/ end$/s/^\([a-z]*\):.*/\1/p' "$dest/crates.txt" | xargs; }

test_vendored_calls() {
    mkdir -p "$dest/crates/mine/src"
    echo 'mine: mid' >"$dest/crates.txt"
    ends 'a first call' 0 "$upstream/tools/vendor.sh" "$dest" mid
    judge 'its crates' "$(vendored)" 'low mid'
    ends 'a second call' 0 "$upstream/tools/vendor.sh" "$dest" side
    judge 'the crates of both' "$(vendored)" 'low mid side'
    judge 'the own line' "$(head -n 1 "$dest/crates.txt")" 'mine: mid'
    cp "$dest/crates.txt" "$room/before.txt"
    ends 'a call without a crate' 0 "$upstream/tools/vendor.sh" "$dest"
    judge 'crates.txt after it' "$(cat "$dest/crates.txt")" "$(cat "$room/before.txt")"
    ends 'two crates at once' 0 "$upstream/tools/vendor.sh" "$dest" high side
    judge 'the crates then' "$(vendored)" 'low mid high side'
    ends 'an unknown crate' 1 "$upstream/tools/vendor.sh" "$dest" nothing
    ends 'no folder' 2 "$upstream/tools/vendor.sh" "$room/nowhere"
    ends 'an unknown option' 2 "$upstream/tools/vendor.sh" "$dest" --x
    judge 'the sources' "$(diff -r "$upstream/crates/high" "$dest/crates/high" | xargs)" "Only in $dest/crates/high: LICENSE"
    sed -i '/^# asked for/d' "$dest/crates.txt"
    ends 'a call after one of an older script' 0 "$upstream/tools/vendor.sh" "$dest"
    judge 'the crates after it' "$(vendored)" 'low mid high side'
}

# What is gone here goes there; what is not of this script stays.
test_vendored_removals() {
    rm -r "$upstream/crates/low/proofs"
    sed -i 's/^high: low mid/high: low/' "$upstream/crates.txt"
    sed -i '/^# asked for/s/ mid//' "$dest/crates.txt"
    mkdir -p "$dest/crates/mid/out/rlib"
    ends 'a call after changes' 0 "$upstream/tools/vendor.sh" "$dest"
    judge 'a folder that is gone' "$([ -e "$dest/crates/low/proofs" ] && echo there || echo none)" none
    judge 'a crate that nothing needs' "$([ -e "$dest/crates/mid" ] && echo there || echo none)" none
    judge 'the crates then' "$(vendored)" 'low high side'
    echo own >"$dest/crates/side/notes"
    sed -i '/^side:/d' "$upstream/crates.txt"
    ends 'a call after a crate is gone' 0 "$upstream/tools/vendor.sh" "$dest"
    judge 'the crates then' "$(vendored)" 'low high'
    judge 'a file of the user' "$(ls "$dest/crates/side")" notes
    echo 'high: low' | cat - "$dest/crates.txt" >"$room/own.txt"
    cp "$room/own.txt" "$dest/crates.txt"
    ends 'a crate of the same name' 1 "$upstream/tools/vendor.sh" "$dest" high
    judge 'crates.txt then' "$(cat "$dest/crates.txt")" "$(cat "$room/own.txt")"
}

# Proved libraries are taken from an unpacked archive, without rt.
test_vendored_proofs() {
    local fresh=$room/fresh archive=$room/unpacked
    mkdir -p "$fresh/crates/own/out/rlib" "$archive"
    tar -C "$archive" -xf "$repository/dist/ebpf-7.8.9-rattle.tar.xz"
    archive=$archive/ebpf-7.8.9-rattle
    judge 'the logic of an archive' "$(grep '^logic' "$archive/KIT")" 'logic 0123456789abcdef'
    touch "$fresh/crates/own/out/rlib/stamp"
    ends 'proved libraries from an archive' 0 env PATH=/usr/bin:/bin "$archive/tools/vendor.sh" "$fresh" --proved high
    judge 'their stamps' "$(cat "$fresh"/crates/{low,mid,high}/out/rlib/stamp)" 'stamp-of-lowstamp-of-midstamp-of-high'
    judge 'a stamp over other libraries' "$([ -e "$fresh/crates/own/out/rlib/stamp" ] && echo there || echo none)" none
    touch "$fresh/crates/own/out/rlib/stamp"
    ends 'the same again' 0 env PATH=/usr/bin:/bin "$archive/tools/vendor.sh" "$fresh" --proved high
    judge 'how many are copied again' "$(sed -n 's/^vendor.sh: \(.*\) proved.*/\1/p' "$room/said")" 0
    judge 'a stamp over the same libraries' "$([ -e "$fresh/crates/own/out/rlib/stamp" ] && echo there || echo none)" there
    rm "$archive/crates/mid/out/rlib/stamp"
    rm -r "$fresh"/crates/*/out
    ends 'where one is not proved' 0 env PATH=/usr/bin:/bin "$archive/tools/vendor.sh" "$fresh" --proved high
    judge 'the libraries then' "$(cd "$fresh/crates" && echo */out)" 'low/out'
}

# With the real rt: a library is taken by the sum of its sources alone.
test_stamps() {
    local repository=$room/stamped
    export PATH=$PATH_BEFORE
    if ! command -v rt >/dev/null; then
        return
    fi
    mkdir -p "$repository"/crates/low/{src,out/rlib/low.rlib}
    echo 'low:' >"$repository/crates.txt"
    echo '//! low' >"$repository/crates/low/src/lib.rt"
    echo 'crate low' >"$repository/crates/low/out/rlib/low.rlib/format"
    judge 'a library without a stamp' "$("$top/tools/proved.py" "$repository" low 2>/dev/null)" ''
    printf other >"$repository/crates/low/out/rlib/stamp"
    judge 'a library with a stamp of other sources' "$("$top/tools/proved.py" "$repository" low 2>/dev/null)" ''
    PYTHONPATH=$top/tools python3 -c 'import pathlib, sys, proved
print(proved.Libraries(pathlib.Path(sys.argv[1]), proved.load_rt()).crate("low").stamp(), end="")' "$repository" \
        >"$repository/crates/low/out/rlib/stamp"
    ends 'a library with its stamp' 0 "$top/tools/proved.py" "$repository" low
    judge 'what is printed of it' "$(cat "$room/said")" "low $(cat "$repository/crates/low/out/rlib/stamp")"
    ends 'what rt check takes' 0 "$top/tools/proved.py" --taken "$repository" low
    judge 'how many it takes' "$(cat "$room/said")" 'proved.py: rt check takes 1 of 1 libraries as proved'
    echo '//! high' >"$repository/crates/low/src/lib.rt"
    judge 'a library after a change' "$("$top/tools/proved.py" "$repository" low 2>/dev/null)" ''
}

# The completions have each option of the programs, and the manual pages are without a fault.
test_texts() {
    local option page
    while read -r option; do
        ends "bash completes $option" 0 grep -w -- "$option" "$top/share/completions/ebpf.bash"
        ends "zsh completes $option" 0 grep -w -- "$option" "$top/share/completions/_ebpf"
        ends "fish completes $option" 0 grep -w -- "-l ${option#--}" "$top/share/completions/ebpf.fish"
    done < <(grep -oh -- '--[a-z][a-z]*' "$top/crates/ebpf/src/help.rt" | sort -u)
    if command -v groff >/dev/null; then
        for page in "$room"/package/usr/share/man/man?/*; do
            judge "${page##*/}" "$(groff -man -ww -Tutf8 -z "$page" 2>&1)" ''
        done
    fi
}

mkdir "$room/bin"
cp "$top/tests/install/rt" "$room/bin/rt"
export PATH=$room/bin:$PATH
make_kit
repository=$room/checkout upstream=$room/upstream dest=$room/dest prefix=$room/prefix/deep
make_repository "$repository"
make_repository "$upstream"
mkdir "$dest" "$room/prefix"
test_interruption
test_installed
test_second_install
test_library
test_uninstall
test_release
test_vendored_calls
test_vendored_removals
test_vendored_proofs
test_package
test_texts
test_stamps
echo "$passed passed, $failed failed"
[ "$failed" = 0 ]

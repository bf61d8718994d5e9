# shellcheck shell=bash
# Functions on the crates of a repository, for the scripts beside this file. ROOT is the repository's folder.

# Prints the lines of crates.txt without comments.
# usage: crate_lines ROOT
crate_lines() {
    sed -n 's/[[:space:]]*#.*//; /:/p' "$1/crates.txt"
}

# Prints crates and the crates of the repository below them, each once, in the order of crates.txt.
# usage: closure ROOT CRATE ..
closure() {
    local root=$1
    shift
    crate_lines "$root" | awk -v wanted="$*" '
        { split($0, sides, ":"); split(sides[1], left, " "); order[++count] = left[1]; below[left[1]] = sides[2] }
        END {
            size = split(wanted, names, " ")
            for (i = 1; i <= size; i++) is_wanted[names[i]] = 1
            # each turn reaches one layer further down
            for (turn = 1; turn <= count; turn++)
                for (name in is_wanted) {
                    size = split(below[name], names, " ")
                    for (i = 1; i <= size; i++) if (names[i] in below) is_wanted[names[i]] = 1
                }
            for (i = 1; i <= count; i++) if (order[i] in is_wanted) print order[i]
        }'
}

# Prints the crates that crates.txt lists.
# usage: listed ROOT
listed() {
    crate_lines "$1" | sed 's/[ :].*//'
}

# Whether crates.txt lists a crate.
# usage: is_listed ROOT CRATE
is_listed() {
    grep -qx -- "$2" <<<"$(listed "$1")"
}

# Prints the crates of crates.txt that are libraries for other crates, in its order.
# usage: libraries ROOT
libraries() {
    local crate
    for crate in $(crate_lines "$1" | sed '/^[^:]* staticlib/d; s/[ :].*//'); do
        if [ -e "$1/crates/$crate/src/lib.rt" ]; then
            echo "$crate"
        fi
    done
}

# Prints the libraries under the heading `library` of crates.txt; all where there is no such heading.
# usage: product ROOT
product() {
    local names
    names=$(sed -n '/^# ---- library$/,/^# ---- [^l]/s/^\([a-z0-9_]*\)[ :].*/\1/p' "$1/crates.txt")
    if [ -n "$names" ]; then
        echo "$names"
    else
        libraries "$1"
    fi
}

# Whether a file is there and no older than each source of some crates.
# usage: is_current ROOT FILE CRATE ..
is_current() {
    local root=$1 file=$2 crate folders=()
    shift 2
    if [ ! -e "$file" ]; then
        return 1
    fi
    for crate; do
        for part in src specs proofs; do
            if [ -d "$root/crates/$crate/$part" ]; then
                folders+=("$root/crates/$crate/$part")
            fi
        done
    done
    [ -z "$(find "${folders[@]}" -newer "$file" -print -quit)" ]
}

# Prints the lines of a script's first comment from '# usage:' on.
# usage: usage_of SCRIPT
usage_of() {
    awk '!/^#/ { if (on) exit } /^# usage:/ { on = 1 } on { sub(/^# ?/, ""); print }' "$1"
}

# Prints the version in the file VERSION.
# usage: version_of ROOT
version_of() {
    head -n 1 "$1/VERSION"
}

#!/bin/sh
# Prints the digest of the sources: sha256 of the list of the sha256 of crates.txt, HANDLES, dist/KIT, which names the kit that builds
# them, and each file of src/, specs/ and proofs/ of each crate but those of tests alone, in the order of their names.
#   dist/digest.sh CRATE   the same of a static library: of its line of crates.txt, HANDLES, dist/KIT, what packs the archive, and the
#                          files of its crate and of all crates below it
unset CDPATH
cd "$(dirname "$0")/.." || exit 2

# The files of crates, by the names of their folders.
files_in() {
    find "$@" \( -path '*/out' -o -path 'crates/tests_*' \) -prune -o -type f \( -name '*.rt' -o -name '*.antt' \) -print
}

# CRATE..: these and the crates that their lines name.
with_named() {
    for crate in "$@"; do
        echo "$crate"
        sed -n "s/^$crate\( [^:]*\)\{0,1\}://p" crates.txt | tr ' ' '\n'
    done | LC_ALL=C sort -u
}

# CRATE: its folder and those of all crates below it.
folders_of() {
    below=$1
    until named=$(with_named $below) && [ "$named" = "$below" ]; do
        below=$named
    done
    for crate in $below; do
        [ ! -d "crates/$crate" ] || echo "crates/$crate"
    done
}

if [ $# -eq 0 ]; then
    { ls HANDLES crates.txt dist/KIT && files_in crates; } | LC_ALL=C sort | xargs sha256sum | sha256sum | cut -d ' ' -f 1
else
    grep -q "^$1 staticlib:" crates.txt || { echo "digest: there is no static library $1" >&2; exit 2; }
    {
        grep "^$1 staticlib:" crates.txt
        { ls HANDLES dist/KIT libmkdemux dist/build.sh c/place.ld c/heap.c c/kernel-clang && files_in $(folders_of "$1"); } | LC_ALL=C sort | xargs sha256sum
    } | sha256sum | cut -d ' ' -f 1
fi

#!/bin/sh
# Proves the program mkdemux for aarch64 and links it, by the kit's tools alone, over the libraries that `rt ci` has proved in the checkout
# TOP, of the same sources.
#   dist/aarch64.sh TOP PROGRAM
# The C in it is c/aarch64/program.c and c/heap.c; it is linked with the names of c/aarch64/libc.map, which the machine's C library has.
unset CDPATH
[ $# -eq 2 ] && top=$(cd "$(dirname "$0")/.." && pwd) && over=$(cd "$1" && pwd) || {
    echo "aarch64: usage: dist/aarch64.sh TOP PROGRAM" >&2
    exit 2
}
case $2 in /*) program=$2 ;; *) program=$PWD/$2 ;; esac
command -v rt > /dev/null || {
    echo "aarch64: the command rt is not on PATH" >&2
    exit 3
}
work=$(mktemp -d) || exit 3
trap 'rm -rf "$work"' EXIT
. "$top/dist/build.sh"

# FILE OBJECT: compiles trusted C.
compile() {
    "$work/clang" "--target=$(triple_of aarch64)" -O2 -fPIE -ffreestanding -mno-outline-atomics -Wall -Wextra -Werror -c "$1" -o "$2"
}

# A library with the names of the C library's functions, and nothing in them.
make_libc() {
    sed -n 's/^ *\([a-z_0-9]*\);$/.globl \1\n.type \1, %function\n\1:/p' "$top/c/aarch64/libc.map" > "$work/libc.s" &&
        "$work/clang" "--target=$(triple_of aarch64)" -c "$work/libc.s" -o "$work/libc.o" &&
        "$work/ld.lld" -m aarch64linux -shared -soname libc.so.6 --version-script "$top/c/aarch64/libc.map" -o "$work/libc.so" "$work/libc.o"
}

link() {
    make_libc && compile "$top/c/aarch64/program.c" "$work/program.o" && compile "$top/c/heap.c" "$work/heap.o" &&
        "$work/ld.lld" -m aarch64linux -pie --dynamic-linker /lib/ld-linux-aarch64.so.1 -z relro -z now --hash-style=both --gc-sections \
            --eh-frame-hdr -o "$program" "$work/program.o" "$work/mkdemux.o" "$work/heap.o" "$work/libc.so"
}

begin=$(date +%s)
log=$(mktemp) || exit 3
make_tools "$work" && build_over "$over" mkdemux aarch64 "$kit/toolchain" "$work/mkdemux.o" < /dev/null > "$log" 2>&1 && link >> "$log" 2>&1 || {
    echo "aarch64: not built; see $log" >&2
    exit 3
}
grep '^logic=proved' "$log" | sed 's/^/aarch64: mkdemux: /'
rm -f "$log"
echo "aarch64: built $program in $(($(date +%s) - begin)) s" >&2

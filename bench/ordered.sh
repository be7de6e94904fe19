#!/bin/sh
# Builds two maps that keep entries in the order of their keys into a static library, `chunked` and the kit's `indexmap`, and times changes of
# both (ordered.c). Usage: bench/ordered.sh [FOLDER]. FOLDER, by default a new one, is where it builds; it keeps what was proved for the
# next run. Needs rt, clang and git on the path.
unset CDPATH
set -e
here=$(cd "$(dirname "$0")" && pwd)
work=${1:-$(mktemp -d)}
kit=${KIT:-$(dirname "$(rt doc)")}
. "$here/crates.sh"
build_library "$work" ordered.rattle ordered_bench ' staticlib: chunked indexmap'
clang -O2 -o "$work/ordered" "$here/ordered.c" "$work/crates/ordered_bench/out/libordered_bench.a" "$kit/c/liblibc_c.a"
"$work/ordered"

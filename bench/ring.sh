#!/bin/sh
# Builds the proved ring into a program, and the C11 ring beside it, and runs both. The machine is otherwise idle.
# Usage: bench/ring.sh [FOLDER]. FOLDER, by default a new one, is where it builds; it keeps what was proved for the next run.
# Needs rt, clang and git on the path.
unset CDPATH
set -e
here=$(cd "$(dirname "$0")" && pwd)
work=${1:-$(mktemp -d)}
. "$here/crates.sh"
build_program "$work" ring ' may_wait=3: ump_ring rtrb'
clang -O2 -o "$work/ring_peer" "$here/ring_peer.c" -lpthread
for round in 1 2 3 4 5 6 7 8 9; do
    "$work/ring_peer" 24 8000000
    "$work/ring_peer" 32786 20000
    "$work/crates/ring_bench/out/ring_bench"
done

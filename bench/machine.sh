#!/bin/sh
# Builds the proved crates into a static library, links it and libpcap into one C program, and runs it.
# Usage: bench/machine.sh [FOLDER]. FOLDER, by default a new one, is where it builds; it keeps what was proved for the next run.
# Needs rt, clang and git on the path, and libpcap's header and static library (Debian: libpcap-dev).
unset CDPATH
set -e
here=$(cd "$(dirname "$0")" && pwd)
work=${1:-$(mktemp -d)}
kit=${KIT:-$(dirname "$(rt doc)")}
. "$here/crates.sh"
build_library "$work" exports.rattle filter_bench ' staticlib: seq bpf_insn filter_verify filter_vm'
clang -O2 -o "$work/bench" "$here/machine.c" "$work/crates/filter_bench/out/libfilter_bench.a" "$kit/c/liblibc_c.a" -l:libpcap.a
"$work/bench" "$here"/filters/*.ddd

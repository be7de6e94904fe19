#!/bin/sh
# Builds predecoded programs into a static library, links it and libpcap into one C program, and runs it (predecode.c).
# Usage: bench/predecode.sh [--compare] [FOLDER [PROGRAMS]]. With --compare it times nothing. FOLDER, by default a new one, is where it
# builds; it keeps what was proved for the next run. PROGRAMS: how many random programs are compared, by default 1,000,000, which takes
# some ten seconds.
# Needs rt, clang and git on the path, and libpcap's header and library (Debian: libpcap-dev).
set -e
here=$(cd "$(dirname "$0")" && pwd)
filters=$here/predecode.txt
if [ "${1-}" = --compare ]; then
    filters=
    shift
fi
work=${1:-$(mktemp -d)}
kit=${KIT:-$(dirname "$(rt doc)")}
. "$here/crates.sh"
build_library "$work" predecode.rattle predecode_bench ' staticlib: seq bpf_insn filter_verify filter_vm filter_predecode'
clang -O2 -o "$work/predecode" "$here/predecode.c" "$work/crates/predecode_bench/out/libpredecode_bench.a" "$kit/c/liblibc_c.a" -lpcap
"$work/predecode" "${2:-1000000}" ${filters:+"$filters"}

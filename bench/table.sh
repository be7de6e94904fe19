#!/bin/sh
# Builds the replicated table and what it stands on into a static library, links it into C programs, and runs these: table.c, and groups.c,
# which has many filters of few shapes and what is hard for them, beside a loop of bpf_filter and beside plain C.
# Usage: bench/table.sh [FOLDER [WORKLOAD]]. FOLDER, by default a new one, is where it builds; it keeps what was proved for the next run.
# With WORKLOAD, just the workloads of groups.c that begin so are run.
# Needs rt, clang and git on the path, and libpcap with its header (Debian: libpcap-dev).
unset CDPATH
set -e
here=$(cd "$(dirname "$0")" && pwd)
work=${1:-$(mktemp -d)}
kit=${KIT:-$(dirname "$(rt doc)")}
. "$here/crates.sh"
build_library "$work" table.rattle table_bench ' staticlib: seq bpf_insn filter_verify filter_vm filter_group endpoint_caps filter_table table_replica'
clang -O2 -o "$work/table" "$here/table.c" "$work/crates/table_bench/out/libtable_bench.a" "$kit/c/liblibc_c.a"
clang -O2 -o "$work/groups" "$here/groups.c" "$work/crates/table_bench/out/libtable_bench.a" "$kit/c/liblibc_c.a" -lpcap
[ $# -gt 1 ] || "$work/table"
"$work/groups" "${2:-}"

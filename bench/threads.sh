#!/bin/sh
# Times a machine whose cores are threads beside plain threads in C (threads_peer.c), whose one table is under a mutex ("mutex"), or never
# changes and is under no lock ("free"): packets received on 1 to 4 cores, changes of the table on 2 and 4 cores with and without
# packets, and how long a packet waits. They run by turns. Prints medians, and of ratios of neighbouring runs the 10th and the 90th percentile.
# Usage: bench/threads.sh [FOLDER [ROUNDS [WORD]..]]. FOLDER, by default a new one, is where it builds; it keeps what was proved for the next run, and
# takes what the repository's own checks have kept. The words are put before each command, as `chrt -r 5` on a busy machine. Needs rt, clang, git and
# python3 on the path.
unset CDPATH
set -e
here=$(cd "$(dirname "$0")" && pwd)
work=${1:-$(mktemp -d)}
rounds=${2:-21}
if [ $# -gt 2 ]; then shift 2; else set --; fi
. "$here/crates.sh"
build_program "$work" threads ' may_wait=3: seq bpf_insn pcap_reader rx_queue table_replica core_loop core_machine core_threads'
clang -O2 -o "$work/threads_peer" "$here/threads_peer.c" -lpthread
python3 "$here/threads.py" "$work/crates/threads_bench/out/threads_bench" "$work/threads_peer" "$rounds" "$@"

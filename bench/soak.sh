#!/bin/sh
# Runs machines of 1 to 8 cores, or to 64, as threads on random requests and packets, joins their histories into one list, and does that list again as
# one list of events, where each answer must be the same. Each job must be received or left, once. As many machines are asked, turned and given
# packets in a random order by one thread, and what they did is done again in the same way. A machine of threads is settled in the end, and must
# be at rest; a quarter of them halt early. Any other outcome of a run is printed, and the status is then 1. Where the program is built,
# scripts are then run by it, 1,000 times each, and each trace done again by `sim` (repeat.sh). Last, where libpcap is there, the verdicts and
# steps of a million random programs, predecoded, are compared with the proved machine's (predecode.sh).
# Usage: bench/soak.sh [FOLDER [RUNS [FIRST]]]. 10,000 runs, unless said otherwise; FIRST is the number of the first, which says what its work is. FOLDER,
# by default a new one, is where it builds; it keeps what was proved for the next run, and takes what the repository's own checks have kept.
# Needs rt, clang and git on the path, and for the last part libpcap's header and library (Debian: libpcap-dev).
unset CDPATH
set -e
here=$(cd "$(dirname "$0")" && pwd)
work=${1:-$(mktemp -d)}
. "$here/crates.sh"
build_program "$work" soak ' may_wait=3: seq bpf_insn pcap_reader endpoint_caps filter_table monitor_messages rx_queue table_replica world_events world_model world_core core_loop core_machine core_threads'
"$work/crates/soak_bench/out/soak_bench" "${2:-10000}" "${3:-1}" | tee "$work/soak.txt"
grep -q ' 0 runs went wrong$' "$work/soak.txt"
"$here/repeat.sh" 1000
if [ -f /usr/include/pcap.h ]; then
    "$here/predecode.sh" --compare "$work"
else
    echo "soak: no predecoded programs are compared, since there is no pcap.h" >&2
fi

#!/bin/sh
# Times cores that take their own turns: an idle turn, a turn that receives a packet beside the packet's filters alone, and commits on two
# cores that one thread turns beside the same commits on the machine as one list of events. Prints medians, and of ratios and differences
# of neighbouring runs the 10th and the 90th percentile.
# Usage: bench/loop.sh [FOLDER]. FOLDER, by default a new one, is where it builds; it keeps what was proved for the next run, and takes
# what the repository's own checks have kept. Needs rt, clang and git on the path.
unset CDPATH
set -e
here=$(cd "$(dirname "$0")" && pwd)
work=${1:-$(mktemp -d)}
. "$here/crates.sh"
build_program "$work" loop ': seq bpf_insn pcap_reader rx_queue table_replica ump_ring core_links world_core core_loop core_machine'
"$work/crates/loop_bench/out/loop_bench" | python3 "$here/loop.py"

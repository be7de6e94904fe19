#!/bin/sh
# Builds a program over the machine of cores as one list of events, runs it nine times, and prints the median of each of its times.
# Usage: bench/world.sh [FOLDER]. FOLDER, by default a new one, is where it builds; it keeps what was proved for the next run, and takes
# what the repository's own checks have kept. From nothing, half an hour of proofs comes first. Needs rt, clang and git on the path.
unset CDPATH
set -e
here=$(cd "$(dirname "$0")" && pwd)
work=${1:-$(mktemp -d)}
. "$here/crates.sh"
build_program "$work" world ': bpf_insn table_replica world_core'
for round in 1 2 3 4 5 6 7 8 9; do
    "$work/crates/world_bench/out/world_bench"
done | sort -t: -k1,1 -s | awk -F': ' '
    function median(n,    i, j, t) {
        for (i = 2; i <= n; i++)
            for (j = i; j > 1 && times[j - 1] > times[j]; j--) { t = times[j]; times[j] = times[j - 1]; times[j - 1] = t }
        return times[int((n + 1) / 2)]
    }
    function tell() {
        if (n > 0)
            printf "%s: %d events, %.2f ms, %.2f us an event, %.0f events a second\n", name, events, median(n) / 1e6, median(n) / 1e3 / events, events * 1e9 / median(n)
        n = 0
    }
    $1 != name { tell(); name = $1 }
    { split($2, words, " "); events = words[1]; times[++n] = words[3] }
    END { tell() }'

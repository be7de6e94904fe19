#!/bin/sh
# Measures mkdemux_receive_burst at 32 packets beside 32 calls of mkdemux_receive (burst_peer.c over libmkdemux_cores.a), under 16 filters
# of one shape: packets that lie in the cache, and packets of a ring that is larger than it.
# Usage: bench/burst.sh [-r ROUNDS] [-l FOLDER]
# FOLDER has the library, as ./libmkdemux --cores FOLDER makes it, by default dist/. WRAP="chrt -r 5" is put before each command. Needs a
# C compiler.
unset CDPATH
set -e
here=$(cd "$(dirname "$0")" && pwd)
rounds=41
folder=$here/../dist
while getopts r:l: option; do
    case $option in
    r) rounds=$OPTARG ;;
    l) folder=$OPTARG ;;
    *) exit 2 ;;
    esac
done
work=$(mktemp -d)
trap 'rm -rf "$work"' EXIT
${CC:-cc} -std=c11 -D_GNU_SOURCE -O2 -I"$folder/include" -o "$work/burst_peer" "$here/burst_peer.c" "$folder/lib/libmkdemux_cores.a"
for packets in 32 65536; do
    $WRAP "$work/burst_peer" "$packets" "$rounds"
done

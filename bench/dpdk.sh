#!/bin/sh
# Measures packets under filters (dpdk_peer.c over libmkdemux_cores.a) beside libpcap's bpf_filter, DPDK's JIT (librte_bpf) and DPDK's
# classifier (librte_acl).
# Usage: bench/dpdk.sh [-r ROUNDS] [-l FOLDER]. FOLDER has the library, as ./libmkdemux --cores FOLDER makes it, by default dist/. Needs a
# C compiler, libpcap and DPDK (Debian: libpcap-dev, libdpdk-dev).
unset CDPATH
set -e
here=$(cd "$(dirname "$0")" && pwd)
rounds=21
folder=$here/../dist
while getopts r:l: option; do
    case $option in
    r) rounds=$OPTARG ;;
    l) folder=$OPTARG ;;
    *) exit 2 ;;
    esac
done
work=$(mktemp -d)
trap 'rm -rf "$work"' EXIT
cc=${CC:-cc}

# bpf_filter as code of the program itself, as the library's is, where libpcap's archive is there.
bpf=
archive=$($cc -print-file-name=libpcap.a)
if [ -f "$archive" ] && ar p "$archive" bpf_filter.o > "$work/bpf_filter.o" 2> /dev/null; then
    bpf=$work/bpf_filter.o
fi
# shellcheck disable=SC2046
$cc -std=c11 -O2 -w -I"$folder/include" $(pkg-config --cflags libdpdk) -o "$work/dpdk_peer" "$here/dpdk_peer.c" $bpf \
    "$folder/lib/libmkdemux_cores.a" -lpcap $(pkg-config --libs libdpdk)
"$work/dpdk_peer" "$rounds"

#!/bin/sh
# What a neighbour's filters cost a packet: bench/neighbours.sh [FOLDER], by default with the library of dist/. It needs a C compiler and
# libpcap with its header (Debian: libpcap-dev).
unset CDPATH
here=$(cd "$(dirname "$0")" && pwd) || exit 2
folder=${1:-$here/../dist}
made=$(mktemp -d) || exit 2
trap 'rm -rf "$made"' EXIT
${CC:-cc} -std=c11 -D_DEFAULT_SOURCE -Wall -Wextra -O2 "-I$folder/include" -o "$made/neighbours" "$here/neighbours.c" "$folder/lib/libmkdemux_cores.a" -lpcap &&
    "$made/neighbours"

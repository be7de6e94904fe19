#!/bin/sh
# Measures mkdemux_compile on the expressions of expressions.txt, and on a list of 300 hosts, beside pcap_compile where libpcap is there.
# Usage: bench/compile.sh [-l FOLDER]
# FOLDER has the library, as ./libmkdemux FOLDER makes it, by default dist/. Needs a C compiler.
unset CDPATH
set -e
here=$(cd "$(dirname "$0")" && pwd)
folder=$here/../dist
while getopts l: option; do
    case $option in
    l) folder=$OPTARG ;;
    *) exit 2 ;;
    esac
done
work=$(mktemp -d)
trap 'rm -rf "$work"' EXIT
build() {
    ${CC:-cc} -std=c99 -D_DEFAULT_SOURCE -O2 -I"$folder/include" -o "$work/compile" "$here/compile.c" "$folder/lib/libmkdemux.a" "$@"
}
build -DWITH_PCAP -lpcap 2> /dev/null || build
"$work/compile" < "$here/expressions.txt"
i=0
hosts="host 10.0.0.0"
while [ $((i += 1)) -lt 300 ]; do
    hosts="$hosts or host 10.0.$((i / 256)).$((i % 256))"
done
echo "$hosts" | "$work/compile"

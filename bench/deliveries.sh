#!/bin/sh
# What packets take beside neighbours that all accept them, with 1,000 to 60,000 filters on one core: bench/deliveries.sh [FOLDER], by
# default with the library of dist/. It needs a C compiler and libpcap with its header (Debian: libpcap-dev).
unset CDPATH
here=$(cd "$(dirname "$0")" && pwd) || exit 2
folder=${1:-$here/../dist}
made=$(mktemp -d) || exit 2
trap 'rm -rf "$made"' EXIT
${CC:-cc} -std=c11 -D_DEFAULT_SOURCE -Wall -Wextra -O2 "-I$folder/include" -o "$made/deliveries" "$here/deliveries.c" \
    "$folder/lib/libmkdemux_cores.a" -lpcap || exit
for shape in port host tuple ten; do
    for filters in 1000 20000 60000; do
        $WRAP "$made/deliveries" $filters $shape || exit
    done
done

#!/bin/sh
# What packets and changes take with 10 to 65,000 filters on one core: bench/large.sh [FOLDER [ORDER..]], by default with the library of
# dist/ and filters put in at random; the orders are random, rising, falling and alternating. It needs a C compiler.
unset CDPATH
here=$(cd "$(dirname "$0")" && pwd) || exit 2
folder=${1:-$here/../dist}
[ $# -eq 0 ] || shift
[ $# -gt 0 ] || set -- random
made=$(mktemp -d) || exit 2
trap 'rm -rf "$made"' EXIT
${CC:-cc} -std=c11 -D_DEFAULT_SOURCE -Wall -Wextra -O2 "-I$folder/include" -o "$made/large" "$here/large.c" "$folder/lib/libmkdemux_cores.a" || exit
for order in "$@"; do
    for shape in port host tuple ten; do
        for filters in 10 1000 10000 65000; do
            $WRAP "$made/large" $filters $shape "$order" || exit
        done
    done
done

#!/bin/sh
# What a change of the table takes on one core: bench/changes.sh [FOLDER], by default with the library of dist/. It needs a C compiler and
# libpcap with its header (Debian: libpcap-dev).
unset CDPATH
here=$(cd "$(dirname "$0")" && pwd) || exit 2
folder=${1:-$here/../dist}
made=$(mktemp -d) || exit 2
trap 'rm -rf "$made"' EXIT
${CC:-cc} -std=c11 -D_DEFAULT_SOURCE -Wall -Wextra -O2 "-I$folder/include" -o "$made/changes" "$here/changes.c" "$folder/lib/libmkdemux_cores.a" -lpcap || exit
for table in '10 1' '16 16' '200 16' '1000 1' '1000 16' '10000 1 3'; do
    # (the words of a table are arguments of their own)
    "$made/changes" $table || exit
done

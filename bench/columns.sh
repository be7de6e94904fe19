#!/bin/sh
# What filters cost a packet that break the rise of a column: bench/columns.sh [FOLDER], by default with the library of dist/.
# It needs a C compiler.
unset CDPATH
here=$(cd "$(dirname "$0")" && pwd) || exit 2
folder=${1:-$here/../dist}
made=$(mktemp -d) || exit 2
trap 'rm -rf "$made"' EXIT
${CC:-cc} -std=c11 -D_DEFAULT_SOURCE -Wall -Wextra -O2 "-I$folder/include" -o "$made/columns" "$here/columns.c" "$folder/lib/libmkdemux_cores.a" &&
    "$made/columns"

#!/bin/sh
# Measures `mkdemux run` on 1,000,000 packets over 1, 2 and 4 cores, beside `mkdemux sim` on the same script. Usage: bench/run.sh [FOLDER [COMMAND..]]
# A COMMAND, such as `chrt -r 5`, starts each run. FILTERS=1000 has so many filters in place of 16. Needs python3.
unset CDPATH
set -e
here=$(cd "$(dirname "$0")" && pwd)
work=${1:-$(mktemp -d)}
[ $# -eq 0 ] || shift
mkdir -p "$work"
. "$here/program.sh"
python3 "$here/run.py" "$program" "$work" "$@"

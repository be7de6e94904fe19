#!/bin/sh
# Measures `mkdemux sim` on scripts of 50,000 to 400,000 lines, half of them `rx`, half `settle`, and on two that name packets again and
# again. Usage: bench/sim.sh [FOLDER]. Needs python3 and a C compiler.
unset CDPATH
set -e
here=$(cd "$(dirname "$0")" && pwd)
work=${1:-$(mktemp -d)}
mkdir -p "$work"
. "$here/program.sh"
cc -O2 -o "$work/programs" "$here/programs.c"
python3 "$here/sim.py" "$program" "$work"

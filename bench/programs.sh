#!/bin/sh
# Builds the C peers, writes the inputs (1.1 GB) and measures mkdemux against the peers. Usage: bench/programs.sh [FOLDER]
# Needs a C compiler, python3 and libpcap's header and library (Debian: libpcap-dev). With tcpdump on the path, it is measured too.
unset CDPATH
set -e
here=$(cd "$(dirname "$0")" && pwd)
work=${1:-$(mktemp -d)}
mkdir -p "$work"
. "$here/program.sh"
for peer in match_peer dump_peer capture_peer text_peer; do
    cc -O2 -o "$work/$peer" "$here/$peer.c" -lpcap
done
cc -O2 -o "$work/programs" "$here/programs.c"
[ -f "$work/comment.asm" ] || python3 "$here/inputs.py" "$work"
python3 "$here/programs.py" "$program" "$work"

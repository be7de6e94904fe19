#!/bin/sh
# Builds echo.c and runs it in a network namespace of its own, with the kernel's sockets (peer.py) against it: 3,000 messages over UDP, as
# many over 4 connections of TCP, while both filters are replaced. Each byte has to come back, and a service whose capability is gone gets
# nothing. The last line says `echo: ..`; status 1 where something failed, and 77 where it can't be tried here, with the reason.
# Usage: examples/stack/check.sh [FOLDER]     FOLDER has the C libraries, by default dist/
# It needs a C compiler, lwIP as a library for Linux (Debian: liblwip-dev), python3, /dev/net/tun and the right to make a network namespace.
unset CDPATH
here=$(cd "$(dirname "$0")" && pwd) || exit 2
folder=$(cd "${1:-$here/../../dist}" && pwd) || exit 2

# WHY: ends where it can't be tried.
skip() {
    echo "echo: skipped: $1"
    exit 77
}

made=$(mktemp -d) || exit 2
trap 'rm -rf "$made"' EXIT
command -v "${CC:-cc}" > /dev/null || skip "no C compiler"
command -v python3 > /dev/null || skip "no python3"
printf '#include <lwip/tcpip.h>\nint main(void) { return 0; }\n' > "$made/try.c"
${CC:-cc} -I/usr/include/lwip -o "$made/try" "$made/try.c" -llwip -lpthread > /dev/null 2>&1 || skip "no lwIP"
[ -c /dev/net/tun ] && unshare -n ip tuntap add mk0 mode tap multi_queue > /dev/null 2>&1 || skip "no /dev/net/tun, or no right to a network namespace"
${CC:-cc} -std=gnu11 -Wall -Wextra -O2 -I/usr/include/lwip -I"$folder/include" -o "$made/echo" "$here/echo.c" \
    "$folder/lib/libmkdemux_cores.a" -llwip -lpthread || exit 1
mkfifo "$made/input" || exit 2
cat > "$made/run" <<'RUN'
ip link set lo up
"$1/echo" < "$1/input" > "$1/output" 2>&1 &
program=$!
exec 3> "$1/input"
tries=0
until grep -q ready "$1/output" || [ $tries -ge 100 ]; do
    tries=$((tries + 1))
    sleep 0.1
done
timeout 100 python3 "$2/peer.py" > "$1/peer" 2>&1
status=$?
exec 3>&-
wait $program && exit $status
RUN
if unshare -n sh "$made/run" "$made" "$here" && grep -q "of C 0, of nobody [1-9][0-9]*, of unknown endpoints 0; [1-9]" "$made/output"; then
    cat "$made/peer"
    echo "echo: $(tail -n 1 "$made/output")"
else
    cat "$made/peer" "$made/output"
    echo "echo: FAILED"
    exit 1
fi

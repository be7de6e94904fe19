#!/bin/sh
# Tries the program for aarch64 under user-mode emulation on x86-64: examples, commands of the pages, and rows, which must print what they
# print here. The last line is `N passed, M failed`.
#   dist/emulated.sh PROGRAM
# It needs qemu-aarch64-static and a C library for aarch64 (of Debian: qemu-user-static, libc6-dev-arm64-cross), and says what it skips.
unset CDPATH
case $1 in /*) program=$1 ;; *) program=$PWD/$1 ;; esac
cd "$(dirname "$0")/.." || exit 2
passed=0
failed=0

skip() {
    echo "skipped: the program for aarch64: $1"
    echo "0 passed, 0 failed"
    exit 0
}

# Runs a command and adds up its last line; of the lines before it those of failures are printed.
count() {
    "$@" > "$made/log" 2>&1
    set -- $(tail -n 1 "$made/log" | sed -n 's/^\([0-9]*\) passed, \([0-9]*\) failed$/\1 \2/p')
    if [ $# -eq 0 ] || [ "$2" -ne 0 ]; then
        cat "$made/log"
    fi
    passed=$((passed + ${1:-0}))
    failed=$((failed + ${2:-1}))
}

[ "$(uname -sm)" = "Linux x86_64" ] || skip "this machine isn't x86-64 Linux"
[ -f "$program" ] || skip "there is no $program"
lacking=$(c/aarch64/run 2>&1) || skip "$lacking"
made=$(mktemp -d) || exit 2
trap 'rm -rf "$made"' EXIT
mkdir "$made/copy" && tar -cf - --exclude=./.git --exclude='./crates/*/out' . | tar -xf - -C "$made/copy" || exit 2
mkdir "$made/bin" && cp "$program" "$made/bin/mkdemux" &&
    printf '#!/bin/sh\nexec "%s" "%s" "$@"\n' "$PWD/c/aarch64/run" "$made/bin/mkdemux" > "$made/copy/mkdemux" &&
    chmod +x "$made/bin/mkdemux" "$made/copy/mkdemux" || exit 2
count "$made/copy/examples/check.sh"
count rows/check.py "$made/copy/mkdemux"
echo "aarch64: examples, commands of the pages and rows under emulation: $passed as they must be, $failed not"
echo "$passed passed, $failed failed"
[ "$failed" -eq 0 ]

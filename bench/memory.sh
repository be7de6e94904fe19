#!/bin/sh
# Runs the tests that speak of refused growths once for each growth that they make, with that one refused, and prints how many runs
# passed and how many ended because a test's own preparation was refused. Any other end is a failure, and the status is then 1.
# Usage: bench/memory.sh [CRATE]... By default all crates that have such tests. It takes the tests that `rt test` has built, and builds
# those that are missing, after their proofs. Needs rt and a C compiler on the path.
unset CDPATH
set -e
here=$(cd "$(dirname "$0")" && pwd)
work=$(mktemp -d)
trap 'rm -rf "$work"' EXIT
${CC:-cc} -O2 -shared -fPIC -o "$work/refuse.so" "$here/refuse.c" -ldl

failed=0
run_all() {
    number=1 passed=0 unprepared=0
    while :; do
        rm -f "$work/told"
        status=0
        REFUSE_AT=$number REFUSE_TOLD=$work/told LD_PRELOAD=$work/refuse.so "$1" "$2" > "$work/out" 2>&1 || status=$?
        [ -e "$work/told" ] || break
        if [ "$status" = 0 ]; then
            passed=$((passed + 1))
        elif grep -q 'AllocFailed\|AllocError\|NoMemory' "$work/out"; then
            unprepared=$((unprepared + 1))
        else
            failed=1
            echo "$name $2: growth $number refused:"
            cat "$work/out"
        fi
        number=$((number + 1))
    done
    echo "$name $2: $((number - 1)) growths refused in turn: $passed passed, $unprepared ended in their own preparation"
}

[ $# -gt 0 ] || set -- tests_filters tests_table tests_machines tests_threads tests_program
for name; do
    built=$here/../crates/$name/out/${name}_tests
    [ -x "$built" ] || (cd "$here/../crates/$name" && rt test) > "$work/build.log" 2>&1 || { tail -20 "$work/build.log"; exit 1; }
    for test in $("$built" --list | sed -n 's/: test$//p' | grep 'refused_growth\|refused_memory'); do
        run_all "$built" "$test"
    done
done
exit $failed

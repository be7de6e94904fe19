#!/bin/sh
# Runs each example script and the commands of the pages, and compares what they print. A line for each script and page, then
# `N passed, M failed`; status 1 where one failed.
unset CDPATH
cd "$(dirname "$0")" || exit 2
made=$(mktemp -d) || exit 2
trap 'rm -rf "$made"' EXIT
passed=0
failed=0

# Counts an example by its name and the status of what was looked for.
count() {
    if [ "$2" -eq 0 ]; then
        passed=$((passed + 1))
        echo "example $1: as it must be"
    else
        failed=$((failed + 1))
        echo "example $1: FAILED"
    fi
}

# OUT SCRIPT FILE..: the script prints this, with status 0.
prints() {
    out=$1
    script=$2
    shift 2
    ../mkdemux sim "$@" < "$script.script" > "$made/printed" && cmp -s "$made/printed" "$out.out"
    count "$out" $?
}

# SCRIPT: its names, requests and packets, without an order of events.
unordered() {
    grep -v -E '^(settle|start|submit|startfor|take|show)( |$)' "$1.script"
}

# SCRIPT FILE..: with its requests and packets alone, and with its output after `trace`, the script prints this output again.
repeats() {
    script=$1
    shift
    { unordered "$script"; echo trace; cat "$script.out"; } |
        ../mkdemux sim "$@" > "$made/printed" && cmp -s "$made/printed" "$script.out"
    count "$script-traced" $?
}

# TIMES FILE..: runs the script $made/unordered on threads, so many times. `sim` must print each run again, but for what was left.
runs_again() {
    times=$1
    shift
    while [ "$times" -gt 0 ]; do
        times=$((times - 1))
        ../mkdemux run "$@" < "$made/unordered" > "$made/run" || return 1
        { cat "$made/unordered"; echo trace; cat "$made/run"; } | ../mkdemux sim "$@" > "$made/printed" || return 1
        grep -v '^left ' "$made/run" | cmp -s - "$made/printed" || return 1
    done
}

# SCRIPT FILE..: each of 25 runs of its requests and packets on threads is what `sim` prints again.
goes_round() {
    script=$1
    shift
    unordered "$script" > "$made/unordered"
    runs_again 25 "$@"
    count "$script-run-again" $?
}

# OUT: this is drawn as its picture, which is well-formed where xmllint is there to say so.
draws() {
    picture=../docs/pictures/$1.svg
    ../mkdemux draw < "$1.out" > "$made/printed" && cmp -s "$made/printed" "$picture" &&
        { ! command -v xmllint > /dev/null || xmllint --noout "$picture"; }
    count "$1-drawn" $?
}

# FILTER: its control flow is this text for Graphviz.
graphs() {
    ../mkdemux check --graph < "$1.asm" > "$made/printed" && cmp -s "$made/printed" "$1.dot"
    count "$1-graph" $?
}

# SCRIPT MISSING FILE..: a file is missing, so nothing is printed, its name is on standard error, the status is 3, and all of
# standard input is still there.
misses() {
    script=$1.script
    missing=$2
    shift 2
    {
        ../mkdemux sim "$@" > "$made/printed" 2> "$made/said"
        echo $?
        cat
    } < "$script" > "$made/left"
    { echo 3; cat "$script"; } | cmp -s - "$made/left" && [ ! -s "$made/printed" ] && grep -q -F "$missing" "$made/said"
    count "$missing" $?
}

# FILTER EXPRESSION FILE..: of each capture `keep` gives what tcpdump writes for this expression, where tcpdump is there, and the same of
# it in pcapng, where editcap is; kept or left out, each record goes to one of the two; and a filter that accepts all gives the capture.
keeps() {
    filter=$(cat "$1.ddd")
    expression=$2
    name=$1
    shift 2
    for capture in "$@"; do
        ../mkdemux keep "$filter" "$capture" > "$made/kept" || return 1
        ../mkdemux keep '1,6 0 0 1' "$capture" | cmp -s - "$capture" || return 1
        ../mkdemux keep --not "$filter" "$capture" > "$made/left" || return 1
        both=$(($(wc -c < "$made/kept") + $(wc -c < "$made/left") - 24))
        [ "$both" -eq "$(wc -c < "$capture")" ] || return 1
        if command -v editcap > /dev/null; then
            keeps_blocks "$capture" || return 1
        fi
        command -v tcpdump > /dev/null || continue
        tcpdump -r "$capture" -w - "$expression" 2> /dev/null > "$made/theirs" && cmp -s "$made/kept" "$made/theirs" || return 1
    done
}

# CAPTURE: written in pcapng by editcap, the same packets of it are kept, with the same times, and all where the filter accepts all.
keeps_blocks() {
    editcap -F pcapng "$1" "$made/blocks" 2> /dev/null || return 1
    ../mkdemux keep '1,6 0 0 1' "$made/blocks" | cmp -s - "$made/blocks" || return 1
    ../mkdemux keep "$filter" "$made/blocks" > "$made/kept-blocks" || return 1
    ../mkdemux match --pcap --number '1,6 0 0 1' "$made/kept" > "$made/ours" || return 1
    ../mkdemux match --pcap --number '1,6 0 0 1' "$made/kept-blocks" | cmp -s - "$made/ours"
}

prints two-phase two-phase
prints revoked revoked
prints replay replay frames.pcap
prints veto veto
prints home home
prints homes homes
prints files files frames.pcap two.pcap
prints files-swapped files two.pcap frames.pcap
repeats replay frames.pcap
repeats homes
goes_round two-phase
goes_round revoked
goes_round replay frames.pcap
goes_round veto
goes_round home
goes_round homes
goes_round files frames.pcap two.pcap
goes_round run frames.pcap
draws two-phase
draws revoked
draws replay
draws veto
draws home
graphs web-or-dns
keeps arp arp frames.pcap two.pcap
count arp-kept $?
keeps tcp-port-80 'tcp port 80' frames.pcap two.pcap
count tcp-port-80-kept $?
misses files missing.pcap frames.pcap missing.pcap

# An output that nobody reads any more ends the program with status 3, and without a word.
closes() {
    yes 00 | head -n 100000 | {
        ../mkdemux match '1,6 0 0 5' 2> "$made/said"
        echo $? > "$made/status"
    } | head -n 1 > "$made/printed"
    echo 3 | cmp -s - "$made/status" && [ ! -s "$made/said" ]
    count closed-output $?
}

# An argument that is no text is a fault of the command line.
not_utf8() {
    ../mkdemux match "$(printf '\377')" < /dev/null > "$made/printed" 2> "$made/said"
    [ $? -eq 2 ] && [ ! -s "$made/printed" ] && grep -q '^Usage: ' "$made/said"
    count not-utf-8 $?
}

# Flags that can't stand beside each other are a fault of the command line.
conflicts() {
    for flags in 'match --explain --count 1,6_0_0_5' 'match --explain --stream 1,6_0_0_5' 'check --asm --graph' \
        'match --number --quiet 1,6_0_0_5' 'match --quiet --count 1,6_0_0_5' 'match --quiet --explain 1,6_0_0_5'; do
        ../mkdemux $flags < /dev/null > "$made/printed" 2> "$made/said"
        [ $? -eq 2 ] && [ ! -s "$made/printed" ] && grep -q '^Usage: ' "$made/said" || return 1
    done
}

# The words that the help of the commands lists are those that docs/messages.md explains.
words() {
    for command in match check dump keep sim run; do
        ../mkdemux "$command" --help | sed '1,/^docs\/messages.md/d' | tr ' ' '\n' | grep -x '[A-Z][A-Za-z]*'
    done | sort -u > "$made/listed"
    sed -n 's/^### //p' ../docs/messages.md | sort -u | cmp -s - "$made/listed"
    count words $?
}

# A FILE that can't be read is named; this one is there on Linux, and none of its first bytes can be read.
unread() {
    ../mkdemux sim /proc/self/mem < files.script > "$made/printed" 2> "$made/said"
    [ $? -eq 3 ] && [ ! -s "$made/printed" ] && grep -q -F '"/proc/self/mem"' "$made/said"
    count unread $?
}

# A standard input that is closed is reported, and no FILE stands in its place.
closed_input() {
    ../mkdemux sim two-phase.script <&- > "$made/printed" 2> "$made/said"
    [ $? -eq 3 ] && [ ! -s "$made/printed" ] && [ "$(cat "$made/said")" = "mkdemux: standard input can't be read" ]
    count closed-input $?
}

# An output that takes no byte is reported.
full() {
    ../mkdemux dump < two.pcap > /dev/full 2> "$made/said"
    [ $? -eq 3 ] && [ "$(cat "$made/said")" = "mkdemux: the output can't be written" ] &&
        ! ../mkdemux keep '1,6 0 0 1' two.pcap > /dev/full 2> "$made/said" &&
        [ "$(cat "$made/said")" = "mkdemux: the output can't be written" ]
    count full-output $?
}

# The awk programs of the recipes take the line of a fault, as a capture that was cut has, for no packet.
takes_no_fault() {
    sed -n "s/.*awk '\([^']*\)'.*/\1/p" ../docs/recipes.md > "$made/programs"
    [ "$(wc -l < "$made/programs")" -ge 5 ] || return 1
    while IFS= read -r program; do
        printf '%s\n' '0 3 0 3' 'fault TruncatedRecord 24' | awk "$program" | grep -qv '^0 of 1 match' && return 1
    done < "$made/programs"
    return 0
}

closes
full
not_utf8
conflicts
count conflicts $?
unread
closed_input
words
takes_no_fault
count recipes-with-faults $?

# The commands of each page, with what the page says that they print.
for page in README.md docs/messages.md docs/recipes.md docs/scripts.md docs/run.md docs/pictures.md docs/crates.md examples/commands.md; do
    ./blocks.py "$page"
    count "$page" $?
done
./excerpts.py
count README-excerpts $?
echo "$passed passed, $failed failed"
[ "$failed" -eq 0 ]

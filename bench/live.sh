#!/bin/sh
# Measures cores in threads of a C program (live_peer.c over libmkdemux_cores.a) beside loops of libpcap's bpf_filter over an array of the
# same filters: alone, under a read-write lock, and over an array that is copied at each change.
# Usage: bench/live.sh [-r ROUNDS] [-l FOLDER] [PART..]. Parts, by default all, in two minutes with 7 rounds:
#   alone         processor time of a packet in one thread: 1, 16 and 1,000 filters
#   shapes        processor time of a packet in one thread under 1,024 filters of ten shapes (shapes_peer.c), beside one filter
#   packets       packets a second and thread: 16 and 1,000 filters, 0, 100 and 10,000 changes a second, 1 to 4 threads
#   decide        from ask to decision
#   asleep        the same where threads sleep until a turn names their core, and their processor time while nothing is asked
#   turns         idle turns and changes of 8 and of 64 cores in one thread
#   memory        the peak after 10^6 packets and 10^4 changes, and after 10^8 and 10^6 more
#   allocations   for each packet and each change
# FOLDER has the library, as ./libmkdemux --cores FOLDER makes it, by default dist/. WRAP="chrt -r 5" is put before each command. Needs a
# C compiler and libpcap.
unset CDPATH
set -e
here=$(cd "$(dirname "$0")" && pwd)
rounds=7
folder=$here/../dist
while getopts r:l: option; do
    case $option in
    r) rounds=$OPTARG ;;
    l) folder=$OPTARG ;;
    *) exit 2 ;;
    esac
done
shift $((OPTIND - 1))
[ $# -gt 0 ] || set -- alone shapes packets decide asleep turns memory allocations
work=$(mktemp -d)
trap 'rm -rf "$work"' EXIT
cc=${CC:-cc}

# bpf_filter as code of the program itself, as the library's is, where libpcap's archive is there.
bpf=
archive=$($cc -print-file-name=libpcap.a)
if [ -f "$archive" ] && ar p "$archive" bpf_filter.o > "$work/bpf_filter.o" 2> /dev/null; then
    bpf=$work/bpf_filter.o
fi
$cc -std=c11 -D_GNU_SOURCE -O2 -I"$folder/include" -o "$work/live_peer" "$here/live_peer.c" $bpf "$folder/lib/libmkdemux_cores.a" \
    -Wl,--wrap=malloc,--wrap=realloc -lpcap -lpthread

alone() {
    for filters in 1 16 1000; do
        $WRAP "$work/live_peer" alone $filters one 41
        $WRAP "$work/live_peer" alone $filters many 41
    done
}

shapes() {
    $cc -std=c11 -D_GNU_SOURCE -O2 -w -I"$folder/include" -o "$work/shapes_peer" "$here/shapes_peer.c" $bpf \
        "$folder/lib/libmkdemux_cores.a" -lpcap
    $WRAP "$work/shapes_peer" "$rounds"
}

packets() {
    for filters in 16 1000; do
        for threads in 1 2 3 4; do
            $WRAP "$work/live_peer" packets $filters one 0 $threads "$rounds"
            $WRAP "$work/live_peer" packets $filters many 0 $threads "$rounds"
            for changes in 100 10000; do
                $WRAP "$work/live_peer" packets $filters many $changes $threads "$rounds"
            done
        done
    done
}

decide() {
    for cores in 2 4 64; do
        for asker in 0 1; do
            for batch in 0 32; do
                $WRAP "$work/live_peer" decide $cores $asker $batch 2000
            done
        done
    done
}

asleep() {
    for cores in 2 4; do
        for asker in 0 1; do
            $WRAP "$work/live_peer" asleep $cores $asker 2000
        done
    done
}

turns() {
    $WRAP "$work/live_peer" turns 64 21
}

memory() {
    $WRAP "$work/live_peer" memory 100000000 1000000
}

allocations() {
    for filters in 16 1000; do
        "$work/live_peer" allocations $filters
    done
}

for part; do
    case $part in
    alone | shapes | packets | decide | asleep | turns | memory | allocations) "$part" ;;
    *) echo "live: there is no part $part" >&2; exit 2 ;;
    esac
done

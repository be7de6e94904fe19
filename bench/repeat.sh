#!/bin/sh
# Runs scripts by `mkdemux run`, again and again, and each trace again by `mkdemux sim`, which must print the same lines but for those of
# packets that were left. Usage: bench/repeat.sh [RUNS], by default 1,000 of each script.
unset CDPATH
cd "$(dirname "$0")/.." || exit 2
runs=${1:-1000}
here=bench
. bench/program.sh
work=$(mktemp -d) || exit 2
trap 'rm -rf "$work"' EXIT
cat > "$work/two.script" <<END
cores 100 100
ddd all 1,6 0 0 65535
packet q 0102030405
create 1 7
install 1 1 all
rx 1 q 2
rx 1 q 9
END
sed 's/^create 1 7/home 1 1\n&/' "$work/two.script" > "$work/home.script"
cp examples/run.script "$work/four.script"
{
    echo "limits 40 40"
    echo "cores$(printf ' 100%.0s' $(seq 64))"
    printf '%s\n' "ddd all 1,6 0 0 65535" "packet q 0102030405" "home 1 63" "home 2 31"
    for i in 1 2 3 4 5; do
        printf '%s\n' "create $i $i" "create 1 $((i + 10))" "install 1 $i all" "rx $((i * 12)) q $i"
    done
} > "$work/many.script"
status=0
for name in two home four many; do
    script=$work/$name.script
    : > "$work/sums"
    wrong=0
    for run in $(seq "$runs"); do
        $program run examples/frames.pcap < "$script" > "$work/run" &&
            { cat "$script"; echo trace; cat "$work/run"; } | $program sim examples/frames.pcap > "$work/sim" &&
            grep -v '^left ' "$work/run" | cmp -s - "$work/sim" || wrong=$((wrong + 1))
        cksum < "$work/run" >> "$work/sums"
    done
    echo "$name: $runs runs, $(sort -u "$work/sums" | wc -l) different ones, $wrong not repeated"
    [ "$wrong" -eq 0 ] || status=1
done
exit $status

"""Measures mkdemux against its C peers: wall time, processor time and peak memory, over ROUNDS pairs of neighbouring runs.

Usage: programs.py MKDEMUX FOLDER [ROUNDS]. FOLDER has the inputs of inputs.py, the peers, and `programs`, which runs them.
Times are medians. A ratio is the median of the pairs' ratios, in brackets the least and the greatest of them.
"""
import os
import shutil
import statistics
import subprocess
import sys

mkdemux, folder = sys.argv[1:3]
rounds = int(sys.argv[3]) if len(sys.argv) > 3 else 11
ARP = "4,40 0 0 12,21 0 1 2054,6 0 0 4294967295,6 0 0 0"


def run(words, name, out):
    """Wall time and processor time in seconds, and peak memory in MB. Standard output is this file, if one is given."""
    words = [f"{folder}/programs", f"{folder}/{name}", *words]
    where = {**os.environ, "OUT": out} if out else None
    told = subprocess.run(words, check=True, capture_output=True, text=True, env=where).stdout.split()
    return float(told[0]) / 1e6, float(told[1]) / 1e6, float(told[2]) / 1e3


def spread(ratios):
    return f"{statistics.median(ratios):.2f} ({min(ratios):.2f} to {max(ratios):.2f})"


def compare(what, name, ours, peer, out=None):
    pairs = [(run(ours, name, out), run(peer, name, None)) for _ in range(rounds)]
    wall = [statistics.median(pair[side][0] for pair in pairs) for side in (0, 1)]
    peak = [max(pair[side][2] for pair in pairs) for side in (0, 1)]
    ratios = [spread([pair[0][kind] / pair[1][kind] for pair in pairs]) for kind in (0, 1)]
    size = os.path.getsize(f"{folder}/{name}") / 1e6
    print(
        f"| {what} | {wall[0] * 1e3:.0f} | {wall[1] * 1e3:.0f} | {ratios[0]} | {ratios[1]} | {size / wall[0]:.0f} "
        f"| {peak[0]:.1f} | {peak[1]:.1f} |",
        flush=True,
    )


print("| Input | mkdemux, ms | other, ms | ratio | ratio of processor time | mkdemux, MB/s | peak, MB | other's peak, MB |")
print("|---|---|---|---|---|---|---|---|")
for digits in (400, 120):
    name = f"lines{digits}.hex"
    compare(f"`match`, lines of {digits} digits", name, [mkdemux, "match", ARP], [f"{folder}/match_peer", ARP])
    compare("`match --stream`, the same, to `match`", name, [mkdemux, "match", "--stream", ARP], [mkdemux, "match", ARP])
compare("`dump`, packets of 60 bytes", "packets60.pcap", [mkdemux, "dump"], [f"{folder}/dump_peer"])
compare("`dump`, packets of 1,500 bytes", "packets1500.pcap", [mkdemux, "dump"], [f"{folder}/dump_peer"])
tcpdump = shutil.which("tcpdump")
for what, name in [(f"200,000 packets of {size} bytes", f"many{size}.pcap") for size in (60, 100, 200)] + [
    ("40,000 packets of 1,500 bytes", "packets1500.pcap")
]:
    ours = [mkdemux, "match", ARP, "--pcap"]
    compare(f"`match --pcap`, {what}", name, ours, [f"{folder}/capture_peer", ARP, f"{folder}/{name}"])
    compare("`match --stream --pcap`, the same, to `match --pcap`", name, [*ours, "--stream"], ours)
    if tcpdump:
        theirs = [tcpdump, "-r", f"{folder}/{name}", "-w", "/dev/null", "arp"]
        compare("`match --pcap`, the same, to `tcpdump -r FILE -w /dev/null arp`", name, ours, theirs)
if tcpdump:
    for size in (60, 200, 1500):
        name, kept = f"many{size}.pcap", f"{folder}/kept.pcap"
        for what, code, words in (("ARP by type", ARP, ["arp"]), ("every packet", "1,6 0 0 1", [])):
            # As root, tcpdump would write as a user of its own, who may not write here.
            root = ["-Z", "root"] if os.geteuid() == 0 else []
            theirs = [tcpdump, *root, "-r", f"{folder}/{name}", "-w", f"{folder}/kept-by-tcpdump.pcap", *words]
            what = f"`keep` to a file, 200,000 packets of {size:,} bytes, {what}, to `tcpdump -r IN -w OUT`"
            compare(what, name, [mkdemux, "keep", code], theirs, kept)
for size in (60, 200, 1500):
    for what, code in (("ARP by type", ARP), ("every packet", "1,6 0 0 1")):
        of_blocks, of_records = ([mkdemux, "keep", code, f"{folder}/many{size}.{kind}"] for kind in ("pcapng", "pcap"))
        compare(f"`keep` of pcapng, 200,000 packets of {size:,} bytes, {what}, to the same in a savefile", f"many{size}.pcapng", of_blocks, of_records)
# Those of 1,500 bytes are more than these two read.
for size in (60, 200):
    for words in (["match", "--pcap", ARP], ["dump"]):
        of_blocks, of_records = ([mkdemux, *words, f"{folder}/many{size}.{kind}"] for kind in ("pcapng", "pcap"))
        what = f"`{words[0]}` of pcapng, 200,000 packets of {size:,} bytes, to the same in a savefile"
        compare(what, f"many{size}.pcapng", of_blocks, of_records)
compare("`check`, a comment of 60 MB", "comment.asm", [mkdemux, "check"], [f"{folder}/text_peer"])
compare("`check`, 4,096 instructions and labels", "labels.asm", [mkdemux, "check"], [f"{folder}/text_peer"])

"""Runs a machine of threads beside plain threads in C, by turns, and prints medians with the 10th and the 90th percentile.

Usage: threads.py PROVED PEER ROUNDS [WORD]..: the words are put before each command, as `chrt -r 5` on a busy machine.
"""
import statistics
import subprocess
import sys

proved, peer, rounds = sys.argv[1], sys.argv[2], int(sys.argv[3])
before = sys.argv[4:]
PACKETS = 100_000
CHANGES = 2_000
COUNTS = (1, 2, 3, 4)
RELEASED = 10


def run(*words):
    """The nanoseconds of all, from the first receipt to the last, and a packet's: the median and the 99th percentile."""
    out = subprocess.run(before + [str(word) for word in words], capture_output=True, text=True, check=True).stdout
    return [int(word) for word in out.split()]


def spread(values, digits=2):
    ordered = sorted(values)
    tenth = len(ordered) // 10
    low, middle, high = (f"{ordered[at]:.{digits}f}" for at in (tenth, len(ordered) // 2, len(ordered) - 1 - tenth))
    return f"{middle} ({low} to {high})"


def ratios(numerators, denominators):
    return spread(a / b for a, b in zip(numerators, denominators))


def packets(filters, each):
    """Millions of packets a second between the first receipt and the last, so many on each core."""
    kinds = {"machine": [proved], "mutex": [peer, "mutex"], "free": [peer, "free"]}
    rates = {(kind, cores): [] for kind in kinds for cores in COUNTS}
    waits = {key: [] for key in rates}
    for _ in range(rounds):
        for cores in COUNTS:
            for kind, words in kinds.items():
                found = run(*words, cores, each, 0, filters)
                rates[kind, cores].append(cores * each * 1000 / found[1])
                waits[kind, cores].append(found[2:])
    for kind in kinds:
        for cores in COUNTS:
            median = statistics.median(wait[0] for wait in waits[kind, cores]) / 1000
            late = statistics.median(wait[1] for wait in waits[kind, cores]) / 1000
            print(f"{filters} filters, {kind}, {cores} cores: {spread(rates[kind, cores])} million packets a second, to 1 core {ratios(rates[kind, cores], rates[kind, 1])}; "
                  f"the machine to it {ratios(rates['machine', cores], rates[kind, cores])}; wait {median:.1f} us, 99th percentile {late:.1f} us")


def changes(filters, packets_each):
    """Thousands of changes a second, over the whole run."""
    kinds = {"machine": [proved], "mutex": [peer, "mutex"]}
    rates = {(kind, cores): [] for kind in kinds for cores in (2, 4)}
    for _ in range(rounds):
        for cores in (2, 4):
            for kind, words in kinds.items():
                rates[kind, cores].append(CHANGES * 1e6 / run(*words, cores, packets_each, CHANGES, filters)[0])
    for kind in kinds:
        for cores in (2, 4):
            print(f"{filters} filters, {kind}, {cores} cores, {packets_each // CHANGES} packets a change on each: {spread(rates[kind, cores], 1)} thousand changes a second; "
                  f"the machine to it {ratios(rates['machine', cores], rates[kind, cores])}")


packets(16, PACKETS)
packets(1000, PACKETS // 10)
for filters in (16, 1000):
    changes(filters, 0)
    changes(filters, RELEASED * CHANGES)

"""Reads what loop.rattle prints, and prints medians with the 10th and the 90th percentile.

A line is NAME, COUNT: NANOSECONDS, and where there is a peer the count and the nanoseconds of the same work done by it just before.
"""
import sys
from collections import defaultdict


def spread(values):
    ordered = sorted(values)
    tenth = len(ordered) // 10
    return f"{ordered[len(ordered) // 2]:.3g} ({ordered[tenth]:.3g} to {ordered[-1 - tenth]:.3g})"


rounds = defaultdict(list)
for line in sys.stdin:
    name, numbers = line.rsplit(":", 1)
    name, count = name.rsplit(",", 1)
    rounds[name].append((int(count), [int(number) for number in numbers.split()]))
for name, found in rounds.items():
    each = [nanos[0] / count for count, nanos in found]
    print(f"{name}: {found[0][0]} a round, {spread(each)} ns each", end="")
    if len(found[0][1]) > 1:
        peer = [nanos[2] / nanos[1] for _, nanos in found]
        print(f"; the peer's {found[0][1][1]}, {spread(peer)} ns each", end="")
        print(f"; ratio {spread(nanos[0] / nanos[2] for _, nanos in found)}", end="")
        print(f"; difference {spread((nanos[0] - nanos[2]) / count for count, nanos in found)} ns", end="")
    print()

"""Measures `mkdemux run` and `mkdemux sim` on one script, by turns: medians of nine rounds, in brackets the least and the greatest.

Usage: run.py MKDEMUX FOLDER [COMMAND..]. The script installs 16 filters of 24 instructions at one endpoint, or FILTERS of them where
that is set, up to 1,024, and deals out a capture of 1,000,000 packets of 48 bytes to its cores, which receive them once all filters are
installed.
"""
import os
import random
import statistics
import struct
import subprocess
import sys
import time

mkdemux, folder, *starter = sys.argv[1:]
PACKETS, ROUNDS, CORES = 1_000_000, 9, (1, 2, 4)
FILTERS = int(os.environ.get("FILTERS", "16"))
capture = f"{folder}/run.pcap"


def write_capture():
    random.seed(1)
    frames = []
    for place in range(256):
        frame = bytearray(random.randbytes(48))
        frame[12:14] = b"\x08\x00" if place % 3 else b"\x08\x06"
        frames.append(struct.pack("<IIII", 0, 0, 48, 48) + bytes(frame))
    with open(capture, "wb") as out:
        out.write(struct.pack("<IHHiIII", 0xA1B2C3D4, 2, 4, 0, 0, 65535, 1))
        for place in range(PACKETS):
            out.write(frames[place % 256])


def script(cores, settle):
    """A load of the protocol, 22 tests of it, of which most fail, and a verdict."""
    text = ["cores " + " ".join([str(24 * FILTERS)] * cores), "capture c 1"]
    for number in range(FILTERS):
        tests = ",".join(f"21 0 0 {2048 + 31 * number + 7 * test}" for test in range(22))
        text.append(f"ddd f{number} 24,40 0 0 12,{tests},6 0 0 {number + 1}")
    text += ["create 1 7"] + [f"install 1 1 f{number}" for number in range(FILTERS)]
    text += ["settle"] if settle else []
    return "\n".join(text + [f"replay c {FILTERS + 1}"]) + "\n"


def timed(command, name):
    with open(name, "rb") as source, open(os.devnull, "wb") as sink:
        begin = time.perf_counter()
        child = subprocess.Popen([*starter, mkdemux, command, capture], stdin=source, stdout=sink)
        _, status, usage = os.wait4(child.pid, 0)
        assert status == 0
        return time.perf_counter() - begin, usage.ru_maxrss / 1024


def told(values, form):
    return f"{form.format(statistics.median(values))} ({form.format(min(values))} to {form.format(max(values))})"


write_capture()
for cores in CORES:
    for command in ("run", "sim"):
        with open(f"{folder}/{command}{cores}.script", "w") as out:
            out.write(script(cores, command == "sim"))
print("| Cores | `run`, s | `sim`, s | packets a second of `run`, to `sim` | peak of `run`, MB | of `sim`, MB |")
print("|---|---|---|---|---|---|")
for cores in CORES:
    rounds = [[timed(command, f"{folder}/{command}{cores}.script") for command in ("run", "sim")] for _ in range(ROUNDS)]
    runs, sims = ([pair[place][0] for pair in rounds] for place in (0, 1))
    ratios = [sim / run for run, sim in zip(runs, sims)]
    peaks = [max(pair[place][1] for pair in rounds) for place in (0, 1)]
    print(f"| {cores} | {told(runs, '{:.2f}')} | {told(sims, '{:.2f}')} | {told(ratios, '{:.2f}')} | {peaks[0]:.0f} | {peaks[1]:.0f} |")

"""Measures `mkdemux sim`: the best of nine runs of each script, by turns.

Usage: sim.py MKDEMUX FOLDER, where FOLDER has the program of programs.c, which starts each run. A script has four cores, 16 filters of 25
instructions at four endpoints, and then lines by turns `rx` and `settle`; the packets go to the cores in turn. Two more have one core: 50,000
lines that receive one packet of 16 KB, and a replay of a capture of 15 MB, once more with its own output after `trace`.
"""
import subprocess
import sys

mkdemux, folder = sys.argv[1:3]
SIZES = (50_000, 100_000, 200_000, 400_000)
ROUNDS = 9


def program(number):
    """25 instructions: 24 loads of the packet's first byte, and a verdict."""
    return "25," + "48 0 0 0," * 24 + f"6 0 0 {number}"


def script(lines):
    text = ["cores 1000 1000 1000 1000", "packet p " + "00" * 60]
    text += [f"ddd f{i} {program(10 + i)}" for i in range(16)]
    text += [f"create 1 {i}" for i in range(4)]
    text += [f"install 1 {1 + i % 4} f{i}" for i in range(16)]
    text.append("settle")
    text += [f"rx {i // 2 % 4} p" if i % 2 == 0 else "settle" for i in range(lines)]
    return "\n".join(text) + "\n"


def run(name, *files):
    """Seconds of wall time and of processor time, and the peak memory in MB."""
    words = [f"{folder}/programs", name, mkdemux, "sim", *files]
    wall, cpu, peak = subprocess.run(words, stdout=subprocess.PIPE, check=True).stdout.split()
    return float(wall) / 1e6, float(cpu) / 1e6, int(peak) / 1024


def capture(size, each):
    """A capture of about so many bytes, of packets of so many bytes each."""
    record = b"".join(n.to_bytes(4, "little") for n in (0, 0, each, each)) + b"\0" * each
    head = b"\xd4\xc3\xb2\xa1\2\0\4\0" + b"\0" * 8 + b"\0\0\4\0\1\0\0\0"
    return head + record * (size // len(record))


def write(name, data):
    with open(f"{folder}/{name}", "wb") as out:
        out.write(data)
    return f"{folder}/{name}"


best = {lines: [9e9, 9e9, 0.0] for lines in SIZES}
for lines in SIZES:
    with open(f"{folder}/sim{lines}.script", "w") as out:
        out.write(script(lines))
for _ in range(ROUNDS):
    for lines in SIZES:
        wall, cpu, peak = run(f"{folder}/sim{lines}.script")
        best[lines] = [min(best[lines][0], wall), min(best[lines][1], cpu), max(best[lines][2], peak)]
print("| Lines | wall, ms | processor, ms | ns a line | peak, MB |")
print("|---|---|---|---|---|")
for lines in SIZES:
    wall, cpu, peak = best[lines]
    print(f"| {lines} | {wall * 1e3:.0f} | {cpu * 1e3:.0f} | {wall * 1e9 / lines:.0f} | {peak:.0f} |")



def to_port(number):
    """UDP datagrams over IPv4 to a port, as `tcpdump -ddd 'ip and udp dst port N'` has it."""
    return f"11,40 0 0 12,21 0 8 2048,48 0 0 23,21 0 6 17,40 0 0 20,69 4 0 8191,177 0 0 14,72 0 0 16,21 0 1 {number},6 0 0 262144,6 0 0 0"


def filtered(filters, lines):
    """So many filters, each for a port and an endpoint of its own, and lines with a datagram to the port of the filter in the middle."""
    port = 1000 + filters // 2
    packet = "00" * 12 + "0800" + "45" + "00" * 8 + "11" + "00" * 12 + f"{port:04x}" + "00" * 22
    text = ["cores 100000", "packet p " + packet]
    for i in range(filters):
        text += [f"ddd f{i} {to_port(1000 + i)}", f"create 1 {i}", f"install 1 {i + 1} f{i}"]
    text.append("settle")
    return "\n".join(text + ["rx 0 p"] * lines) + "\n"


print("| Filters | a packet, us |")
print("|---|---|")
FILTERS = (1, 10, 100, 1000)
PACKETS = 50_000
none = {count: 9e9 for count in FILTERS}
full = {count: 9e9 for count in FILTERS}
for _ in range(ROUNDS):
    for count in FILTERS:
        none[count] = min(none[count], run(write("none.script", filtered(count, 0).encode()))[0])
        full[count] = min(full[count], run(write("full.script", filtered(count, PACKETS).encode()))[0])
for count in FILTERS:
    print(f"| {count} | {(full[count] - none[count]) * 1e6 / PACKETS:.2f} |")

named = write("named.script", b"cores 100\npacket p " + b"00" * 16384 + b"\n" + b"rx 0 p\n" * 50_000)
print("| Script | size, MB | wall, ms | peak, MB |")
print("|---|---|---|---|")
wall, _, peak = run(named)
print(f"| 50,000 lines of one packet of 16 KB | 0.4 | {wall * 1e3:.0f} | {peak:.1f} |")
replay = b"cores 100\ncapture c 1\nreplay c\n"
for each in (60, 218, 1500):
    file = write(f"capture{each}", capture(15_000_000, each))
    script_file = write("replay.script", replay)
    wall, _, peak = run(script_file, file)
    print(f"| a replay of packets of {each} bytes | 15 | {wall * 1e3:.0f} | {peak:.1f} |")
    with open(script_file, "rb") as source:
        printed = subprocess.run([mkdemux, "sim", file], stdin=source, stdout=subprocess.PIPE, check=True).stdout
    wall, _, peak = run(write("trace.script", replay + b"trace\n" + printed), file)
    print(f"| its trace | {15 + len(printed) / 1e6:.0f} | {wall * 1e3:.0f} | {peak:.1f} |")

"""Writes what the programs are measured on: lines of hexadecimal digits, and captures of both formats. Usage: inputs.py FOLDER"""
import random
import struct
import sys

random.seed(7)
folder = sys.argv[1]


def packet(size, number):
    """A packet of random bytes; every third is ARP by its type."""
    made = bytearray(random.randbytes(size))
    if number % 3 == 0 and size >= 14:
        made[12:14] = b"\x08\x06"
    return bytes(made)


def lines(name, size, total):
    """Lines of about 2 * size digits."""
    made = [packet(size + random.randint(-10, 10), i).hex().encode() + b"\n" for i in range(5000)]
    with open(f"{folder}/{name}", "wb") as out:
        written = number = 0
        while written < total:
            out.write(made[number % len(made)])
            written += len(made[number % len(made)])
            number += 1


def capture(name, size, total=0, count=0):
    """A little-endian capture with microseconds, of packets of one size."""
    made = [struct.pack("<IIII", i, 0, size, size) + packet(size, i) for i in range(1000)]
    with open(f"{folder}/{name}", "wb") as out:
        out.write(struct.pack("<IHHiIII", 0xA1B2C3D4, 2, 4, 0, 0, 262144, 1))
        written = number = 0
        while written < total or number < count:
            out.write(made[number % len(made)])
            written += len(made[number % len(made)])
            number += 1


def blocks(name, size, count):
    """The same packets in little-endian pcapng: a section, an interface of Ethernet, and enhanced packet blocks with microseconds."""
    padding = -size % 4
    total = 32 + size + padding

    def block(number):
        stamp = number % 1000 * 1_000_000
        front = struct.pack("<IIIIIII", 6, total, 0, stamp >> 32, stamp & 0xFFFFFFFF, size, size)
        return front + packet(size, number) + bytes(padding) + struct.pack("<I", total)

    made = [block(number) for number in range(1000)]
    with open(f"{folder}/{name}", "wb") as out:
        out.write(struct.pack("<IIIHHQI", 0x0A0D0D0A, 28, 0x1A2B3C4D, 1, 0, 2**64 - 1, 28))
        out.write(struct.pack("<IIHHII", 1, 20, 1, 0, 262144, 20))
        for number in range(count):
            out.write(made[number % len(made)])


lines("lines400.hex", 200, 60_000_000)
lines("lines120.hex", 60, 60_000_000)
capture("packets60.pcap", 60, total=60_000_000)
capture("packets1500.pcap", 1500, total=60_000_000)
for size in (60, 100, 200, 1500):
    capture(f"many{size}.pcap", size, count=200_000)
    blocks(f"many{size}.pcapng", size, count=200_000)

# Assembler texts: 4,096 instructions with a label each, a jump to the next label every fourth, and a comment of 60 MB.
with open(f"{folder}/labels.asm", "w") as out:
    for place in range(4095):
        out.write(f"label_{place}: " + (f"jeq #{place}, label_{place + 1}\n" if place % 4 == 0 else f"ld #{place}\n"))
    out.write("label_4095: ret #0\n")
with open(f"{folder}/comment.asm", "w") as out:
    out.write("; " + "a comment of many words; " * 2_400_000 + "\nret #0\n")

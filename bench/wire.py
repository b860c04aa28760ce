#!/usr/bin/env python3
"""Times the wire's code, and prints the figures as ratios.

usage: bench/wire.py PROGRAM
  PROGRAM  the built program hdfs_bench

Checksums: 200 MB in chunks of 512 bytes and of 1 MiB, beside bench/crc.c, which does the same by the same method and is
compiled by clang -O2. The ratio is C's time to ours, so above 1 is faster than C.
Frames: 64 MiB in frames of 1,024 bytes (and 32 MiB), fed in pieces of one size, and in one piece.
Packets: written, read again and checked, beside the two checksums that each of their bytes goes through; and read and checked
alone, beside the checksums of their chunks in C, one after another.
Each run is made fifteen times, those that are compared by turns, and the fastest counts, in processor seconds of the
process, so that other processes disturb it little.
"""
import os
import subprocess
import sys
import tempfile

from timing import fastest

RUNS = 15
MIB = 1 << 20
FRAME = 1024


def sums(program, other, name, size):
    count = 200_000_000 // size
    (ours, theirs), numbers = fastest(RUNS, [program, name, size, count], [other, name, size, count])
    assert numbers[0] == numbers[1]
    speed = size * count / ours / 1e9
    print(f"{name}, chunks of {size:,} bytes: {theirs / ours:.2f} of C's speed ({speed:.1f} GB per second)")


def frames(program, piece):
    many, few = 64 * MIB // FRAME, 32 * MIB // FRAME
    (large, small), numbers = fastest(RUNS, [program, "frames", many, piece], [program, "frames", few, piece])
    assert numbers == [many, few]
    print(f"frames in pieces of {piece:,}: per byte, 64 MiB against 32 MiB: {large / 2 / small:.2f} times")


def packets(program, size):
    count = 100_000_000 // size
    words = [program, "packets", size, count], [program, "crc32c", 512, size * count // 512]
    (whole, sum_only), numbers = fastest(RUNS, *words)
    assert numbers[0] == size * count
    print(f"packets of {size:,}: {whole / 2 / sum_only:.2f} times the two checksums")


def checks(program, other, size):
    count = 200_000_000 // size
    words = [program, "checks", size, count], [other, "crc32c", 512, size * count // 512]
    (ours, theirs), numbers = fastest(RUNS, *words)
    assert numbers[0] == size * count
    print(f"packets of {size:,} checked: {theirs / ours:.2f} of C's speed, one chunk after another")


def main():
    program = sys.argv[1]
    source = os.path.join(os.path.dirname(os.path.abspath(__file__)), "crc.c")
    with tempfile.TemporaryDirectory() as folder:
        other = os.path.join(folder, "crc")
        subprocess.run(["clang", "-O2", "-o", other, source], check=True)
        for name in ["crc32c", "crc32"]:
            for size in [512, MIB]:
                sums(program, other, name, size)
        checks(program, other, 64_512)
    for piece in [1, 1_000, 65_536, 64 * MIB]:
        frames(program, piece)
    for size in [512, 32_256, 64_512]:
        packets(program, size)


if __name__ == "__main__":
    main()

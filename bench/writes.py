#!/usr/bin/env python3
"""Times files that a session writes to a cluster in memory, and prints the figures as ratios.

usage: bench/writes.py PROGRAM
  PROGRAM  the built program hdfs_unit_tests

One file of 8,000,000 bytes, in one block, with one replica and with three; and 1,000 files and 10,000 of 16,000 bytes, with three. The
making of the commands, which have the bytes, is taken off.
Each run is made seven times, by turns, and the fastest counts, in processor seconds of the process.
"""
import sys

from timing import fastest

RUNS = 7
BLOCK = 8_000_000
FILE = 16_000


def main():
    program = sys.argv[1]
    words = [
        [program, "times", "files_0", 1, BLOCK],
        [program, "times", "files_1", 1, BLOCK],
        [program, "times", "files_3", 1, BLOCK],
        [program, "times", "files_0", 1_000, FILE],
        [program, "times", "files_3", 1_000, FILE],
        [program, "times", "files_0", 10_000, FILE],
        [program, "times", "files_3", 10_000, FILE],
    ]
    (made, one, three, few_made, few, many_made, many), numbers = fastest(RUNS, *words)
    assert numbers == [BLOCK] * 3 + [1_000 * FILE] * 2 + [10_000 * FILE] * 2
    print(f"a block of 8,000,000 bytes on three datanodes against one: {(three - made) / (one - made):.2f} times")
    print(f"that block on one datanode: {(one - made) / BLOCK * 1e9:.2f} ns a byte")
    print(f"a file of 16,000 bytes among 10,000 against one among 1,000: {(many - many_made) / (few - few_made) / 10:.2f} times")
    print(f"a file of those: {(few - few_made) * 1e3:.0f} microseconds")


if __name__ == "__main__":
    main()

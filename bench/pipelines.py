#!/usr/bin/env python3
"""Times the events of a write pipeline whose window is full, and prints the figures as ratios.

usage: bench/pipelines.py PROGRAM
  PROGRAM  the built program hdfs_bench

10,000,000 events, a quarter each of acknowledgements, pushes, takes and writes, on three nodes: with a window of 1,000
packets and with one of 2, and the packets alone, which are made and let go without a pipeline.
Each run is made fifteen times, by turns, and the fastest counts, in processor seconds of the process.
"""
import sys

from timing import fastest

RUNS = 15
EVENTS = 10_000_000


def main():
    program = sys.argv[1]
    words = [[program, "pipeline", window, EVENTS // 4] for window in (1000, 2, 0)]
    (wide, narrow, packets), numbers = fastest(RUNS, *words)
    assert numbers == [EVENTS] * 3
    print(f"an event at window 1,000 against window 2: {wide / narrow:.2f} times ({wide / EVENTS * 1e9:.0f} ns against {narrow / EVENTS * 1e9:.0f} ns)")
    print(f"without the making of the packets: {(wide - packets) / (narrow - packets):.2f} times")
    print(f"the making of a packet: {packets / EVENTS * 4e9:.0f} ns")


if __name__ == "__main__":
    main()

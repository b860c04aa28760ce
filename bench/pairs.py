#!/usr/bin/env python3
"""Times two threads over one write pipeline beside one thread that sends and asks by turns, and prints the figures as ratios.

usage: bench/pairs.py PROGRAM
  PROGRAM  the built program hdfs_bench

Packets of a byte go to a node in memory: 10,000 with a window of 1,000, by two threads and by one; 1,000 and 100,000 by
two, with a window of 100. 2,000 go to a node whose acknowledgements come 50 microseconds late, with a window of 1 and of 100.
Each run is made fifteen times, by turns, and the fastest counts: in processor seconds of the process, and by the clock.
"""
import os
import subprocess
import sys
import time

RUNS = 15
RUNS_OF = {
    "pair": ("pair", 10_000, 1_000),
    "alone": ("turns", 10_000, 1_000),
    "few": ("pair", 1_000, 100),
    "many": ("pair", 100_000, 100),
    "in turn": ("late", 2_000, 1),
    "windowed": ("late", 2_000, 100),
    "start": ("pair", 1, 1),
}


def run(program, words):
    """The processor seconds of a run, and those by the clock."""
    begin = time.monotonic()
    child = subprocess.Popen([program, *map(str, words)], stdout=subprocess.DEVNULL)
    _, status, usage = os.wait4(child.pid, 0)
    clock = time.monotonic() - begin
    assert os.waitstatus_to_exitcode(status) == 0
    return usage.ru_utime + usage.ru_stime, clock


def main():
    program = sys.argv[1]
    taken = {name: [] for name in RUNS_OF}
    for _ in range(RUNS):
        for name, words in RUNS_OF.items():
            taken[name].append(run(program, words))
    cpu = {name: min(one[0] for one in runs) for name, runs in taken.items()}
    clock = {name: min(one[1] for one in runs) for name, runs in taken.items()}
    print(f"two threads against one, processor time: {cpu['pair'] / cpu['alone']:.2f} times")
    print(f"by the clock: {clock['pair'] / clock['alone']:.2f} times")
    print(f"a packet of two threads: {cpu['pair'] / 10_001 * 1e6:.2f} microseconds of the processors")
    few, many = ((cpu[name] - cpu["start"]) / count for name, count in (("few", 1_000), ("many", 100_000)))
    print(f"a packet among 100,000 against one among 1,000, processor time: {many / few:.2f} times")
    print(f"a node that is late, window 100 against window 1, speed: {clock['in turn'] / clock['windowed']:.1f} times")


if __name__ == "__main__":
    main()

#!/usr/bin/env python3
"""Times the code of the libraries beside the client, and prints the figures as ratios.

usage: bench/libraries.py PROGRAM [EARLIER]
  PROGRAM  the built program hdfs_bench
  EARLIER  an earlier build of it

Shards: encoded, and decoded with as many data shards lost as there are parity shards, of 3+2, 6+3 and 10+4 shards of 64 KiB and
of 1 MiB, beside bench/shards.c, which looks up a product a byte and is compiled by clang -O2, and, where libisal-dev is installed,
beside bench/isal.c, which is ISA-L's SSE code. The ratios are their times to ours.
Globs: `a*a*a*a*a*a*a*a*b` against 1,000,000 times the letter a, which it doesn't match, and against 500,000; and with four
stars in place of eight.
Elements: 50,000,000 products and as many quotients, and those of the earlier build.
Each run is made five times, those that are compared by turns, and the fastest counts, in processor seconds of the process.
"""
import os
import subprocess
import sys
import tempfile

from timing import fastest

RUNS = 5
KIB = 1 << 10
MIB = 1 << 20


def built(folder, name, *libraries):
    """The program of a C file, or None where a library is missing."""
    source = os.path.join(os.path.dirname(os.path.abspath(__file__)), name + ".c")
    other = os.path.join(folder, name)
    done = subprocess.run(["clang", "-O2", "-o", other, source, *libraries], stderr=subprocess.DEVNULL)
    return other if done.returncode == 0 else None


def shards(program, others, work, units, parity, size):
    times = max(1, 400 * MIB // (size * units))
    code = f"{work}_{units}_{parity}"
    words = [[other, work, units, parity, size, times] for other in others]
    (ours, *theirs), numbers = fastest(RUNS, [program, code, size, times], *words)
    assert len(set(numbers)) == 1
    ratios = ", ".join(f"{seconds / ours:.2f} of {os.path.basename(other)}" for other, seconds in zip(others, theirs))
    speed = units * size * times / ours / 1e9
    print(f"{code}, shards of {size // KIB} KiB, speed: {ratios} ({speed:.1f} GB of data per second)")


def stars(program):
    many = 1_000_000
    words = [program, "stars", 8, many], [program, "stars", 8, many // 2], [program, "stars", 4, many]
    (whole, half, fewer), numbers = fastest(RUNS, *words)
    assert numbers == [0, 0, 0]
    print(f"eight stars against {many:,} letters: {whole * 1000:.0f} ms, so {whole * 10:.1f} ms against 10,000")
    print(f"against twice the letters: {whole / half:.2f} times; with twice the stars: {whole / fewer:.2f} times")


def elements(programs):
    times = 50_000_000
    for word in ["products", "quotients"]:
        (ours, *others), numbers = fastest(RUNS, *([program, word, 1, times] for program in programs))
        assert len(set(numbers)) == 1
        ratios = "".join(f", {seconds / ours:.2f} times the earlier build's speed" for seconds in others)
        print(f"{word}: {ours / times * 1e9:.1f} ns each{ratios}")


def main():
    program = sys.argv[1]
    with tempfile.TemporaryDirectory() as folder:
        others = [other for other in (built(folder, "shards"), built(folder, "isal", "-lisal")) if other]
        for work in ["encode", "decode"]:
            for units, parity in [(3, 2), (6, 3), (10, 4)]:
                for size in [64 * KIB, MIB]:
                    shards(program, others, work, units, parity, size)
    stars(program)
    elements(sys.argv[1:])


if __name__ == "__main__":
    main()

#!/usr/bin/env python3
"""Times directories of a cluster in memory that are listed and deleted, and prints the figures as ratios.

usage: bench/names.py PROGRAM
  PROGRAM  the built program hdfs_unit_tests

A directory of 10,000 empty files and one of 1,000: made, listed page by page, and deleted, by a client of the one namenode. The making is
taken off, and what letting go of the names costs stays off a deletion too.
Each run is made fifteen times, by turns, and the fastest counts, in processor seconds of the process.
"""
import sys

from timing import fastest

RUNS = 15
FEW = 1_000
MANY = 10_000


def main():
    program = sys.argv[1]
    words = [
        [program, "times", "names_made", FEW, 1],
        [program, "times", "names_listed", FEW, 40],
        [program, "times", "names_made", MANY, 1],
        [program, "times", "names_listed", MANY, 4],
        [program, "times", "names_made", FEW, 30],
        [program, "times", "names_deleted", FEW, 30],
        [program, "times", "names_made", MANY, 3],
        [program, "times", "names_deleted", MANY, 3],
    ]
    (one, listed, one_large, listed_large, made, deleted, made_large, deleted_large), numbers = fastest(RUNS, *words)
    assert numbers == [FEW, 40 * FEW, MANY, 4 * MANY] + [30 * FEW] * 2 + [3 * MANY] * 2
    few = (listed - one) / 40 / FEW
    many = (listed_large - one_large) / 4 / MANY
    print(f"an entry that is listed, of 10,000 against of 1,000: {many / few:.2f} times")
    print(f"an entry that is listed, of 1,000: {few * 1e9:.0f} ns")
    few = (deleted - made) / 30 / FEW
    many = (deleted_large - made_large) / 3 / MANY
    print(f"an entry that is deleted, of 10,000 against of 1,000: {many / few:.2f} times")
    print(f"an entry that is deleted, of 1,000: {few * 1e9:.0f} ns")


if __name__ == "__main__":
    main()

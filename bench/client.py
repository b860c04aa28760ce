#!/usr/bin/env python3
"""Counts the asks of a pattern over a large tree, and times ranges that a client reads of a file of many blocks and of one of few.

usage: bench/client.py PROGRAM
  PROGRAM  the built program hdfs_step_tests

The program takes steps from its standard input. A tree of 100 directories of 100 files each is looked at by `/*/part-*`: the ask at which a
namenode fails is set behind the last one that is wanted, and then at it. Then 10,000 ranges of 16 bytes are read by one reader, of a file of
1,000 blocks and of one of 10, each block of 512 bytes. What the same steps take without the reads is taken off. Each run is made fifteen
times, by turns, and the fastest counts, in processor seconds of the process.
"""
import os
import subprocess
import sys

RUNS = 15
BLOCK = 512
READS = 10_000
EACH = 100


def take(program, steps):
    """The processor seconds in which steps are taken, each of which answers as is wanted."""
    read, write = os.pipe()
    child = subprocess.Popen([program], stdin=subprocess.PIPE, stdout=write, text=True)
    os.close(write)
    child.stdin.write("".join(step + "\n" for step in steps))
    child.stdin.close()
    with os.fdopen(read) as out:
        said = out.read()
    _, status, usage = os.wait4(child.pid, 0)
    assert os.waitstatus_to_exitcode(status) == 0
    assert said == f"{len(steps)} steps answer as wanted, 0 otherwise\n", said[:500]
    return usage.ru_utime + usage.ru_stime


def tree():
    """A tree of directories and files."""
    steps = ["cluster 1 0 3 512 65536"]
    for number in range(EACH):
        steps.append(f"dir /d{number}")
        steps += [f"file /d{number}/part-{part} 644 1 16" for part in range(EACH)]
    return steps


def asks(program):
    """The asks of a pattern over the tree: as many as this, since the next one fails, and no fewer."""
    wanted = 1 + EACH
    found = " ".join(
        f"/d{number}/part-{part}"
        for number in sorted(range(EACH), key=str)
        for part in sorted(range(EACH), key=str)
    )
    exception = "java.io.IOException"
    behind = [f"fault ask 0 {wanted + 1} {exception}", f"glob /*/part-* 10000 -> {found}"]
    take(program, [*tree(), *behind, f"glob /d0 1 -> fails RPCError {exception}"])
    take(program, [*tree(), f"fault ask 0 {wanted} {exception}", f"glob /*/part-* 10000 -> fails RPCError {exception}"])
    return wanted


def reads(blocks, times):
    """Steps that read a file of so many blocks so often."""
    return [
        "cluster 1 0 3 512 65536",
        f"large /f 644 3 {BLOCK} {blocks * BLOCK}",
        f"readOften /f {times} -> {16 * times}",
    ]


def main():
    program = sys.argv[1]
    print(f"asks of /*/part-* over {EACH} directories of {EACH}: {asks(program)}")
    runs = [reads(10, 1), reads(10, READS), reads(1_000, 1), reads(1_000, READS)]
    seconds = [[] for _ in runs]
    for _ in range(RUNS):
        for steps, taken in zip(runs, seconds):
            taken.append(take(program, steps))
    one, few, one_large, many = (min(taken) for taken in seconds)
    print(f"a range of 16 bytes of a file of 1,000 blocks, against of 10: {(many - one_large) / (few - one):.2f} times")
    print(f"a range of 16 bytes of a file of 10 blocks: {(few - one) / READS * 1e9:.0f} ns")


if __name__ == "__main__":
    main()

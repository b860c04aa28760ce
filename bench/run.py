#!/usr/bin/env python3
"""Times the program on scripts of two kinds, and prints the figures as ratios.

usage: bench/run.py PROGRAM [EARLIER]
  PROGRAM  the built program hdfs_run
  EARLIER  an earlier build of it, whose reads are timed beside

One large file: a script with one file of 8 MB (and one of 4 MB) in hexadecimal digits, and one read of all of it.
Many files: a script with 10,000 files (and one with 1,000) of 16 bytes, and one read of each.
The same files written: one write of 8 MB (and one of 4 MB), read back; a file of 10,000 blocks (and one of 1,000) of 512 bytes;
10,000 files (and 1,000) that are created, written with 16 bytes and closed; and as many that are created and closed.
Reads alone: a file of 8 MB that is read four times and once, on three replicas and, by an earlier build, on one, whose difference is
that of three reads; 10,000 reads (and 1,000) of one file of 16 bytes.
Each run is made five times, and the fastest counts; memory is the largest resident set of the five.
"""
import os
import subprocess
import sys
import tempfile
import time

RUNS = 5


def one_file(size, replication=1, reads=1):
    digits = bytes(range(256)).hex() * (size // 256)
    read = f"do read /a 0 {size}\n"
    return f"file /a 644 {replication} {size} {digits}\n{read * reads}", f"ok bytes {digits}\n" * reads


def one_small_file(reads):
    return "file /a 644 3 16 " + "00" * 16 + "\n" + "do read /a 0 16\n" * reads, ("ok bytes " + "00" * 16 + "\n") * reads


def many_files(count):
    lines = [f"file /f{i} 644 1 16 {i:032x}\n" for i in range(count)]
    reads = [f"do read /f{i} 0 16\n" for i in range(count)]
    replies = [f"ok bytes {i:032x}\n" for i in range(count)]
    return "".join(lines + reads), "".join(replies)


def written(path, block, digits, reads=False):
    """A file of these bytes, written at once and closed; and read back where that is asked for."""
    size = len(digits) // 2
    lines = f"do create {path} 644 1 {block} false true\ndo write {path} {digits}\ndo close {path}\n"
    replies = f"ok created\nok written {size}\nok closed\n"
    if reads:
        lines += f"do read {path} 0 {size}\n"
        replies += f"ok bytes {digits}\n"
    return lines, replies


def one_written(size):
    return written("/a", "-", bytes(range(256)).hex() * (size // 256), reads=True)


def many_blocks(count):
    return written("/a", 512, bytes(range(256)).hex() * (2 * count))


def many_written(count):
    files = [written(f"/f{i}", "-", f"{i:032x}") for i in range(count)]
    return "".join(lines for lines, _ in files), "".join(replies for _, replies in files)


def many_empty(count):
    lines = [f"do create /f{i} 644 1 - false true\ndo close /f{i}\n" for i in range(count)]
    return "".join(lines), "ok created\nok closed\n" * count


def once(program, script, out):
    """Runs the program once, and prints its seconds and the most bytes that it held."""
    with open(script, "rb") as source, open(out, "wb") as sink:
        begin = time.perf_counter()
        child = subprocess.Popen([program, "session"], stdin=source, stdout=sink)
        _, status, usage = os.wait4(child.pid, 0)
        seconds = time.perf_counter() - begin
    print(os.waitstatus_to_exitcode(status), seconds, usage.ru_maxrss * 1024)


def run(program, script, expected):
    with tempfile.TemporaryDirectory() as folder:
        path, out = os.path.join(folder, "script"), os.path.join(folder, "out")
        with open(path, "w") as file:
            file.write(script)
        seconds, peak = [], 0
        for _ in range(RUNS):
            # from a small process of its own, since a child's largest set counts what its parent holds
            command = [sys.executable, __file__, program, path, out]
            status, took, held = subprocess.run(command, check=True, capture_output=True, text=True).stdout.split()
            with open(out) as file:
                assert status == "0" and file.read() == expected
            seconds.append(float(took))
            peak = max(peak, int(held))
        return min(seconds), peak


def read_alone(program, replication):
    """The seconds that one read of 8 MB takes, without loading them."""
    four, _ = run(program, *one_file(8_000_000, replication, reads=4))
    one, _ = run(program, *one_file(8_000_000, replication))
    return (four - one) / 3


def main():
    if len(sys.argv) == 4:
        return once(*sys.argv[1:])
    program = sys.argv[1]
    if len(sys.argv) == 3:
        earlier, now = read_alone(sys.argv[2], 1), read_alone(program, 3)
        print(f"8 MB read from three replicas, of the earlier build's speed: {earlier / now:.2f}")
    many, _ = run(program, *one_small_file(10_000))
    few, _ = run(program, *one_small_file(1_000))
    print(f"per read of one small file, 10,000 against 1,000: {many / 10 / few:.2f} times")
    large, peak = run(program, *one_file(8_000_000))
    small, _ = run(program, *one_file(4_000_000))
    many, _ = run(program, *many_files(10_000))
    few, _ = run(program, *many_files(1_000))
    script = len(one_file(8_000_000)[0])
    print(f"8 MB against 4 MB: {large / small:.2f} times")
    print(f"script per second: {script / large / 1e6:.0f} MB")
    print(f"peak memory: {peak / 8_000_000:.1f} times the stored bytes")
    print(f"per file, 10,000 against 1,000: {many / 10 / few:.2f} times")

    large, peak = run(program, *one_written(8_000_000))
    small, _ = run(program, *one_written(4_000_000))
    script = len(one_written(8_000_000)[0])
    print(f"written, 8 MB against 4 MB: {large / small:.2f} times")
    print(f"written, script per second: {script / large / 1e6:.0f} MB")
    print(f"written, peak memory: {peak / 8_000_000:.1f} times the written bytes")
    many, _ = run(program, *many_blocks(10_000))
    few, _ = run(program, *many_blocks(1_000))
    print(f"written, per block, 10,000 against 1,000: {many / 10 / few:.2f} times")
    many, _ = run(program, *many_written(10_000))
    few, _ = run(program, *many_written(1_000))
    print(f"written, per file, 10,000 against 1,000: {many / 10 / few:.2f} times")
    many, _ = run(program, *many_empty(10_000))
    few, _ = run(program, *many_empty(1_000))
    print(f"empty, per file, 10,000 against 1,000: {many / 10 / few:.2f} times")


if __name__ == "__main__":
    main()

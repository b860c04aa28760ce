"""Times commands in processor seconds, which other processes disturb little."""
import os
import subprocess


def given(command):
    """The words of a command, and what it reads: a line of the topic `times`, where that is its second word."""
    if command[1] == "times":
        return command[:1], " ".join(command[1:]) + " =>\n"
    return command, ""


def run(command):
    """The processor seconds of a command, and the number at the end of the first line that it printed."""
    words, line = given(command)
    read, write = os.pipe()
    child = subprocess.Popen(words, stdin=subprocess.PIPE, stdout=write)
    os.close(write)
    child.stdin.write(line.encode())
    child.stdin.close()
    with os.fdopen(read) as out:
        number = int(out.read().splitlines()[0].split()[-1])
    _, status, usage = os.wait4(child.pid, 0)
    assert os.waitstatus_to_exitcode(status) == 0
    return usage.ru_utime + usage.ru_stime, number


def fastest(runs, *commands):
    """The fastest seconds of each command, which are run by turns so many times, and the numbers that they printed."""
    seconds = [[] for _ in commands]
    for _ in range(runs):
        numbers = []
        for command, times in zip(commands, seconds):
            taken, number = run([str(word) for word in command])
            times.append(taken)
            numbers.append(number)
    return [min(times) for times in seconds], numbers

#!/usr/bin/env python3
"""Times 64 starts of a hive of 1,000 services, each with an edit and a flush, beside one such start: bench/many_starts.py PROGRAM.
Prints the seconds and their ratio, which is to be at most 70. No gate runs it."""
import os
import sys

sys.path.insert(0, os.path.dirname(os.path.abspath(__file__)))
import hives
from timing import seconds

STARTS = 64
TRIES = 3


def script(starts):
    """That many starts, in each of which the tag of one service is changed and flushed."""
    one = "boot\ngo\nset CurrentControlSet\\Services\\S000000 Tag dword {}\nflush\noff\n"
    return "".join(one.format(1_000 + i) for i in range(starts)).encode()


def least(program, hive, starts):
    """The least time of a few runs. Each start has to flush."""
    times = []
    for _ in range(TRIES):
        took, said, status = seconds(program, hive, script(starts))
        flushes = sum(line.startswith("commit flush ") for line in said)
        if status or flushes != starts:
            sys.exit(f"exit {status}, {flushes} flushes")
        times.append(took)
    return min(times)


def main(words):
    hive = hives.with_pulled_services(1_000)
    one, many = least(words[0], hive, 1), least(words[0], hive, STARTS)
    print(f"1 start: {one:.3f} s; {STARTS} starts: {many:.3f} s; ratio {many / one:.1f}")


main(sys.argv[1:])

#!/usr/bin/env python3
"""Times `salvage` of values that each name one list of segments and fail on a late one, with others between them that stand:
bench/failing_values.py PROGRAM. Prints the processor seconds of three hives, each of twice the values and segments of the one before, so
that the ratio shows how the time grows. No gate runs it."""
import os
import subprocess
import sys
import tempfile

sys.path.insert(0, os.path.dirname(os.path.abspath(__file__)))
import hives
from timing import used


def seconds(program, hive):
    """The processor seconds of `salvage` of this hive, and its lines."""
    with tempfile.TemporaryDirectory() as room:
        with open(os.path.join(room, "hive"), "wb") as f:
            f.write(hive)
        before = used()
        done = subprocess.run([program, "salvage", "--hive", "hive"], cwd=room, capture_output=True, timeout=3600)
        return used() - before, done.stdout.decode().split("\n")


def main(words):
    program = os.path.abspath(words[0])
    before = None
    for count, segments in ((25_000, 125), (50_000, 250), (100_000, 500)):
        took, said = seconds(program, hives.with_failing_values(count, segments))
        ratio = f", ratio {took / before:.1f}" if before else ""
        print(f"{count} values, {segments} segments: {took:.2f} s{ratio}; {said[-3:]}")
        before = took


main(sys.argv[1:])

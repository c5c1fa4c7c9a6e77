#!/usr/bin/env python3
"""Times the built program on large hives: bench/large_hives.py PROGRAM. Prints the seconds, and those of a hive of half the size,
so that the ratio shows how the time grows. No gate runs it."""
import os
import sys

sys.path.insert(0, os.path.dirname(os.path.abspath(__file__)))
import hives
from timing import seconds

CASES = [
    ("keys below one key", hives.with_children, 100_000),
    ("values of one key", hives.with_values, 100_000),
    ("bytes of the smallest cells", hives.with_small_cells, 16_777_216),
]


def main(words):
    for what, make, count in CASES:
        half, _, _ = seconds(words[0], make(count // 2), b"boot\n")
        whole, said, status = seconds(words[0], make(count), b"boot\n")
        print(f"{count} {what}: {whole:.2f} s, half of them {half:.2f} s, ratio {whole / half:.1f}; exit {status}, {said[-3:]}")


main(sys.argv[1:])

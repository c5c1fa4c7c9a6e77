#!/usr/bin/env python3
"""Times whole starts of the built program: bench/many_services.py PROGRAM. Prints the seconds for that many services that each need one
that goes before them; where one half pulls in the other, or each one the one before it; with ten names each; in as many groups, and with
as many tags. Of services of which each needs the next in the registry, the worst order, it prints the time of 10,000 and of 20,000 beside
that of 1,000, and what n log n would amount to. No gate runs it."""
import math
import os
import sys

sys.path.insert(0, os.path.dirname(os.path.abspath(__file__)))
import hives
from timing import seconds

CASES = [
    ("services in order", hives.with_services, [4_980, 9_990]),
    ("services, one half of which pulls in the other", hives.with_pulled_services, [5_000, 10_000]),
    ("services, pulled in one by the other", hives.with_deep_services, [5_000, 10_000]),
    ("services, each of which names ten", hives.with_many_names, [5_000, 10_000]),
    ("drivers, each in a group of its own", hives.with_grouped_services, [5_000, 10_000]),
    ("drivers of one group, each with a tag of its own", hives.with_tagged_services, [5_000, 10_000]),
]
WORST = [1_000, 10_000, 20_000]


def timed(program, what, make, count):
    """The seconds of a start of that many services, which it prints."""
    took, said, status = seconds(program, make(count), b"boot\ngo\n")
    tried = sum(line.startswith("try ") for line in said)
    print(f"{count} {what}: {took:.3f} s; {tried} attempts, exit {status}")
    return took


def n_log_n(count):
    return count * math.log(count)


def main(words):
    for what, make, counts in CASES:
        for count in counts:
            timed(words[0], what, make, count)
    # the least of three, since a start of few services is short
    least = {
        count: min(timed(words[0], "services, each of which needs the next one", hives.with_chained_services, count) for _ in range(3))
        for count in WORST
    }
    few = WORST[0]
    for count in WORST[1:]:
        print(f"{count} beside {few}: {least[count] / least[few]:.0f} times; n log n: {n_log_n(count) / n_log_n(few):.0f} times")


main(sys.argv[1:])

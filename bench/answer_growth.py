#!/usr/bin/env python3
"""Times what answers about failures and needs take of n, 2n and 4n services: bench/answer_growth.py PROGRAM [--most SECONDS]. Prints the CPU
seconds of each, and of the last two how many times the one before they are: 2 is linear, 4 is quadratic. A row ends at the first that takes
over SECONDS, which are 5 where nothing is said. No gate runs it."""
import argparse
import os
import subprocess
import sys
import tempfile

sys.path.insert(0, os.path.dirname(os.path.abspath(__file__)))
import hives
from timing import used


def made(count):
    """The hive that `make` saves."""
    with tempfile.TemporaryDirectory() as room:
        at = os.path.join(room, "hive")
        subprocess.run([program, "make", str(count), "--save-hive", at], stdout=subprocess.DEVNULL, check=True)
        with open(at, "rb") as f:
            return f.read()


ROWS = [
    ("whatif --of, a ring", ["whatif", "--of", "S000000"], hives.with_ringed_services, 2_500),
    ("whatif --of, a chain", ["whatif", "--of", "S000000"], hives.with_chained_services, 2_500),
    ("whatif --of, of `make`", ["whatif", "--of", "Svc00000"], made, 2_500),
    ("whatif of all, of `make`", ["whatif"], made, 250),
    ("why, a ring", ["why", "S000000"], hives.with_ringed_services, 2_500),
    ("why, a group that each member needs", ["why", "S000000"], hives.with_needed_group, 1_000),
    ("why, of `make`", ["why", "Svc00000"], made, 2_500),
    ("check, a group that each member needs", ["check"], hives.with_needed_group, 1_000),
]


def took(words, data):
    """The processor seconds of the program with these words on the hive, and its exit status."""
    with tempfile.TemporaryDirectory() as room:
        at = os.path.join(room, "hive")
        with open(at, "wb") as f:
            f.write(data)
        before = used()
        done = subprocess.run([program, words[0], "--hive", at, *words[1:]], stdout=subprocess.DEVNULL, stderr=subprocess.PIPE, timeout=3600)
        return used() - before, done.returncode


def grown(what, words, make, count, most):
    """The line of a row."""
    said, last = [], None
    for n in (count, 2 * count, 4 * count):
        now, status = took(words, make(n))
        said.append(f"{n}: {now:.3f} s" + (f", {now / last:.1f} times" if last else "") + (f", exit {status}" if status else ""))
        if now > most:
            break
        last = now
    print(f"{what}: " + "; ".join(said), flush=True)


asked = argparse.ArgumentParser(description=__doc__)
asked.add_argument("program")
asked.add_argument("--most", type=float, default=5)
asked = asked.parse_args()
program = os.path.abspath(asked.program)
for row in ROWS:
    grown(*row, asked.most)

#!/usr/bin/env python3
"""Times `make` at growing numbers of services, and `show` of a hive of 15 MiB: bench/shown_hives.py PROGRAM. Where `hivexml` is installed
(package libhivex-bin), it dumps the same hive beside `show`. Prints seconds, the least of a few runs each. No gate runs it."""
import os
import shutil
import subprocess
import sys
import tempfile
import time

sys.path.insert(0, os.path.dirname(os.path.abspath(__file__)))
import hives

SERVICES = 43_000
TRIES = 5


def least(words, room):
    """The least time of a few runs, and how much was printed."""
    times = []
    for _ in range(TRIES):
        began = time.monotonic()
        done = subprocess.run(words, cwd=room, stdout=subprocess.PIPE, timeout=3600)
        times.append(time.monotonic() - began)
        if done.returncode:
            sys.exit(f"{words}: exit {done.returncode}")
    return min(times), len(done.stdout)


def main(words):
    program = os.path.abspath(words[0])
    with tempfile.TemporaryDirectory() as room:
        for count in (100, 1_000, 10_000):
            took, _ = least([program, "make", str(count), "--save-hive", "made"], room)
            print(f"make {count}: {took:.3f} s, {os.path.getsize(os.path.join(room, 'made'))} bytes saved")
        with open(os.path.join(room, "hive"), "wb") as f:
            f.write(hives.with_services(SERVICES))
        took, said = least([program, "show", "--hive", "hive"], room)
        print(f"show of {os.path.getsize(os.path.join(room, 'hive'))} bytes: {took:.3f} s, {said} bytes said")
        if shutil.which("hivexml"):
            other, said = least(["hivexml", "hive"], room)
            print(f"hivexml of the same: {other:.3f} s, {said} bytes said; show takes {took / other:.2f} of it")


main(sys.argv[1:])

#!/usr/bin/env python3
"""Times 1,000 edits of one value each in a hive of 15 MiB, each with a flush, in one run: bench/edits_in_place.py PROGRAM. They are to take at
most twice as long as 1,000 comparisons of 16 MiB, which each commit makes of the hive with what it was, and the saved hive is to be as long
as the given one, since the sizes repeat. Where `hivexsh` is installed (apt-get install libhivex-bin) it makes a few of the edits too, one
session each, and what its file grows by is printed. No gate runs it."""
import os
import shutil
import subprocess
import sys
import tempfile
import time

sys.path.insert(0, os.path.dirname(os.path.abspath(__file__)))
import hives
from timing import used

EDITS = 1_000
SERVICES = 51_000
SESSIONS = 10
SCRIPT = 65_536


def lines(size):
    """The edits: a number, or data of a few bytes or more, in turn."""
    yield "boot\n"
    for i in range(EDITS):
        data = (f"dword {i}", f"binary {i % 256:02x}000000ff", f"binary {'%02x' % (i % 256) * 9}")[i % 3]
        yield f"set A V {data}\nflush\n"
    yield "off\n"


def comparisons():
    """The seconds that that many comparisons of 16 MiB take. Both are written first: of zeros that never were, one page would be read again and again."""
    one = os.urandom(16 << 20)
    other = bytearray(one)
    began = time.process_time()
    for _ in range(EDITS):
        if one != other:
            sys.exit("they differ")
    return time.process_time() - began


def by_hivexsh(room):
    """The bytes by which the hive grows with each edit of hivexsh."""
    path = os.path.join(room, "other")
    shutil.copy(os.path.join(room, "hive"), path)
    size = os.path.getsize(path)
    for i in range(SESSIONS):
        text = f"cd A\nsetval 1\nV\nhex:3:{i:02x},00,00,00,ff\ncommit\nquit\n"
        subprocess.run(["hivexsh", "-w", path], input=text.encode(), check=True, capture_output=True)
    return (os.path.getsize(path) - size) / SESSIONS


def main(words):
    program = os.path.abspath(words[0])
    script = "".join(lines(EDITS)).encode()
    if len(script) > SCRIPT:
        sys.exit(f"the script has {len(script)} bytes")
    with tempfile.TemporaryDirectory() as room:
        for name, data in (("hive", hives.with_a_key(SERVICES)), ("script", script)):
            with open(os.path.join(room, name), "wb") as f:
                f.write(data)
        before = used()
        done = subprocess.run([program, "run", "--hive", "hive", "--script", "script", "--save-hive", "saved"], cwd=room, capture_output=True, timeout=3600)
        took = used() - before
        flushes = sum(line.startswith(b"commit flush ") for line in done.stdout.split(b"\n"))
        if done.returncode or flushes != EDITS:
            sys.exit(f"exit {done.returncode}, {flushes} flushes: {done.stdout[-200:]!r}")
        given, saved = (os.path.getsize(os.path.join(room, name)) for name in ("hive", "saved"))
        compared = comparisons()
        print(f"{EDITS} edits and flushes in {given} bytes: {took:.2f} s; as many comparisons of 16 MiB: {compared:.2f} s; ratio {took / compared:.2f}")
        print(f"the saved hive is {saved - given} bytes longer")
        if shutil.which("hivexsh"):
            print(f"hivexsh: {by_hivexsh(room):.0f} bytes longer with each edit")


main(sys.argv[1:])

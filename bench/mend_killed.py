#!/usr/bin/env python3
"""Kills a repair at random moments: bench/mend_killed.py NTMEND [COUNT] [--show PROGRAM]. No gate runs it.

A hive of 15 MiB, whose packed form is shorter by some pages and differs in nearly every sector, lies on a file beside an empty log.
`ntmend` is killed with -9 at a random moment of its run, three times of four at one after its first write; 1,000 times. Each time the
next run has to end its work: the hive's file is then byte by byte the one that a run leaves which nobody kills. A packed form is that of
one tree alone, so the hive that was left loads as before. With --show `show` of PROGRAM has to tell the same tree too, under the number
from before or the next one. Prints how often the hive's file was as before, unfinished, and done. The files lie in the folder for
temporary files.
"""
import os
import random
import struct
import subprocess
import sys
import tempfile
import time

sys.path.insert(0, os.path.dirname(os.path.abspath(__file__)))
import hives

# that many keys make some 15 MiB of cells
KEYS = 115_000


def grown():
    """A hive in which a free cell of three pages stands before the root, and another bin of one page after all."""
    free = struct.pack("<i", 12_288) + bytes(12_284)
    key = (b"ROOT", [], [(b"K%06d" % i, [hives.dword(b"V", i)], []) for i in range(KEYS)])
    cells, _ = hives.layout(key, 32 + len(free))
    packed = hives.hive(free + cells)
    size = len(packed) - 4096
    last = b"hbin" + struct.pack("<II", size, 4096) + bytes(20) + struct.pack("<i", 4064) + bytes(4060)
    return hives.base_block(size + 4096, root=32 + len(free)) + packed[4096:] + last


def shown(program, room):
    """The number of the hive, and its tree; none without a program that shows it."""
    if program is None:
        return None
    done = subprocess.run([program, "show", "--hive", "hive", "--log", "log"], cwd=room, capture_output=True, check=False)
    if done.returncode:
        sys.exit(f"the hive does not load: {done.stdout[:100]}")
    first, _, tree = done.stdout.partition(b"\n")
    return int(first.split()[1]), tree


def put(room, hive):
    with open(os.path.join(room, "hive"), "wb") as f:
        f.write(hive)
    with open(os.path.join(room, "log"), "wb"):
        pass


def read(room):
    with open(os.path.join(room, "hive"), "rb") as f:
        return f.read()


def begun(run, room):
    """Waits until a run writes its log, and answers when that was."""
    while run.poll() is None and os.path.getsize(os.path.join(room, "log")) == 0:
        time.sleep(0.0005)
    return time.monotonic()


def killed(ntmend, room, writing, moment):
    """Kills a run at this moment, counted from its begin or, where it is to be writing, from its first write. Answers what it leaves of
    the hive."""
    run = subprocess.Popen([ntmend, "hive", "log"], cwd=room, stdout=subprocess.DEVNULL)
    if writing:
        begun(run, room)
    time.sleep(moment)
    run.kill()
    run.wait()
    return read(room)


def main(words):
    program = None
    if "--show" in words:
        at = words.index("--show")
        program = os.path.abspath(words[at + 1])
        del words[at : at + 2]
    ntmend = os.path.abspath(words[0])
    count = int(words[1]) if len(words) > 1 else 1000
    hive = grown()
    seen = {}
    random.seed(1)
    with tempfile.TemporaryDirectory() as room:
        put(room, hive)
        before = shown(program, room)
        start = time.monotonic()
        run = subprocess.Popen([ntmend, "hive", "log"], cwd=room, stdout=subprocess.PIPE)
        first = begun(run, room)
        said, _ = run.communicate()
        spans = (time.monotonic() - start, time.monotonic() - first)
        print(f"{len(hive)} bytes: {spans[0]:.2f} s, of which {spans[1]:.2f} s from the first write on, {said.decode()!r}", flush=True)
        wanted = read(room)
        if run.returncode or (before and shown(program, room) != (before[0] + 1, before[1])):
            sys.exit("a run that nobody kills does not end its work")
        for n in range(count):
            put(room, hive)
            writing = n % 4 != 0
            left = killed(ntmend, room, writing, random.uniform(0, 1.1 * spans[writing]))
            after = shown(program, room)
            if before and (after[1] != before[1] or after[0] not in (before[0], before[0] + 1)):
                sys.exit(f"after kill {n} the hive loads as another")
            found = "before" if left == hive else "done" if left == wanted else "unfinished"
            seen[found] = seen.get(found, 0) + 1
            again = subprocess.run([ntmend, "hive", "log"], cwd=room, capture_output=True, check=False)
            if again.returncode or read(room) != wanted:
                sys.exit(f"after kill {n} the next run does not end its work: {again.stdout!r}")
            if n % 25 == 24:
                print(f"{n + 1} kills: {seen}", flush=True)


main(sys.argv[1:])

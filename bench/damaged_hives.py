#!/usr/bin/env python3
"""Damages a small sound hive at random and tries `salvage` on it: bench/damaged_hives.py PROGRAM [COUNT]. Each run must end with the line `end`
and exit 0 or 8; exit 0 exactly where `show` loads the hive; and what is saved must load."""
import os
import random
import subprocess
import sys
import tempfile

SOUND = os.path.join(os.path.dirname(os.path.abspath(__file__)), "..", "tests", "runs", "starts_one_boot_driver", "hive")


def damaged(sound, pick):
    """The hive with up to twenty bytes changed, one in ten cut short."""
    hive = bytearray(sound)
    for _ in range(pick.choice([1, 1, 1, 2, 5, 20])):
        place = pick.randrange(len(hive))
        hive[place] = pick.choice([0, 255, hive[place] ^ 1, hive[place] ^ 128, pick.randrange(256)])
    return hive[: pick.randrange(len(hive) + 1)] if pick.random() < 0.1 else hive


def wrong(program, room):
    """What is wrong with the answer on the file `hive` of a folder, if anything."""
    def run(*words):
        return subprocess.run([program, *words], cwd=room, stdout=subprocess.PIPE, timeout=60)

    told = run("salvage", "--hive", "hive", "--save-hive", "saved")
    if told.returncode not in (0, 8) or not told.stdout.endswith(b"\nend\n"):
        return f"exit {told.returncode}"
    if (told.returncode == 0) != (run("show", "--hive", "hive").returncode == 0):
        return f"exit {told.returncode}, and show differs"
    if b"\nsaved " in told.stdout and run("show", "--hive", "saved").returncode != 0:
        return "what is saved does not load"
    return None


def main(words):
    program, count = os.path.abspath(words[0]), int(words[1]) if words[1:] else 3000
    with open(SOUND, "rb") as f:
        sound = f.read()
    pick, failed = random.Random(1), 0
    for number in range(count):
        with tempfile.TemporaryDirectory() as room:
            with open(os.path.join(room, "hive"), "wb") as f:
                f.write(damaged(sound, pick))
            why = wrong(program, room)
        if why:
            failed += 1
            print(f"hive {number}: {why}")
    print(f"{count} tried, {failed} failed")
    return 1 if failed else 0


if __name__ == "__main__":
    sys.exit(main(sys.argv[1:]))

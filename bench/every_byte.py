#!/usr/bin/env python3
"""Turns every byte of a small hive to each of a few values, one at a time, and runs the built program on it:
bench/every_byte.py PROGRAM [HIVE]. Each run must end with an answer of the program, and never by a signal. No gate runs it."""
import os
import subprocess
import sys
import tempfile

sys.path.insert(0, os.path.dirname(os.path.abspath(__file__)))
import hives

TOP = os.path.join(os.path.dirname(os.path.abspath(__file__)), "..")


def values(byte):
    """The values that a byte is turned to."""
    return sorted({0x00, 0xFF, byte ^ 0x01, byte ^ 0x80, (byte + 8) % 256} - {byte})


def summed(data):
    """The hive with the checksum of its base block computed again, so that later checks are reached too."""
    block = bytearray(data)
    total = 0
    for at in range(0, 508, 4):
        total ^= int.from_bytes(block[at:at + 4], "little")
    total = {0: 1, hives.NONE: hives.NONE - 1}.get(total, total)
    block[508:512] = total.to_bytes(4, "little")
    return bytes(block)


def main(words):
    program = os.path.abspath(words[0])
    with open(words[1] if len(words) > 1 else os.path.join(TOP, "examples", "one_driver", "SYSTEM"), "rb") as f:
        original = f.read()
    answers, failed = {}, 0
    with tempfile.TemporaryDirectory() as room:
        with open(os.path.join(room, "script"), "wb") as f:
            f.write(b"boot\ngo\n")
        for at, byte in enumerate(original):
            for value in values(byte):
                data = bytearray(original)
                data[at] = value
                with open(os.path.join(room, "hive"), "wb") as f:
                    f.write(summed(data) if at < 508 else data)
                done = subprocess.run([program, "run", "--hive", "hive", "--script", "script"], cwd=room, capture_output=True, timeout=60)
                answers[done.returncode] = answers.get(done.returncode, 0) + 1
                if done.returncode not in (0, 5, 8) or not done.stdout.endswith(b"\n"):
                    failed += 1
                    print(f"byte {at} to {value}: exit {done.returncode}, said {done.stdout[-80:]!r}")
    print(f"exits: {answers}; {sum(answers.values()) - failed} passed, {failed} failed")
    return 1 if failed else 0


sys.exit(main(sys.argv[1:]))

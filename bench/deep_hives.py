#!/usr/bin/env python3
"""Finds the least stack, in steps of 64 KiB, with which each command reads a hive whose keys go down to level 512, the last that a hive may have:
bench/deep_hives.py PROGRAM. Some commands go down the tree by calls, so that a stack that is too small ends them by a signal. No gate runs it."""
import os
import resource
import subprocess
import sys
import tempfile

sys.path.insert(0, os.path.dirname(os.path.abspath(__file__)))
import hives

STEP = 64 << 10
MOST = 8 << 20
COMMANDS = [
    "show --hive hive",
    "run --hive hive --script script --save-hive saved",
    "safe --hive hive",
    "why --hive hive S000000",
    "graph --hive hive",
    "whatif --hive hive",
    "key --hive hive --key Select",
    "key --hive hive --depth 999",
    "key --hive hive --depth 999 --security --json",
    "check --hive hive",
    "diff --hive hive --set 1 --with-set 1 --all",
    "export --hive hive --reg reg",
    "export --hive hive --reg reg --key L2",
    "import --hive hive --reg reg --save-hive saved",
    "salvage --hive hive --save-hive saved",
    "salvage --hive hive --by-parent",
]
SCRIPT = "boot\ngo\nlogon\nset CurrentControlSet\\Services\\S000000 Tag dword 9\nflush\noff\n"


def deep():
    """A control set with one service, and keys below one another down to level 512; the root's level is 1."""
    below = (b"L512", [hives.dword(b"V", 1)], [])
    for level in range(511, 1, -1):
        below = (b"L%d" % level, [], [below])
    sets = hives.control_set(b"ControlSet001", [hives.service(0, 0, 0, [])], ["G0"], {})
    return hives.hive(hives.layout((b"SYSTEM", [], [sets, below, hives.select(1, 1, 0, 0)]), 32)[0])


def ends(program, room, words, stack):
    """Whether the command ends by itself with a stack of that many bytes."""
    limit = lambda: resource.setrlimit(resource.RLIMIT_STACK, (stack, stack))
    done = subprocess.run([program, *words.split()], cwd=room, capture_output=True, preexec_fn=limit)
    return done.returncode >= 0


def main(words):
    program = os.path.abspath(words[0])
    sys.setrecursionlimit(5_000)
    with tempfile.TemporaryDirectory() as room:
        for name, data in (("hive", deep()), ("script", SCRIPT.encode())):
            with open(os.path.join(room, name), "wb") as f:
                f.write(data)
        subprocess.run([program, "export", "--hive", "hive", "--reg", "reg"], cwd=room, check=True, capture_output=True)
        for command in COMMANDS:
            stack = next((n for n in range(STEP, MOST + 1, STEP) if ends(program, room, command, n)), None)
            print(f"{command}: {stack >> 10 if stack else 'over 8192'} KiB")


main(sys.argv[1:])

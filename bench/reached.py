#!/usr/bin/env python3
"""Prints which functions of ntboot no run reaches: bench/reached.py [PROGRAM [CHECK]..]. No gate runs it; it needs valgrind and takes some minutes.

The runs are those of tests/runs and of the examples, and those of each check of tests/ that is named, as `large`. A function is one of this project's
crates that is there by name in the program as `rt ci` builds it; those that the compiler put into others are not seen, and of one that is there for
several types it counts that it is reached for one of them."""
import importlib
import os
import re
import subprocess
import sys
import tempfile
from concurrent.futures import ThreadPoolExecutor

TOP = os.path.join(os.path.dirname(os.path.abspath(__file__)), "..")
sys.path.insert(0, os.path.join(TOP, "tests"))
from programs import Programs, fresh, read, runs, said

EXAMPLES = os.path.join(TOP, "examples")
CRATES = set(os.listdir(os.path.join(TOP, "crates")))


def plain(name):
    """A function's name without its types, and without the mark of a call of itself."""
    return re.sub(r"(::<.*|'\d+)$", "", name)


def functions(program):
    """The functions of this project that are there by name."""
    listed = subprocess.run(["nm", "--defined-only", program], stdout=subprocess.PIPE, text=True, check=True).stdout
    symbols = (line.split(" ", 2) for line in listed.splitlines())
    names = {plain(name) for _, kind, name in symbols if kind in "tT"}
    return {name for name in names if name.split("::")[0] in CRATES and "::" in name}


def of_examples():
    """The words and the files of each run of the examples."""
    for example in sorted(os.listdir(EXAMPLES)):
        folder = os.path.join(EXAMPLES, example)
        files = {name: read(folder, name) for name in os.listdir(folder) if os.path.isfile(os.path.join(folder, name))}
        for line in files.get("command", b"").decode().splitlines():
            yield line.partition(" > ")[0].split()[1:], files


def counting(program, room):
    """A program that is run in place of this one, and leaves a file for each run in the folder."""
    path = os.path.join(room, "ntboot")
    with open(path, "w", encoding="utf-8") as f:
        f.write(f'#!/bin/sh\nexec valgrind --quiet --tool=callgrind --callgrind-out-file="{room}/%p.run" "{program}" "$@"\n')
    os.chmod(path, 0o755)
    return path


def come_to(room):
    """The functions that the runs came to whose files are in the folder; these are removed."""
    found = set()
    for name in os.listdir(room):
        if name.endswith(".run"):
            found |= set(map(plain, re.findall(r"^c?fn=\(\d+\) (.+)$", read(room, name).decode(errors="replace"), re.MULTILINE)))
            os.remove(os.path.join(room, name))
    return found


def run(program, words, files):
    with fresh(files) as room:
        said(program, words, room)


def reached(program, checks):
    """The functions that the runs and these checks reach, and how many runs of folders there are."""
    listed = [(one.words, one.inputs) for one in runs() if not one.is_of_ntmend()] + list(of_examples())
    with tempfile.TemporaryDirectory() as room:
        counted = counting(program, room)
        with ThreadPoolExecutor(os.cpu_count()) as pool:
            list(pool.map(lambda one: run(counted, *one), listed))
        found = come_to(room)
        for name in checks:
            importlib.import_module(name).check(Programs(counted, Programs().ntmend))
            found |= come_to(room)
    return found, len(listed)


def main(words):
    program = os.path.abspath(words[0] if words else Programs().ntboot)
    (found, count), there = reached(program, words[1:]), functions(program)
    if not found & there:
        sys.exit("no run says which functions it reaches: is valgrind there, and was the program built by `rt ci`?")
    print("".join(name + "\n" for name in sorted(there - found)), end="")
    print(f"{count} runs{''.join(', ' + name for name in words[1:])}: {len(there & found)} of {len(there)} functions are reached")


if __name__ == "__main__":
    main(sys.argv[1:])

#!/usr/bin/env python3
"""All tests but the proofs and their must-fail edits, over two built programs: tests/every.py --with NTBOOT NTMEND [--short]. `./try --tests` builds both,
unproved, and runs this over them with --short, which leaves out what takes minutes in a program with run-time checks; `.ci/run` runs it over the proved
ones. run_all.py has the most runs, several at once, and the other checks are made beside it, one by one. Each check ends in a line 'N passed, M failed'; the
last line here is their sum, and a check that ends otherwise is one that failed."""
import argparse
import os
import re
import subprocess
import sys
import time
from concurrent.futures import ThreadPoolExecutor

TOP = os.path.dirname(os.path.dirname(os.path.realpath(__file__)))
PAGES = ("definitions", "dead_text", "help_pages", "completions", "line_schema", "layers", "decisions")


def checks(ntboot, ntmend, short):
    yield ["tests/run_all.py", "--with", ntboot, ntmend, *(["--short"] if short else [])]
    yield ["labs/runs.py", "--with", ntboot]
    yield ["tests/students.py", ntboot]
    yield ["tests/recipes.py", ntboot]
    yield ["tests/library.py"]
    yield ["tests/view_page.py"]
    for name in PAGES:
        yield [f"tests/{name}.py"]


def counted(words):
    """Runs a check and shows what it says, in one piece: how many passed and failed."""
    began = time.time()
    check = subprocess.run([sys.executable, *words], cwd=TOP, stdout=subprocess.PIPE, encoding="utf-8", errors="replace")
    print(f"{words[0]}: exit {check.returncode}, {time.time() - began:.0f} s\n{check.stdout}", end="", flush=True)
    found = re.search(r"^(\d+) passed, (\d+) failed\n\Z", check.stdout, re.M)
    passed, failed = map(int, found.groups()) if found else (0, 1)
    return passed, max(failed, int(check.returncode != 0))


def main():
    parser = argparse.ArgumentParser(description=__doc__, formatter_class=argparse.RawDescriptionHelpFormatter)
    parser.add_argument("--with", nargs=2, required=True, metavar=("NTBOOT", "NTMEND"), dest="programs")
    parser.add_argument("--short", action="store_true")
    asked = parser.parse_args()
    with ThreadPoolExecutor(2) as pool:
        counts = list(pool.map(counted, checks(*map(os.path.abspath, asked.programs), asked.short)))
    passed, failed = map(sum, zip(*counts))
    print(f"{passed} passed, {failed} failed")
    return 1 if failed or not passed else 0


if __name__ == "__main__":
    sys.exit(main())

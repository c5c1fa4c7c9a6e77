#!/usr/bin/env python3
"""Runs each command of docs/recipes.md in a copy of what it reads, and compares what it prints with what the page says: tests/recipes.py [NTBOOT]. A command
whose tools are not installed is printed as left out."""
import os
import re
import shutil
import subprocess
import sys
import tempfile

TOP = os.path.dirname(os.path.dirname(os.path.abspath(__file__)))
PAGE = os.path.join(TOP, "docs", "recipes.md")
NTBOOT = os.path.join(TOP, "crates", "ntboot", "out", "ntboot")
TOOLS = ("jq", "column", "iconv", "xargs", "awk", "paste")


def recipes(text):
    """Each command of the page with the lines that it prints."""
    command, wanted = None, []
    for line in text.splitlines() + ["#"]:
        if line.startswith("    $ ") or line.startswith("#"):
            if command:
                yield command, "\n".join(wanted).strip("\n")
            command, wanted = line[6:] if line.startswith("    $ ") else None, []
        elif command and (line.startswith("    ") or not line):
            wanted.append(line[4:])
        elif command:
            yield command, "\n".join(wanted).strip("\n")
            command, wanted = None, []


def lacking(command):
    """The tools of a command that are not installed."""
    return [tool for tool in TOOLS if re.search(rf"\b{tool}\b", command) and not shutil.which(tool)]


def printed(command, room):
    done = subprocess.run(["bash", "-c", command], cwd=room, stdin=subprocess.DEVNULL, stdout=subprocess.PIPE, stderr=subprocess.STDOUT)
    return done.stdout.decode("utf-8", "replace").strip("\n")


def check(ntboot):
    """How many commands print what the page says, and what is wrong with the others."""
    passed, failures = 0, []
    with open(PAGE, encoding="utf-8") as f:
        pairs = list(recipes(f.read()))
    with tempfile.TemporaryDirectory() as room:
        shutil.copy(ntboot, os.path.join(room, "ntboot"))
        shutil.copytree(os.path.join(TOP, "examples"), os.path.join(room, "examples"))
        for command, wanted in pairs:
            absent = lacking(command)
            if absent:
                print(f"left out, as {' and '.join(absent)} is not installed: {command[:60]}")
                continue
            found = printed(command, room)
            if found == wanted:
                passed += 1
            else:
                failures.append(f"{command}\n  prints\n{found}\n  and not\n{wanted}")
    if not pairs:
        failures.append("the page has no command")
    return passed, failures


def main(words):
    passed, failures = check(words[0] if words else NTBOOT)
    for failure in failures:
        print(failure)
    print(f"{passed} passed, {len(failures)} failed")
    return 1 if failures else 0


if __name__ == "__main__":
    sys.exit(main(sys.argv[1:]))

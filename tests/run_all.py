#!/usr/bin/env python3
"""Runs the built programs: ntboot over each folder of tests/runs, and ntmend over those whose name begins with `ntmend_`. A folder has `words` (one a
line), the input files, what must be printed (`stdout`, and `stderr` on standard error), the exit status (`status`), and files that must be there then
(`after`). No other file may be there, and each input that `after` does not have must be as it was. Then ntboot over each example, and the checks of the
other modules, each of which runs alone too. Prints each run that differs, then 'N passed, M failed'.
With --short some rows are left out: tests/README.md says which.
tests/run_all.py [--with NTBOOT NTMEND] [--short]"""
import os
import sys

import each_input
import each_output
import each_save
import each_stop
import json_lines
import large
import odd_files
import refusals
import saved_again
import texts
import words
from programs import TOP, Said, contents, differs, fresh, judged, main, read, said

EXAMPLES = os.path.join(TOP, "examples")


def wrong_file(run, there):
    """Names the first file that is not as it should be after a run. What a run with an answer was asked to save may be there, since saved_again.py looks
    at it."""
    wanted = {**run.inputs, **run.after}
    saved = set(run.saved().values()) if run.is_done() else set()
    for name in sorted({*there, *wanted} - (saved - {*wanted})):
        if name not in there or name not in wanted or there[name] != wanted[name]:
            return f"the file {name} is not as it should be"
    return ""


def wrong_run(programs, run):
    """What is wrong with a run of tests/runs in a fresh folder with its inputs."""
    with fresh(run.inputs) as room:
        found = said(run.program(programs), run.words, room)
        return differs(found, run.wanted) or wrong_file(run, contents(room))


def check_runs(programs):
    return judged((run.name, wrong_run, programs, run) for run in programs.runs())


def wrong_example(programs, files, line):
    """What is wrong with a line of an example's `command`: the program's name, its words and, after `>`, the file with its report, which is `report.txt`
    otherwise. The exit is 0, or what `status` says, and no file changes."""
    command, _, report = line.partition(" > ")
    wanted = Said(files[report or "report.txt"], b"", int(files.get("status", 0)))
    with fresh(files) as room:
        found = said(programs.ntboot, command.split()[1:], room)
        return differs(found, wanted) or ("" if contents(room) == files else "a file has changed")


def check_examples(programs):
    rows = []
    for name in sorted(os.listdir(EXAMPLES)):
        files = contents(os.path.join(EXAMPLES, name))
        rows += [(f"example {name}: {line}", wrong_example, programs, files, line) for line in files["command"].decode().splitlines()]
    return judged(rows)


CHECKS = (
    check_runs,
    check_examples,
    odd_files.check,
    each_input.check,
    each_output.check,
    each_save.check,
    saved_again.check,
    each_stop.check,
    words.check,
    texts.check,
    refusals.check,
    json_lines.check,
    large.check,
)

# What takes minutes in a program with run-time checks, as `./try` builds it.
LONG = (large.check,)


def chosen(words):
    """All checks, or with `--short` those that are soon done in any build."""
    if "--short" not in words:
        return CHECKS
    print("left out by --short and made by .ci/run: large.py, files of 32 MiB, hives of over 100 services, and what tests/README.md says of two modules")
    return [one for one in CHECKS if one not in LONG]


if __name__ == "__main__":
    sys.exit(main(*chosen(sys.argv)))

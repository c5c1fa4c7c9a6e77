#!/usr/bin/env python3
"""Runs the commands of each lab, the lines of its file `command`, and compares what is printed with the report that is kept behind `>`: labs/runs.py [LAB..].
With --write it writes the reports; --with NTBOOT runs that program. Files that a command saves go into a temporary folder, where the next commands find
them. Then the solution of each lab has to pass its check, and the same with a file left out must not. The last line is 'N passed, M failed'."""
import argparse
import contextlib
import io
import os
import re
import shutil
import sys
import tempfile

LABS = os.path.dirname(os.path.abspath(__file__))
sys.path.insert(0, LABS)
import check
import program


def labs(numbers):
    """The folders of the labs with these numbers, or all."""
    names = sorted(name for name in os.listdir(LABS) if name[:2].isdigit())
    return [name for name in names if not numbers or int(name[:2]) in map(int, numbers)]


def commands(lab):
    """The words of each command of a lab, and the file with its report."""
    with open(os.path.join(LABS, lab, "command")) as f:
        for line in f.read().splitlines():
            command, _, report = line.partition(" > ")
            yield command.split()[1:], report


def passes(lab, files):
    """Whether these files of a lab pass its check."""
    with contextlib.redirect_stdout(io.StringIO()):
        return check.main([lab, *(os.path.join(LABS, lab, name) for name in files)]) == 0


def unlike_its_check(lab):
    """What is wrong with the solution of a lab: its table, its reports and its answers, in this order."""
    names = os.listdir(os.path.join(LABS, lab))
    files = [name for name in ("table.txt", "toy.txt", *sorted(n for n in names if re.fullmatch(r"report(_\d)?\.txt", n)), "answers.txt") if name in names]
    if not passes(lab, files):
        yield f"{lab}: the solution does not pass"
    for left_out in files:
        if len(files) > 1 and passes(lab, [name for name in files if name != left_out]):
            yield f"{lab}: it passes without {left_out}"


def main(words):
    parser = argparse.ArgumentParser(description=__doc__, formatter_class=argparse.RawDescriptionHelpFormatter)
    parser.add_argument("labs", nargs="*", metavar="LAB")
    parser.add_argument("--write", action="store_true")
    parser.add_argument("--with", metavar="NTBOOT", dest="program")
    given = parser.parse_args(words)
    write, asked = given.write, labs(given.labs)
    with tempfile.TemporaryDirectory() as room:
        calls, reports = [], []
        for lab in asked:
            shutil.copytree(os.path.join(LABS, lab), os.path.join(room, lab))
            for call, report in commands(lab):
                calls.append(program.whole(call, os.path.join(room, lab)))
                reports.append(os.path.join(LABS, lab, report))
        differing = 0
        for path, (text, _) in zip(reports, program.answers(calls, given.program and os.path.abspath(given.program))):
            kept = open(path, encoding="latin-1").read() if os.path.isfile(path) else None
            if write:
                with open(path, "w", encoding="latin-1") as f:
                    f.write(text)
            elif kept != text:
                differing += 1
                print(f"{os.path.relpath(path)} differs")
    wrong = {lab: list(unlike_its_check(lab)) for lab in asked}
    for line in sum(wrong.values(), []):
        print(line)
    failed = differing + sum(map(bool, wrong.values()))
    print(f"{len(reports) + len(asked) - failed} passed, {failed} failed")
    return 1 if failed else 0


if __name__ == "__main__":
    sys.exit(main(sys.argv[1:]))

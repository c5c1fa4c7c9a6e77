#!/usr/bin/env python3
"""Makes the students' copy of the labs, and types every command of every sheet in it, with the script that a lab begins with in place of a student's own: each
runs, and finds its files. A check of such work gives hints and no wanted line; a check of the solution passes. No solution, file `expected` or
generator is in the copy. tests/students.py [NTBOOT]"""
import os
import re
import shutil
import subprocess
import sys
import tempfile

TOP = os.path.dirname(os.path.dirname(os.path.abspath(__file__)))
LABS = os.path.join(TOP, "labs")
NTBOOT = os.path.join(TOP, "crates", "ntboot", "out", "ntboot")
sys.path.insert(0, LABS)
import check

COMMAND = re.compile(r"(\.\./\.\./ntboot|\.\./check\.py|\.\./sweep\.py|\./toy\.py|od|cmp|diff) .*")
KEPT_BACK = re.compile(r"expected|solution\.txt|answers\.txt|ANSWERS\.md|make.*\.py|runs\.py|students\.py|.*_answer\.svg")


def commands_of(sheet):
    """The commands of a sheet in their order: lines of code, and spans between backquotes."""
    with open(sheet) as f:
        lines = f.read().splitlines()
    for line in lines:
        spans = [line.strip()] if line.startswith("       ") else re.findall(r"`([^`]*)`", line)
        for span in spans:
            if COMMAND.fullmatch(span) and "ntboot: " not in span:
                yield span


def prepare(folder):
    """A student's own files: the script of the lab unchanged, and answers that say nothing."""
    start = next((name for name in ("start.txt", "save.txt", "boot.txt") if os.path.isfile(os.path.join(folder, name))), None)
    if start:
        shutil.copy(os.path.join(folder, start), os.path.join(folder, "mine.txt"))
    for name in ("mine_answer.txt", "mine_answers.txt"):
        with open(os.path.join(folder, name), "w") as f:
            f.write("answer nothing\n")


def typed(command, folder):
    """What a command prints, and its exit; `less` would wait, and K is any number of sectors."""
    command = command.replace("| less", "| cat").replace("--make K ", "--make 1 ")
    done = subprocess.run(["bash", "-c", command], cwd=folder, stdin=subprocess.DEVNULL, stdout=subprocess.PIPE, stderr=subprocess.STDOUT)
    return done.stdout.decode("latin-1"), done.returncode


def wanted_lines(lab):
    """What the claims of a lab ask for, without `*`."""
    with open(os.path.join(LABS, lab, "expected")) as f:
        return [claim.rest for _, claims in check.claims_of(f.read()) for claim in claims if len(claim.rest) > 8 and "*" not in claim.rest]


def faults_of_check(lab, printed, status):
    if status not in (0, 1) or "Traceback" in printed:
        yield f"{lab}: the check ends with {status}: {printed[-200:]}"
    for line in wanted_lines(lab):
        if line in printed:
            yield f"{lab}: the check prints {line!r}"


def faults_of_sheet(lab, folder):
    """What is wrong when the commands of a sheet are typed."""
    prepare(folder)
    count = 0
    for command in commands_of(os.path.join(folder, "README.md")):
        count += 1
        printed, status = typed(command, folder)
        if command.startswith("../check.py"):
            yield from faults_of_check(lab, printed, status)
        elif status not in (0, 1, 3, 5, 8) or "no file" in printed or "Traceback" in printed or "bad usage" in printed:
            yield f"{lab}: {command}: exit {status}: {printed[-200:]}"
    if count == 0:
        yield f"{lab}: the sheet has no command"


def solved(lab, labs):
    """Whether the solution passes the check of the students' copy."""
    folder = os.path.join(LABS, lab)
    names = os.listdir(folder)
    files = [n for n in ("table.txt", "toy.txt", *sorted(n for n in names if re.fullmatch(r"report(_\d)?\.txt", n)), "answers.txt") if n in names]
    done = subprocess.run([os.path.join(labs, "check.py"), lab, *(os.path.join(folder, n) for n in files)], stdout=subprocess.PIPE, stderr=subprocess.STDOUT)
    return done.returncode == 0


def rows(ntboot):
    """For each thing that is tried a name and what is wrong with it."""
    with tempfile.TemporaryDirectory() as room:
        made = os.path.join(room, "class")
        subprocess.run([os.path.join(LABS, "students.py"), made], check=True, stdout=subprocess.DEVNULL)
        shutil.copy(ntboot, os.path.join(made, "ntboot"))
        labs = os.path.join(made, "labs")
        found = [os.path.join(d, f) for d, _, files in os.walk(labs) for f in files if KEPT_BACK.fullmatch(f)]
        yield "what is kept back", [f"{os.path.relpath(path, made)} is in the students' copy" for path in found]
        for lab in sorted(name for name in os.listdir(labs) if name[:2].isdigit()):
            yield f"{lab} typed", list(faults_of_sheet(lab, os.path.join(labs, lab)))
            yield f"{lab} solved", [] if solved(lab, labs) else [f"{lab}: the solution does not pass"]


def main(words):
    passed, failures = 0, []
    for _, wrong in rows(words[0] if words else NTBOOT):
        passed += not wrong
        failures += wrong
    print("".join(line + "\n" for line in failures) + f"{passed} passed, {len(failures)} failed")
    return 1 if failures else 0


if __name__ == "__main__":
    sys.exit(main(sys.argv[1:]))

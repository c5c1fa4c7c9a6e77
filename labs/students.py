#!/usr/bin/env python3
"""Makes the students' copy of the labs: labs/students.py DIR. DIR must not be there yet.

Every command of a sheet works in it: the hives, scripts and programs are there, and `check.py` gives hints. No solution, kept report, file `expected` or
generator is in it. What a check asks for is packed as `asked`, which nobody reads by accident; with --no-checks that is left out too, and the
reports are checked at the teacher's desk. The program `ntboot` that `./build` left at the top of the repository is copied, where there is one."""
import argparse
import os
import re
import shutil
import sys
import zlib

LABS = os.path.dirname(os.path.abspath(__file__))
TOP = os.path.dirname(LABS)
# Files of a lab that hold a solution or what a step prints.
SOLUTIONS = re.compile(r"(.*report.*|solution|answers|table|loads|alone|recovered|toy|tree|.*_before|key_\d)\.txt|AFTER|LOST|command|expected")
# Files of the labs' own folder that the sheets use.
SHARED = ("check.py", "reports.py", "program.py", "sweep.py", "view.html")
PICTURES = re.compile(r"(?!.*_answer).*\.svg")
DOCS = ("startup.md", "texts.md", "format.md", "words.md")
README = """# Labs: how Windows NT starts, and how its registry survives a power cut

Each folder of `labs` is one lab: read its `README.md`, and type its commands in its folder. They call `../../ntboot`{program}.
Your own files are called `mine..`. `../check.py LAB REPORT..` says whether a report shows what the lab asks for, or gives hints{checks}.
`labs/view.html`, opened in a browser, shows a report that you drop on it.
"""


def copy_lab(name, to, checks):
    """One lab: its sheet, hives and scripts, and what its check asks for as a packed file."""
    folder = os.path.join(LABS, name)
    os.makedirs(to)
    for file in sorted(os.listdir(folder)):
        if not SOLUTIONS.fullmatch(file) and not file.startswith("__"):
            shutil.copy(os.path.join(folder, file), to)
    if checks:
        with open(os.path.join(folder, "expected"), "rb") as f, open(os.path.join(to, "asked"), "wb") as out:
            out.write(zlib.compress(f.read()))


def copy_files(names, source, to):
    os.makedirs(to, exist_ok=True)
    for name in names:
        shutil.copy(os.path.join(source, name), to)


def write_readme(to, program, checks):
    with open(os.path.join(to, "README.md"), "w") as f:
        f.write(README.format(
            program="" if program else ", the program that your teacher gives you, at the top of this folder",
            checks="" if checks else " (at your teacher's desk)"))


def main(words):
    parser = argparse.ArgumentParser(description=__doc__, formatter_class=argparse.RawDescriptionHelpFormatter)
    parser.add_argument("dir")
    parser.add_argument("--no-checks", action="store_true")
    asked = parser.parse_args(words)
    try:
        os.makedirs(asked.dir)
    except OSError as e:
        raise SystemExit(f"{asked.dir}: {e.strerror}")
    labs = os.path.join(asked.dir, "labs")
    names = sorted(name for name in os.listdir(LABS) if name[:2].isdigit())
    for name in names:
        copy_lab(name, os.path.join(labs, name), not asked.no_checks)
    copy_files(SHARED, LABS, labs)
    pictures = os.path.join(LABS, "pictures")
    copy_files([name for name in os.listdir(pictures) if PICTURES.fullmatch(name)], pictures, os.path.join(labs, "pictures"))
    copy_files(DOCS, os.path.join(TOP, "docs"), os.path.join(asked.dir, "docs"))
    shutil.copytree(os.path.join(TOP, "examples"), os.path.join(asked.dir, "examples"))
    program = os.path.join(TOP, "ntboot")
    if os.path.isfile(program):
        shutil.copy(program, asked.dir)
    write_readme(asked.dir, os.path.isfile(program), not asked.no_checks)
    print(f"{len(names)} labs in {asked.dir}")
    return 0


if __name__ == "__main__":
    sys.exit(main(sys.argv[1:]))

#!/usr/bin/env python3
"""Tries the edits that are kept here and not in the gate: bench/edits/try_edits.py [CRATE..], all crates where none is named. It copies the repository, puts
the edits of bench/edits/CRATE into crates/CRATE/must-fail there, and runs `rt must-fail CRATE`. Prints what the prover did not refuse, then
'N passed, M failed'. Each crate is proved first, where it wasn't, and each edit takes a check of its crate."""
import os
import shutil
import subprocess
import sys
import tempfile

EDITS = os.path.dirname(os.path.realpath(__file__))
TOP = os.path.join(EDITS, "..", "..")


def edits(crate):
    return sorted(name for name in os.listdir(os.path.join(EDITS, crate)) if name.endswith(".edit"))


def tried(crate, copy):
    """What `rt must-fail` says of a crate with these edits alone, and its status."""
    folder = os.path.join(copy, "crates", crate, "must-fail")
    shutil.rmtree(folder, ignore_errors=True)
    shutil.copytree(os.path.join(EDITS, crate), folder)
    done = subprocess.run(["rt", "must-fail", crate], cwd=copy, stdout=subprocess.PIPE, stderr=subprocess.STDOUT, encoding="utf-8", errors="replace")
    return done.stdout, done.returncode


def main(crates):
    crates = crates or sorted(name for name in os.listdir(EDITS) if os.path.isdir(os.path.join(EDITS, name)))
    passed = failed = 0
    with tempfile.TemporaryDirectory() as room:
        copy = os.path.join(room, "copy")
        shutil.copytree(TOP, copy, ignore=shutil.ignore_patterns(".git", "out", "__pycache__"))
        for crate in crates:
            said, status = tried(crate, copy)
            if status:
                failed += 1
                print(f"{crate}: not each of {len(edits(crate))} edits is refused:\n{said}", flush=True)
            else:
                passed += 1
    print(f"{passed} passed, {failed} failed")
    return 1 if failed or not passed else 0


if __name__ == "__main__":
    sys.exit(main(sys.argv[1:]))

"""Proves, builds and runs a small program over the repository's crates, for the scripts beside it."""
import os
import shutil
import subprocess
import tempfile

HERE = os.path.dirname(os.path.abspath(__file__))


def run(name, uses, program):
    """Runs the program over a copy of the crates, which is gone afterwards. What a check of them has kept on this machine is taken
    from there, and else they are checked now. The answer is the exit status."""
    top = os.path.dirname(HERE)
    with tempfile.TemporaryDirectory() as room:
        shutil.copytree(os.path.join(top, "crates"), os.path.join(room, "crates"), ignore=shutil.ignore_patterns("out", "must-fail"))
        with open(os.path.join(top, "crates.txt"), encoding="utf-8") as f:
            lines = f.read()
        with open(os.path.join(room, "crates.txt"), "w", encoding="utf-8") as f:
            f.write(lines + f"{name}: {' '.join(uses)} anyhow\n")
        source = os.path.join(room, "crates", name, "src")
        os.makedirs(source)
        with open(os.path.join(source, "main.rt"), "w", encoding="utf-8") as f:
            f.write(program)
        done = subprocess.run(["rt", "run"], cwd=os.path.dirname(source), stderr=subprocess.PIPE, text=True)
        if done.returncode:
            print(done.stderr)
    return done.returncode

#!/usr/bin/env python3
"""Counts the instructions of the program's work on a large hive beside those of a plain C program that makes the same checks (plain.c), and the
memory that each takes: bench/plain_c.py PROGRAM [HIVE]. HIVE is a real SYSTEM hive; without one only generated hives are read. Needs gcc,
time and valgrind. What `show` and `export` write of the generated hive must be what plain C writes. An edit is counted as the difference between two
runs. No gate runs it."""
import os
import re
import subprocess
import sys
import tempfile

sys.path.insert(0, os.path.dirname(os.path.abspath(__file__)))
import hives

HERE = os.path.dirname(os.path.abspath(__file__))
START = "boot\ngo\noff\n"


def instructions(room, words):
    """The instructions of a run, in millions."""
    counted = ["valgrind", "--tool=callgrind", "--callgrind-out-file=/dev/null", *words]
    done = subprocess.run(counted, cwd=room, stdout=subprocess.DEVNULL, stderr=subprocess.PIPE, text=True)
    return int(re.search(r"Collected : (\d+)", done.stderr)[1]) / 1e6


def memory(room, words):
    """The most memory that a run has at once, in MiB, and what it prints. A program of its own runs it, so that this one's memory is not counted."""
    done = subprocess.run(["time", "-o", "used", "-f", "%M", *words], cwd=room, stdout=subprocess.PIPE)
    if done.returncode not in (0, 8):
        sys.exit(f"{' '.join(words)}: exit {done.returncode}")
    with open(os.path.join(room, "used"), encoding="utf-8") as f:
        return int(f.read().split()[-1]) / 1024, done.stdout


def put(room, name, data):
    with open(os.path.join(room, name), "wb") as f:
        f.write(data if isinstance(data, bytes) else data.encode())
    return name


class Table:
    """The rows, each printed once it is counted."""

    def __init__(self, room, program, plain):
        self.room, self.program, self.plain = room, os.path.abspath(program), plain
        print("| Work | Mi | plain C, Mi | times | MiB |\n|---|---|---|---|---|")

    def row(self, work, words, plain=None):
        """A run of the program, beside one of plain C where there is one."""
        words = [self.program, *words]
        count, most = instructions(self.room, words), memory(self.room, words)[0]
        other = instructions(self.room, [self.plain, *plain]) if plain else None
        beside = f"{other:.1f} | {count / other:.1f}" if other else " | "
        print(f"| {work} | {count:.1f} | {beside} | {most:.0f} |", flush=True)

    def more(self, work, one, other, times):
        """What a step costs, of which the second run makes that many more than the first."""
        counts = [instructions(self.room, [self.program, *words]) for words in (one, other)]
        print(f"| {work} | {(counts[1] - counts[0]) / times:.2f} | | | |", flush=True)

    def same(self, words, plain, written=None):
        """The program writes what plain C writes, into a file or, after its first line, which has the hive's bulk, on standard output."""
        said = memory(self.room, [self.program, *words])[1].partition(b"\n")[2]
        if written:
            with open(os.path.join(self.room, written), "rb") as f:
                said = f.read()
        if said != memory(self.room, [self.plain, *plain])[1]:
            sys.exit(f"{' '.join(words)} and plain C differ")


def run(hive, script):
    return ["run", "--hive", hive, "--script", script]


def reading(table, hive):
    """What reads a whole hive."""
    put(table.room, "nothing", "")
    table.row("load and check", run(hive, "nothing"), ["judge", hive])
    table.row("`show`", ["show", "--hive", hive], ["show", hive])
    table.row("`export`", ["export", "--hive", hive, "--reg", "reg"], ["export", hive])


def looking(table, hive):
    """What looks at the services of a hive with much else in it."""
    table.row("load and check, few services", run(hive, "nothing"), ["judge", hive])
    table.row("`key` of one key", ["key", "--hive", hive, "--key", "Select"], ["judge", hive])
    table.row("`check`, few services", ["check", "--hive", hive], ["judge", hive])
    table.row("`diff` of a set with itself, few services", ["diff", "--hive", hive, "--set", "1", "--with-set", "1"], ["judge", hive])


def starting(table, hive, which):
    """A start to its end."""
    put(table.room, "one", START)
    table.row(f"one start{which}", run(hive, "one"))


def steps(table, work, edit, hive, first=4, second=24, commit="flush\n"):
    """One edit of many, each with its commit, or with none but the one at the end."""
    for name, count in (("few", first), ("several", second)):
        put(table.room, name, "boot\n" + "".join(edit.format(i) + "\n" + commit for i in range(1, count + 1)) + "off\n")
    table.more(work, run(hive, "few"), run(hive, "several"), second - first)


def registry_text(lines):
    head = ["Windows Registry Editor Version 5.00", ""]
    return b"\xff\xfe" + "".join(line + "\r\n" for line in head + lines + [""]).encode("utf-16-le")


def main(words):
    program, real = words[0], words[1] if len(words) > 1 else None
    with tempfile.TemporaryDirectory() as room:
        plain = os.path.join(room, "plain")
        subprocess.run(["gcc", "-O2", "-o", plain, os.path.join(HERE, "plain.c")], check=True)
        large = put(room, "large", hives.with_a_key(48_000))
        table = Table(room, program, plain)
        table.same(["show", "--hive", large], ["show", large])
        table.same(["export", "--hive", large, "--reg", "reg"], ["export", large], "reg")
        for hive in [large] + ([os.path.abspath(real)] if real else []):
            reading(table, hive)
            starting(table, hive, "")
        looking(table, put(room, "few", hives.with_a_key(300, 150_000)))
        table.row("`export --key` of one key", ["export", "--hive", large, "--reg", "reg", "--key", "A"], ["judge", large])
        put(room, "reg.one", registry_text(['[HKEY_LOCAL_MACHINE\\SYSTEM\\A]', '"V"=dword:00000007']))
        table.row("`import` of one value", ["import", "--hive", large, "--reg", "reg.one", "--save-hive", "out"], ["judge", large])
        steps(table, "an edit of one value and its commit", "set A V dword {}", large)
        steps(table, "`make` of a key and its commit", "make A\\K{}", large)
        steps(table, "`make` of a key, before any commit", "make A\\K{}", large, commit="")
        steps(table, "`make` and `remove` of a key, each with its commit", "make A\\K{0}\nflush\nremove A\\K{0}", large)
        made = put(room, "made", hives.with_services(1_000))
        starting(table, made, " of 1,000 services, without a commit")
        starting(table, put(room, "guarded", hives.with_services(1_000, good=1)), " of 1,000 services, with the guard's commit")
        put(room, "many", 64 * START)
        table.row("64 starts of 1,000 services", run(made, "many"))
        values = put(room, "values", hives.with_a_key(10, 100_000))
        steps(table, "one deletion in a key of 100,000 values", "delete A V{}", values)
        steps(table, "one new value there, before any commit", "set A N{0} dword {0}", values, commit="")
        wide = put(room, "wide", hives.with_a_wide_key(100_000))
        steps(table, "one key made among 100,000, before any commit", "make A\\N{}", wide, commit="")
        steps(table, "one key removed among 100,000, before any commit", "remove A\\K{:06d}", wide, commit="")


main(sys.argv[1:])

"""What the checks of built programs share: the two programs, fresh folders to run them in, and how rows are judged.

A check is a module of tests/ with one function

    check(programs) -> (passed, failures)

where `programs.ntboot` and `programs.ntmend` are paths, `passed` is how many rows were as they should be, and `failures` has a line of text for
each other one. Most have a list of rows for `judged`. A check ends with

    if __name__ == "__main__":
        sys.exit(main(check))

so that it runs alone, as `tests/NAME.py [--with NTBOOT NTMEND] [--short]`, and run_all.py runs it with the others. It needs no network, looks at no clock, and
writes nothing outside of the folders of `fresh`."""
import contextlib
import copy
import multiprocessing
import os
import stat
import subprocess
import sys
import tempfile
from typing import NamedTuple

TOP = os.path.join(os.path.dirname(os.path.abspath(__file__)), "..")
RUNS = os.path.join(TOP, "tests", "runs")
# What a folder of tests/runs has besides input files.
PARTS = ("words", "stdout", "stderr", "status", "after")
# After that many seconds a program hangs. Nothing here takes a hundredth of it.
TIMEOUT = 600
# An input is short up to that many bytes.
SHORT = 32 * 1024
# What a file to save has before.
BEFORE = b"before"
# The options by which a command names the files that it saves.
SAVING = {
    "run": ("--save-hive", "--save-log"),
    "make": ("--save-hive",),
    "twin": ("--save-hive", "--save-alt"),
    "export": ("--reg",),
    "import": ("--save-hive", "--save-log"),
    "replay": ("--save-hive",),
    "salvage": ("--save-hive",),
}


class Programs(NamedTuple):
    """The paths of the two programs, as `rt ci` leaves them or as `--with` names them, and whether a check leaves out what takes long in programs with
    run-time checks (`--short`)."""
    ntboot: str = os.path.join(TOP, "crates", "ntboot", "out", "ntboot")
    ntmend: str = os.path.join(TOP, "crates", "ntmend", "out", "ntmend")
    short: bool = False

    def runs(self):
        """The folders of tests/runs that are run."""
        return [run for run in runs() if not (self.short and run.makes_many())]


class Said(NamedTuple):
    """What a run printed, what it printed on standard error, and its exit status."""
    out: bytes
    errors: bytes
    status: int


def read(*path):
    with open(os.path.join(*path), "rb") as f:
        return f.read()


def write(data, *path):
    with open(os.path.join(*path), "wb") as f:
        f.write(data)


@contextlib.contextmanager
def fresh(files):
    """A new folder with these files, which is removed in the end. `files` has the bytes of each by its name."""
    with tempfile.TemporaryDirectory() as room:
        for name, data in files.items():
            write(data, room, name)
        yield room


def said(program, words, room, **more):
    """What a program says to words in a folder."""
    ran = subprocess.run([program, *words], cwd=room, stdin=subprocess.DEVNULL, stdout=subprocess.PIPE, stderr=subprocess.PIPE, timeout=TIMEOUT, **more)
    return Said(ran.stdout, ran.stderr, ran.returncode)


def listing(room):
    """What is in a folder: each name with its mode, and the bytes of a file or what a link names."""
    found = {}
    for at, folders, files in os.walk(room):
        for path in (os.path.join(at, name) for name in folders + files):
            mode = os.lstat(path).st_mode
            content = os.readlink(path) if stat.S_ISLNK(mode) else read(path) if stat.S_ISREG(mode) else None
            found[os.path.relpath(path, room)] = mode, content
    return found


def contents(room):
    """What is in a folder, without the modes: the bytes of each file by its name."""
    return {name: content for name, (_, content) in listing(room).items()}


def options(words):
    """The options of a command line with their values, whether they are two words or one."""
    for word, following in zip(words, [*words[1:], ""]):
        if word.startswith("--"):
            option, joined, value = word.partition("=")
            yield option, value if joined else following


def with_value(words, option, value):
    """A command line in which an option has another value."""
    changed = list(words)
    for at, word in enumerate(words):
        if word == option:
            changed[at + 1] = value
        elif word.startswith(option + "="):
            changed[at] = f"{option}={value}"
    return changed


class Run:
    """A folder of tests/runs: its name, its words, its input files, what must be said, and the files that must be there then."""

    def __init__(self, name):
        folder = os.path.join(RUNS, name)
        files = {part: read(folder, part) for part in os.listdir(folder) if part != "after"}
        after = os.path.join(folder, "after")
        self.name = name
        self.words = files["words"].decode().split("\n")[:-1]
        self.inputs = {part: data for part, data in files.items() if part not in PARTS}
        self.wanted = Said(files["stdout"], files.get("stderr", b""), int(files["status"]))
        self.after = contents(after) if os.path.isdir(after) else {}

    def is_of_ntmend(self):
        return self.name.startswith("ntmend_")

    def program(self, programs):
        """The program that it is a run of."""
        return programs.ntmend if self.is_of_ntmend() else programs.ntboot

    def saved(self):
        """The files that its words ask to be saved: the name of each by its option."""
        wanted = SAVING.get("".join(self.words[:1]), ())
        return {option: value for option, value in options(self.words) if option in wanted}

    def saving(self):
        """The same run with each file to save named that its command knows. Only those are named by which no line of the report changes."""
        more = copy.copy(self)
        wanted = SAVING[self.words[0]] if self.words[:1] in (["run"], ["make"], ["twin"], ["import"]) else ()
        missing = [option for option in wanted if option not in self.saved()]
        more.words = self.words + [word for option in missing for word in (option, option.strip("-"))]
        return more

    def files(self):
        """Its input files, and those to save, which are there already with bytes that no run saves."""
        return {**dict.fromkeys(self.saved().values(), BEFORE), **self.inputs}

    def read(self):
        """The input files that its words name."""
        named = {*self.words, *(value for _, value in options(self.words))}
        return [name for name in self.inputs if name in named]

    def is_done(self):
        """Does it end with an answer, and not with a refusal of its words or files, or a page of help?"""
        return self.wanted.status in (0, 8) and not {"help", "version", "-h", "--help", "--version"}.intersection(self.words)

    def makes_many(self):
        """Does it make a hive of more than 100 services?"""
        return self.words[:1] == ["make"] and any(word.isdigit() and int(word) > 100 for word in self.words)

    def is_short(self):
        """Are its input and the hive that it makes so short that it may be run many times?"""
        return not self.makes_many() and sum(map(len, self.inputs.values())) <= SHORT

    def is_verbose(self):
        """Does it ask for the reason of a refusal?"""
        return "-v" in self.words or "--verbose" in self.words


def runs():
    """The folders of tests/runs, by name."""
    return [Run(name) for name in sorted(os.listdir(RUNS))]


def differs(found, wanted):
    """Nothing where a run said what it should, else in a line what it said."""
    if found == wanted:
        return ""
    return f"exit {found.status}, wanted {wanted.status}; said {(found.out + found.errors)[:400]!r}, wanted {(wanted.out + wanted.errors)[:400]!r}"


# The rows that are judged now, which each process of the pool has from the one that it was forked from.
ROWS = []


def judge(place):
    """What is wrong with a row, in a line with its name; nothing where it is as it should be."""
    name, wrong, *arguments = ROWS[place]
    try:
        found = wrong(*arguments)
    except Exception as broken:  # any: whatever a row stumbles over is one failure, and the others are still judged
        found = f"{type(broken).__name__}: {broken}"
    return f"{name}: {found}" if found else ""


def judged(rows, at_once=os.cpu_count()):
    """Judges rows, several at once, each in one of some processes. A row is a name, a function that returns nothing or in a line what is wrong, and the
    function's arguments. The answer is that of a check. A row that breaks, or whose program takes too long, has failed."""
    ROWS[:] = rows
    with multiprocessing.get_context("fork").Pool(at_once) as pool:
        lines = pool.map(judge, range(len(ROWS)), chunksize=4)
    failures = [line for line in lines if line]
    return len(lines) - len(failures), failures


def named(words):
    """The programs that a command line names with `--with NTBOOT NTMEND`, or those that `rt ci` leaves, and whether it has `--short`."""
    short = "--short" in words
    words = [word for word in words if word != "--short"]
    if not words:
        return Programs(short=short)
    if len(words) != 3 or words[0] != "--with":
        sys.exit("usage: [--with NTBOOT NTMEND] [--short]")
    return Programs(*map(os.path.abspath, words[1:]), short)


def main(*checks):
    """Runs checks by the command line: prints each failure once its check is done, then 'N passed, M failed' of all. The answer is the exit status."""
    programs = named(sys.argv[1:])
    if not all(map(os.path.exists, (programs.ntboot, programs.ntmend))):
        print("no built program: run `rt ci` at the top first")
        return 1
    passed = failed = 0
    for check in checks:
        more, failures = check(programs)
        print("".join(line + "\n" for line in failures), end="", flush=True)
        passed, failed = passed + more, failed + len(failures)
    print(f"{passed} passed, {failed} failed")
    return 1 if failed or not passed else 0

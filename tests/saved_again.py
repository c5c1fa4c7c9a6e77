#!/usr/bin/env python3
"""That what is saved loads again, as what was reported. Each folder of tests/runs whose command may save saves all files that it can. What `run`, `make`,
`twin` and `import` save loads under the last sequence number of their report, or, where it has none, under that of the input. After a stop it may be the
next number too, since the change that was stopped may be whole; and where the power was cut so that sectors cannot be read, sector 0 of the hive may be
zeros, and the files no hive. Each `run` is made once more without the last line of its script. A run that is refused changes no file. Prints each row that
differs, then 'N passed, M failed'.
tests/saved_again.py [--with NTBOOT NTMEND]"""
import re
import sys

from programs import BEFORE, contents, differs, fresh, judged, main, options, said

# A line with the number that the disk has: of a load, of a commit, or of a made hive; as text and as JSON.
TOLD = re.compile(rb'^(?:load|commit \w+|made .* sequence) (\d+)|^\{"line":"(?:load|commit|made)".*"sequence":(\d+)')
STOPPED = (b"verdict cut", b"verdict device", b'{"line":"verdict","word":"cut"}', b'{"line":"verdict","word":"device"}')
NO_HIVE = b"hive fault not-regf at 0\n"


def shown(program, room, *look):
    """The sequence number that a hive loads with, by `show`, or what `show` says where it loads with none."""
    found = said(program, ["show", *look], room)
    number = re.match(rb"sequence (\d+) ", found.out)
    return int(number[1]) if number and found.status == 0 else found.out


def shown_input(program, run, room):
    """The number that the input of a run loads with. `make` has none, and `twin` reports the number of its two copies always."""
    named = dict(options(run.words))
    if run.words[0] in ("make", "twin"):
        return None
    return shown(program, room, *(word for option in ("--hive", "--log") if option in named for word in (option, named[option])))


def may_load_as(report, first):
    """The numbers that what was saved after this report may load with, `first` being the input's."""
    number, stopped = first, False
    for line in report.splitlines():
        told = TOLD.match(line)
        if told:
            number, stopped = int(told[1] or told[2]), False
        stopped = stopped or line in STOPPED
    return (number, number + 1) if stopped else (number,)


def looks(run, report):
    """The words by which `show` looks at what a run saved: the hive with its log, or each copy by itself. An import that was committed needs no log."""
    saved = run.saved()
    hive, log, copied = (saved.get(option) for option in ("--save-hive", "--save-log", "--save-alt"))
    if log and run.words[0] == "import" and b"commit" in report:
        return [("--hive", hive), ("--hive", hive, "--log", log)]
    if log or copied and dict(options(run.words)).get("--scheme") == "log":
        return [("--hive", hive, "--log", log or copied)]
    return [("--hive", name) for name in (hive, copied) if name]


def is_torn(run, files):
    """Was the power cut so that sectors cannot be read, and sector 0 of the hive, which then has zeros, is one of them?"""
    script = files.get(dict(options(run.words)).get("--script"), b"")
    return b" torn" in script and files[run.saved()["--save-hive"]][:512] == bytes(512)


def wrongly_saved(program, run, room, report, first):
    """What is wrong with the files that a run saved after this report, where its input loads with the first number."""
    files, allowed = contents(room), may_load_as(report, first)
    for name in run.saved().values():
        if files[name] == BEFORE:
            return f"{name} is not saved"
    for look in looks(run, report):
        found = shown(program, room, *look)
        if found not in allowed and not (found == NO_HIVE and is_torn(run, files)):
            return f"{' '.join(look)} loads as {found!r}, and not as one of {allowed}"
    return ""


def saves(programs, run):
    """What is wrong with a run that saves all files that it can."""
    with fresh(run.files()) as room:
        first = shown_input(programs.ntboot, run, room)
        found = said(programs.ntboot, run.words, room)
        return differs(found, run.wanted) or wrongly_saved(programs.ntboot, run, room, found.out, first)


def shortened(script):
    """A script without its last line."""
    return b"".join(script.splitlines(keepends=True)[:-1])


def is_front(report, whole):
    """Is a report that of a longer script, up to the lines that end it and its last start?"""
    lines = report.splitlines()
    while lines and lines[-1].startswith((b"verdict ", b"end", b'{"line":"verdict"', b'{"line":"end"')):
        lines.pop()
    return lines == whole.splitlines()[:len(lines)]


def saves_earlier(programs, run):
    """What is wrong with a run whose script lacks its last line."""
    script = dict(options(run.words))["--script"]
    with fresh({**run.files(), script: shortened(run.inputs[script])}) as room:
        first = shown_input(programs.ntboot, run, room)
        found = said(programs.ntboot, run.words, room)
        if found.status != 0 or not is_front(found.out, run.wanted.out):
            return f"exit {found.status}, said {found.out[-400:]!r}"
        return wrongly_saved(programs.ntboot, run, room, found.out, first)


def saves_nothing(programs, run):
    """What is wrong with a run that is refused."""
    before = run.files()
    with fresh(before) as room:
        found = said(run.program(programs), run.words, room)
        return differs(found, run.wanted) or ("" if contents(room) == before else "a file has changed")


def rows(programs):
    for run in (run.saving() for run in programs.runs()):
        if not run.is_done():
            yield f"{run.name}: is refused and saves nothing", saves_nothing, programs, run
        elif run.words[0] in ("run", "make", "twin", "import"):
            yield f"{run.name}: saves", saves, programs, run
        if run.is_done() and run.is_short() and run.words[0] == "run":
            yield f"{run.name}: saves without the last line of its script", saves_earlier, programs, run


def check(programs):
    return judged(rows(programs))


if __name__ == "__main__":
    sys.exit(main(check))

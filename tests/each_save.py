#!/usr/bin/env python3
"""That a file which cannot be saved ends a run after its report, and that no other file is saved then. In each folder of tests/runs that saves files, and
in each that may, each file to save in turn lies in a folder that is not there. The report is whole, but of `export` nothing is printed, the exit is 7,
and no file changes: not even one to save that could be saved. Prints each row that differs, then 'N passed, M failed'.
tests/each_save.py [--with NTBOOT NTMEND]"""
import sys

from programs import Said, contents, differs, fresh, judged, main, said, with_value

NOWHERE = "gone/file"


def wanted(run):
    """What a run says that cannot save a file."""
    reason = f"ntboot: can't write {NOWHERE}\n".encode() if run.is_verbose() else b""
    return Said(b"" if run.words[0] == "export" else run.wanted.out, reason, 7)


def wrong(programs, run, option):
    """What is wrong with a run that is to save the file of an option nowhere."""
    before = run.files()
    with fresh(before) as room:
        found = said(programs.ntboot, with_value(run.words, option, NOWHERE), room)
        return differs(found, wanted(run)) or ("" if contents(room) == before else "a file has changed")


def may_refuse(run):
    """Is it of a command that saves only what it can make, which is in `after` then?"""
    return run.words[0] in ("export", "replay", "salvage")


def rows(programs):
    for run in (run.saving() for run in programs.runs() if run.is_done() and run.is_short()):
        for option, name in run.saved().items():
            if name in run.after or not may_refuse(run):
                yield f"{run.name}: {option} leads nowhere", wrong, programs, run, option


def check(programs):
    return judged(rows(programs))


if __name__ == "__main__":
    sys.exit(main(check))

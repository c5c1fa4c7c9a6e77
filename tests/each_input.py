#!/usr/bin/env python3
"""That a file which cannot be read ends a run, and leaves no trace. In each folder of tests/runs that ends with an answer, each input file in turn is a
folder of the same name. `ntboot` then prints nothing and exits with 6, `ntmend` says that there is no such file. No file changes: those to save keep
the bytes that they had before, and no new one is there. Prints each row that differs, then 'N passed, M failed'.
tests/each_input.py [--with NTBOOT NTMEND]"""
import os
import sys

from programs import Said, differs, fresh, judged, listing, main, said



def wanted(run, name):
    """What a run says where it cannot read a file."""
    if run.is_of_ntmend():
        return Said(f"no file {name}\n".encode(), b"", 2)
    return Said(b"", f"ntboot: can't read {name}\n".encode() if run.is_verbose() else b"", 6)


def wrong(programs, run, name):
    """What is wrong with the run where this input is a folder."""
    with fresh({file: data for file, data in run.files().items() if file != name}) as room:
        os.mkdir(os.path.join(room, name))
        before = listing(room)
        found = said(run.program(programs), run.words, room)
        return differs(found, wanted(run, name)) or ("" if listing(room) == before else "a file has changed")


def rows(programs):
    for run in programs.runs():
        if run.is_done():
            for name in run.read():
                yield f"{run.name}: {name} is a folder", wrong, programs, run, name


def check(programs):
    return judged(rows(programs))


if __name__ == "__main__":
    sys.exit(main(check))

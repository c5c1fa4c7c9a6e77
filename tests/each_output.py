#!/usr/bin/env python3
"""That a report is printed up to where its output ends, and that nothing is saved then. No file may get longer than a number of bytes, so that the file
which the report goes to ends there: after each line and a byte before it, of the longest report of each command, in text and in JSON, and a byte before
the last of each other one. The report stands there up to that byte, the exit is 7, and the files to save have the bytes that they had before. With
--short the longest reports end at every fifth of these places.

`export` and `ntmend` write their files before they print, so that those would end first. Their report goes to a device that takes nothing: nothing is
exported, and the hive of `ntmend` is as before or as it should be in the end. Prints each row that differs, then 'N passed, M failed'.
tests/each_output.py [--with NTBOOT NTMEND] [--short]"""
import subprocess
import sys
import tempfile

from programs import TIMEOUT, Said, contents, differs, fresh, judged, main

REASON = b"ntboot: can't write the report\n"


def printed(output, words, room):
    """A run whose report goes to an open file: how it ends. A limit on the size of files, where there is one, is an error of a write and no signal."""
    ran = subprocess.run(words, cwd=room, stdin=subprocess.DEVNULL, stdout=output, stderr=subprocess.PIPE, restore_signals=False, timeout=TIMEOUT)
    output.seek(0)
    return Said(output.read(), ran.stderr, ran.returncode)


def wanted(run, most):
    """What a run says where its output takes that many bytes."""
    return Said(run.wanted.out[:most], REASON if run.is_verbose() else b"", 7)


def ends_early(programs, run, most):
    """What is wrong with a run in which no file gets longer than that."""
    before = run.files()
    with fresh(before) as room, tempfile.TemporaryFile() as report:
        found = printed(report, ["prlimit", f"--fsize={most}:{most}", run.program(programs), *run.words], room)
        return differs(found, wanted(run, most)) or ("" if contents(room) == before else "a file has changed")


def takes_nothing(programs, run):
    """What is wrong with a run whose output is a full device."""
    before = run.files()
    with fresh(before) as room, open("/dev/full", "r+b", buffering=0) as full:
        ran = subprocess.run([run.program(programs), *run.words], cwd=room, stdin=subprocess.DEVNULL, stdout=full, stderr=subprocess.PIPE, timeout=TIMEOUT)
        found = Said(b"", ran.stderr, ran.returncode)
        mended = {**before, **run.after} if run.is_of_ntmend() else before
        return differs(found, wanted(run, 0)) or ("" if contents(room) in (before, mended) else "a file has changed")


def ends(text):
    """The places in a text after each of its lines and a byte before it, but for its end."""
    found, at = [0], 0
    for line in text.splitlines(keepends=True):
        at += len(line)
        found += [at - 1, at]
    return sorted({*found} - {at})


def longest(all_runs):
    """The run with the most lines of each command, in text and in JSON."""
    found = {}
    for run in all_runs:
        found.setdefault((run.words[0], "--json" in run.words), []).append(run)
    return [max(alike, key=lambda run: run.wanted.out.count(b"\n")) for alike in found.values()]


def rows(programs):
    done = [run.saving() for run in programs.runs() if run.is_done() and run.is_short()]
    late = [run for run in done if run.is_of_ntmend() or run.words[0] == "export"]
    others = [run for run in done if run not in late]
    for run in late:
        yield f"{run.name}: its output takes nothing", takes_nothing, programs, run
    for run in longest(others):
        for most in ends(run.wanted.out)[::5 if programs.short else 1]:
            yield f"{run.name}: its output takes {most} bytes", ends_early, programs, run, most
    for run in others:
        most = len(run.wanted.out) - 1
        yield f"{run.name}: its output takes all bytes but the last", ends_early, programs, run, most


def check(programs):
    return judged(rows(programs))


if __name__ == "__main__":
    sys.exit(main(check))

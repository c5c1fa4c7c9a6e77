#!/usr/bin/env python3
"""That a stop of the disk leaves the settled state or the one of the change, as docs/format.md, section 10, says which. In each of four scripts (a start
that falls back, a start that is saved, edits with flushes, a hive that its log recovers) the power is cut, in four ways, or a call fails, at the first
read, write and sync, the second one, and so on, until none comes any more. For each stop

- the report is the quiet one up to the line that the stopped call would have led to, and then reports the stop;
- the files that are saved then are shown as before the event or as after it, by the stage in which the stop came;
- the next start goes on from that state.

An event makes as many calls as the stages and the sizes of the files say, so that no stop is passed over. Then come pairs of cuts, each at a sync, the
second in the start after the first: the start after both goes on from what the first left. Prints each row that differs, then 'N passed, M failed'.
tests/each_stop.py [--with NTBOOT NTMEND] [--short]"""
import os
import sys
from typing import NamedTuple

from programs import RUNS, contents, fresh, judged, main, said

SERVICES = "CurrentControlSet\\Services\\"
KINDS = ("read", "write", "sync")
# What a cut keeps of the writes in flight; and a fault.
WAYS = ("none", "all", "odd", "torn", "fault")
# The same at a read in a short check: no write of these scripts is in flight at a read, so that each cut leaves the same.
WAYS_OF_READS = ("none", "fault")
SECTOR = 512
BLOCK = 4096
RUN = ["run", "--hive", "hive", "--log", "log", "--script", "script"]
SAVED = ["--save-hive", "x", "--save-log", "y"]
NO_HIVE = b"hive fault not-regf at 0\n"


class Case(NamedTuple):
    """The files of a folder of tests/runs, and the events of a script, a line each."""
    folder: str
    events: list


FALL_BACK = Case("fall_back_and_save", ["fail New 1", "boot", "go", "boot", "go", "logon", "off"])
SAVE = Case("cut_at_sync_1_none", ["boot", "go", "logon", "off"])
EDITS = Case("starts_one_boot_driver", [
    "boot", f"set {SERVICES}Disk Tag dword 9", "flush", f"make {SERVICES}New", f"delete {SERVICES}Disk Tag", "off"])
OPEN = Case("hive_recovered_by_its_log", ["boot", f"set {SERVICES}Disk Tag dword 9", "off"])


class Played(NamedTuple):
    """What comes of a script: its report, the two files that are saved in the end, and the hive as `show` shows it."""
    report: list
    hive: bytes
    log: bytes
    shown: bytes


class State(NamedTuple):
    """A quiet run: its report without the lines that end it, what comes of it, and the lines of a start from there."""
    lines: list
    played: Played
    start: list


def inputs(case):
    """The hive of a case, and its log where it has one."""
    files = contents(os.path.join(RUNS, case.folder))
    return {name: files.get(name, b"") for name in ("hive", "log")}


def script_of(events):
    return "".join(event + "\n" for event in events).encode()


def report_of(ntboot, files, events):
    """The report of these events on a hive and a log."""
    with fresh({**files, "script": script_of(events)}) as room:
        return said(ntboot, RUN, room).out.decode().splitlines()


def play(ntboot, files, events):
    """What comes of these events on a hive and a log."""
    with fresh({**files, "script": script_of(events)}) as room:
        ran = said(ntboot, [*RUN, *SAVED], room)
        after = contents(room)
        shown = said(ntboot, ["show", "--hive", "x", "--log", "y"], room)
        return Played(ran.out.decode().splitlines(), after.get("x", b""), after.get("y", b""), shown.out)


def last_start(report):
    """The last start of a report from its second line on. Whether the hive had to be recovered is left out: the same state may be found either way."""
    starts = [at for at, line in enumerate(report) if line.startswith("start ")]
    return [line.replace(" recovered", " clean") for line in report[starts[-1] + 1:]] if starts else []


def state_of(ntboot, case, count):
    """The quiet run of the first events of a case."""
    played = play(ntboot, inputs(case), case.events[:count])
    lines = [line for line in played.report if line not in ("verdict running", "end")]
    start = report_of(ntboot, {"hive": played.hive, "log": played.log}, ["boot"])
    return State(lines, played, last_start(start))


def order_of(kind, way, number):
    """The line of a script that orders a stop."""
    return f"fault {kind} {number}" if way == "fault" else f"cut {kind} {number} {way}"


def lines_of(states, event):
    """The lines that an event prints in the quiet run."""
    return states[event].lines[len(states[event - 1].lines):]


def has(lines, word):
    return any(word in line for line in lines)


def bins(hive):
    """The sectors of the bins data of a hive, as many as its base block says."""
    size = int.from_bytes(hive[40:44], "little")
    return [hive[at:at + SECTOR] for at in range(BLOCK, BLOCK + size, SECTOR)]


def differing(old, new):
    """How many sectors of bins data are others in the new hive."""
    return sum(before != after for before, after in zip(bins(old), bins(new)))


def logged(log):
    """How many sectors a log has of the bins data: the bits that are 1 in its second sector, after the first four bytes."""
    return sum(bin(byte).count("1") for byte in log[SECTOR + 4:2 * SECTOR])


def count_of(kind, states, event):
    """How many calls of a kind an event makes. A load reads the base block and each bins sector, from the log where that has it, and two sectors of a
    log that is needed. A recovery writes the log's sectors and sector 0, and has two syncs. A commit writes the log with a base block and a bitmap, the
    sectors that differ, and sector 0 twice, and has four syncs. None of these hives needs a further sector of the bitmap, and none grows."""
    lines, before, after = lines_of(states, event), states[event - 1].played, states[event].played
    recovers, commits = has(lines, "recovered"), has(lines, "commit ")
    if kind == "read":
        return (1 + 2 * recovers + len(bins(before.hive))) * has(lines, "load ")
    if kind == "sync":
        return 2 * recovers + 4 * commits
    return (logged(before.log) + 1) * recovers + (2 * differing(before.hive, after.hive) + 4) * commits


def is_whole(kind, way, number, count):
    """Is the change of a commit there after a stop in its call of this number, of that many? It is where sector 0 of the primary was opened before: by the
    write in the middle, of which the second sync makes sure. That write is the only one in flight then. Where its sector cannot be read, the log counts;
    after a fault the disk is turned off, and keeps it."""
    if kind == "write":
        return number > count // 2 + 1
    return kind == "sync" and (number > 2 or number == 2 and way != "none")


def front_of(states, event, kind):
    """What is printed up to a stop in an event: all before the line of the load or the commit that was stopped."""
    lines = lines_of(states, event)
    word = "load " if kind == "read" or has(lines, "recovered") else "commit "
    told = next(at for at, line in enumerate(lines) if line.startswith(word))
    return states[event - 1].lines + lines[:told]


def may_be_no_hive(way, played):
    """Can sector 0 of the hive not be read, since the power was cut so? In the saved file it has zeros."""
    return way == "torn" and played.hive[:SECTOR] == bytes(SECTOR) and played.shown == NO_HIVE


def wrong_stop(ntboot, case, states, event, kind, way, order, number):
    """What is wrong with a stop in an event, at its call of this number."""
    events = [order, *case.events[:event]]
    played = play(ntboot, inputs(case), events)
    verdict = "verdict device" if way == "fault" else "verdict cut"
    if played.report != front_of(states, event, kind) + [verdict, "end"]:
        return f"said {played.report}"
    state = states[event if is_whole(kind, way, number, count_of(kind, states, event)) else event - 1]
    if played.shown != state.played.shown and not may_be_no_hive(way, played):
        return f"left {played.shown!r}"
    start = last_start(report_of(ntboot, inputs(case), [*events, "boot"]))
    return "" if start == state.start else f"the next start said {start}"


def wrong_stops(ntboot, case, states, kind, way):
    """What is wrong with the stops of one kind and way in a case: one at each call of each event, and one after them all, which does not come."""
    number = 0
    for event in range(1, len(states)):
        for at in range(count_of(kind, states, event)):
            number += 1
            order = order_of(kind, way, number)
            wrong = wrong_stop(ntboot, case, states, event, kind, way, order, at + 1)
            if wrong:
                return f"{order}: {wrong}"
    order = order_of(kind, way, number + 1)
    played = play(ntboot, inputs(case), [order, *case.events])
    return "" if number and played == states[-1].played else f"{order}: it comes, after {number} calls"


def is_open(way, number):
    """Does the hive need its log after a cut at this sync of a commit? Not where nothing of the second or all of the fourth was kept."""
    return (number, way) in ((2, "all"), (2, "odd"), (2, "torn"), (4, "none"), (4, "torn")) or number == 3


def wrong_pair(ntboot, states, way, first, second):
    """What is wrong with two cuts: one in the save of a start, and one in the start after it, at these syncs."""
    events = [*SAVE.events[:2], order_of("sync", way, first), "logon", order_of("sync", way, second), "boot", "off", "boot"]
    report = report_of(ntboot, inputs(SAVE), events)
    cuts = 2 if is_open(way, first) and second <= 2 else 1
    state = states[3 if is_whole("sync", way, first, 4) else 2]
    if report.count("verdict cut") != cuts or last_start(report) != state.start:
        return f"said {report}"
    return ""


def check(programs):
    ntboot = programs.ntboot
    rows = []
    for case in (FALL_BACK, SAVE, EDITS, OPEN):
        states = [state_of(ntboot, case, count) for count in range(len(case.events) + 1)]
        for kind in KINDS:
            ways = WAYS_OF_READS if programs.short and kind == "read" else WAYS
            rows += [(f"{case.folder}, {kind} {way}", wrong_stops, ntboot, case, states, kind, way) for way in ways]
        if case is SAVE:
            rows += [(f"cuts at syncs {first} and {second}, {way}", wrong_pair, ntboot, states, way, first, second)
                     for way in WAYS[:4] for first in range(1, 5) for second in range(1, 4)]
    return judged(rows)


if __name__ == "__main__":
    sys.exit(main(check))

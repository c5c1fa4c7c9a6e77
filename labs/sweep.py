#!/usr/bin/env python3
"""Cuts one event of a script at each of its writes and syncs, in four ways, and prints what the disk then holds: the change is not there
(`before`), it is there (`after`), or `neither`.

    labs/sweep.py --hive F --script F            the script has a line `sweep` before that event
    labs/sweep.py --hive F --script F --loads    whether the next load finds a clean hive, or recovers it by its log

Each word is one run of ntboot: the script up to the event with a line `cut KIND N KEEP` before it, and then `boot` and `go`. What the next start prints
is compared with what it prints where the event was not begun, and where it was done. The hive has to be clean, so that the event makes one commit.
--most N is more than the number of its writes."""
import argparse
import os
import sys
import tempfile

LABS = os.path.dirname(os.path.abspath(__file__))
sys.path.insert(0, LABS)
import program

KEEPS = ("none", "all", "odd", "torn")
NEXT = ["boot", "go"]


def parted(script):
    """The lines before the line `sweep`, and the event after it."""
    lines = [line.strip() for line in script.splitlines()]
    if "sweep" not in lines:
        raise SystemExit("the script has no line `sweep`")
    at = lines.index("sweep")
    after = [line for line in lines[at + 1:] if line and not line.startswith("#")]
    if not after:
        raise SystemExit("no event follows the line `sweep`")
    return lines[:at], after[0]


def last_start(report):
    """What the last start of a report prints from its load on, but for how the hive was found; and how it was found."""
    lines = report.splitlines()
    begin = max((i for i, line in enumerate(lines) if line.startswith("start ")), default=0)
    lines = lines[begin + 2:]
    found = lines[0].split(" ")[2] if lines and lines[0].startswith("load ") else " ".join(lines[:1])
    return [lines[0].rsplit(" ", 1)[0], *lines[1:]] if lines else [], found


class Runs:
    """Runs of one event, cut or not."""

    def __init__(self, hive, lines, event, room):
        self.hive, self.lines, self.event, self.room = hive, lines, event, room
        self.scripts = 0

    def call(self, lines, *more):
        """The words of a run of these lines."""
        self.scripts += 1
        path = os.path.join(self.room, f"script{self.scripts}")
        with open(path, "w") as f:
            f.write("".join(line + "\n" for line in lines))
        return ["run", "--hive", self.hive, "--script", path, *more]

    def cut(self, kind, number, keep):
        return self.call([*self.lines, f"cut {kind} {number} {keep}", self.event, *NEXT])

    def not_begun(self):
        return self.call([*self.lines, "cut now none", *NEXT])

    def done(self):
        return self.call([*self.lines, self.event, "cut now none", *NEXT], "--save-log", os.path.join(self.room, "log"))


def places(log):
    """The sectors of the hive that a commit changed, by the bits of its log, and how many sectors the bits take."""
    size = int.from_bytes(log[40:44], "little") // 512
    bits = int.from_bytes(log[516:516 + (size + 7) // 8], "little")
    return [8 + i for i in range(size) if bits >> i & 1], (4 + (size + 7) // 8 + 511) // 512


def stages(log):
    """The calls of a commit: for each stage its name, the sectors that it writes, and its one sync."""
    changed, bitmap = places(log)
    return [
        ("log", [("log", i) for i in range(1 + bitmap + len(changed))]),
        ("open", [("hive", 0)]),
        ("sectors", [("hive", i) for i in changed]),
        ("close", [("hive", 0)]),
    ]


def words_of(report, first, second):
    """What the next start of a cut run finds: whether the change is there, and how the hive was found; or none where nothing was cut."""
    if "verdict cut" not in report.splitlines():
        return None
    shown, found = last_start(report)
    return "before" if shown == first else "after" if shown == second else "neither", found


def printed(event, log, commit, words, loads):
    """The lines of the sweep, or of what is loaded."""
    yield f"{'loads' if loads else 'sweep'} {event.split(' ')[0]}"
    yield from commit
    yield "keeps " + " ".join(KEEPS)
    said, writes, syncs = [], 0, 0
    for name, sectors in stages(log):
        yield f"stage {name}"
        for file, sector in sectors:
            writes += 1
            said.append([words["write", writes, keep][loads] for keep in KEEPS])
            yield f"write {writes} {file} {sector} " + " ".join(said[-1])
        syncs += 1
        said.append([words["sync", syncs, keep][loads] for keep in KEEPS])
        yield f"sync {syncs} " + " ".join(said[-1])
    if not loads:
        counts = [sum(row.count(word) for row in said) for word in ("before", "after", "neither")]
        yield "calls {} before {} after {} neither {}".format(len(said), *counts)
    yield "end"


def swept(hive, script, most):
    """The lines of the sweep of a script, and those of what is loaded. All runs are asked for at once, so with more numbers than there are calls."""
    lines, event = parted(script)
    with tempfile.TemporaryDirectory() as room:
        runs = Runs(os.path.abspath(hive), lines, event, room)
        keys = [(kind, n, keep) for kind, last in (("write", most), ("sync", 5)) for n in range(1, last + 1) for keep in KEEPS]
        (before, _), (after, _), *cut = program.answers([runs.not_begun(), runs.done(), *(runs.cut(*key) for key in keys)])
        with open(os.path.join(room, "log"), "rb") as f:
            log = f.read()
    if not log:
        raise SystemExit("the event commits nothing")
    first, second = last_start(before)[0], last_start(after)[0]
    words = {key: words_of(report, first, second) for key, (report, _) in zip(keys, cut)}
    writes = sum(len(sectors) for _, sectors in stages(log))
    if writes >= most:
        raise SystemExit(f"the event makes {writes} writes: --most {writes + 1}")
    if any((words[key] is None) != (key[1] > (writes if key[0] == "write" else 4)) for key in keys):
        raise SystemExit("the event makes other calls than those of one commit")
    commit = [line for line in after.splitlines() if line.startswith("commit ")][-1:]
    return [list(printed(event, log, commit, words, loads)) for loads in (False, True)]


def main():
    parser = argparse.ArgumentParser(description=__doc__, formatter_class=argparse.RawDescriptionHelpFormatter)
    parser.add_argument("--hive", required=True)
    parser.add_argument("--script", required=True)
    parser.add_argument("--loads", action="store_true")
    parser.add_argument("--most", type=int, default=20)
    asked = parser.parse_args()
    with open(asked.script) as f:
        script = f.read()
    print("\n".join(swept(asked.hive, script, asked.most)[asked.loads]))


if __name__ == "__main__":
    main()

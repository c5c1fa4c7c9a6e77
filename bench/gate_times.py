#!/usr/bin/env python3
"""Times `rt ci`, crate by crate: prints the table of docs/gate.md.

    bench/gate_times.py [--watch PID]

Runs `rt ci --anew` at the top of the repository, or watches one that runs, and adds up the CPU time of each prover below it: of a crate's own proofs, of
those of its tests, and of its must-fail edits (which are checked in copies elsewhere). A prover that ends within a second of its start may be missed.
"""
import os
import re
import subprocess
import sys
import time

ROOT = os.path.dirname(os.path.dirname(os.path.abspath(__file__)))
KINDS = ("proofs", "tests", "edits")
TICKS = os.sysconf("SC_CLK_TCK")
# crates that took fewer minutes than this are summed up in one row
LEAST = 2.5


def text_of(path):
    try:
        with open(path, "rb") as file:
            return file.read().decode(errors="replace")
    except OSError:
        return ""


def parents():
    """The parent of each process."""
    found = {}
    for name in os.listdir("/proc"):
        if name.isdigit():
            fields = text_of(f"/proc/{name}/stat").rpartition(")")[2].split()
            if fields:
                found[int(name)] = int(fields[1])
    return found


def below(top):
    """The processes that a process started, at any distance."""
    above = parents()
    found = {top}
    while True:
        more = {pid for pid, parent in above.items() if parent in found} - found
        if not more:
            return found
        found |= more


def kind_of(pid, words):
    """Whose prover it is, and what it proves; or None."""
    if not words or os.path.basename(words[0]) != "rattle" or "--crate-name" not in words:
        return None
    crate = words[words.index("--crate-name") + 1]
    try:
        place = os.readlink(f"/proc/{pid}/cwd")
    except OSError:
        return None
    if not re.search(rf"/crates/{crate}$", place) or "rt-edit" in place:
        return crate, "edits"
    return crate, "tests" if "--test" in words else "proofs"


def cpu_of(pid):
    fields = text_of(f"/proc/{pid}/stat").rpartition(")")[2].split()
    return (int(fields[11]) + int(fields[12])) / TICKS if len(fields) > 12 else 0.0


def watch(top, spent):
    for pid in below(top):
        kind = kind_of(pid, text_of(f"/proc/{pid}/cmdline").split("\0"))
        if kind:
            spent[pid, *kind] = max(spent.get((pid, *kind), 0.0), cpu_of(pid))


def minutes(number):
    return "" if not number else f"{number:.1f}" if number < 0.95 else f"{number:.0f}"


def table(spent):
    sums = {}
    for (_, crate, kind), seconds in spent.items():
        sums.setdefault(crate, dict.fromkeys(KINDS, 0.0))[kind] += seconds / 60
    rows = sorted(sums.items(), key=lambda it: -sum(it[1].values()))
    yield "| Crate | Proofs | Tests | Edits |"
    yield "|---|---|---|---|"
    few = [it for it in rows if sum(it[1].values()) < LEAST]
    for crate, it in rows[: len(rows) - len(few)]:
        yield f"| {crate} | {' | '.join(minutes(it[kind]) for kind in KINDS)} |"
    yield f"| {len(few)} others | {' | '.join(minutes(sum(it[kind] for _, it in few)) for kind in KINDS)} |"
    whole = [sum(it[kind] for it in sums.values()) for kind in KINDS]
    yield f"| all | {' | '.join(minutes(it) for it in whole)} |"
    yield ""
    yield f"Altogether {sum(whole):.0f} CPU minutes."


def main(words):
    if words[:1] == ["--watch"] and len(words) == 2:
        run, top = None, int(words[1])
    elif not words:
        run = subprocess.Popen(["rt", "ci", "--anew"], cwd=ROOT, stdout=subprocess.DEVNULL)
        top = run.pid
    else:
        sys.exit(__doc__)
    spent = {}
    while run.poll() is None if run else os.path.exists(f"/proc/{top}"):
        watch(top, spent)
        time.sleep(1)
    print("\n".join(table(spent)))


if __name__ == "__main__":
    main(sys.argv[1:])

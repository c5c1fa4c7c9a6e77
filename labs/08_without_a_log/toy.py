#!/usr/bin/env python3
"""A writer without a log: it puts the sectors of a change into the hive one after another, and the power goes when some of them are written.

    toy.py BEFORE AFTER              what the machine finds when the power went after 0, 1, 2 .. sectors
    toy.py BEFORE AFTER --make K OUT  writes the hive after K sectors

BEFORE and AFTER are the hive before and after a change, the second as `ntboot run --save-hive` wrote it. With --last the base block, sector 0, is
written last in place of first."""
import argparse
import os
import sys
import tempfile

HERE = os.path.dirname(os.path.abspath(__file__))
sys.path.insert(0, os.path.join(HERE, ".."))
import program


def sectors(data):
    return [data[at:at + 512] for at in range(0, len(data), 512)]


def order_of(before, after, base_last):
    """The numbers of the sectors that the change touches, in the order in which they are written."""
    old, new = sectors(before), sectors(after)
    changed = [i for i, sector in enumerate(new) if i >= len(old) or sector != old[i]]
    return changed[1:] + changed[:1] if base_last else changed


def written(before, after, numbers):
    """The hive in which these sectors are new, and all others are old."""
    out, new = sectors(before), sectors(after)
    out += [bytes(512)] * (len(new) - len(out))
    for i in numbers:
        out[i] = new[i]
    return b"".join(out)


def found(report):
    """What a start finds: its lines without the sequence number, or the fault."""
    lines = report.splitlines()
    return lines if len(lines) == 1 else [line for line in lines if not line.startswith("load ")]


def table(before, after, order):
    """A line for each number of sectors that are written."""
    with tempfile.TemporaryDirectory() as room:
        calls = []
        for count in range(len(order) + 1):
            path = os.path.join(room, f"hive{count}")
            with open(path, "wb") as f:
                f.write(written(before, after, order[:count]))
            calls.append(["run", "--hive", path, "--script", os.path.join(HERE, "boot.txt")])
        starts = [found(report) for report, _ in program.answers(calls)]
    for count, start in enumerate(starts):
        word = "before" if start == starts[0] else "after" if start == starts[-1] else start[0] if len(start) == 1 else "neither"
        last = f"sector {order[count - 1]}" if count else "nothing"
        yield f"written {count} of {len(order)}, last {last}: {word}"


def main():
    parser = argparse.ArgumentParser(description=__doc__, formatter_class=argparse.RawDescriptionHelpFormatter)
    parser.add_argument("before")
    parser.add_argument("after")
    parser.add_argument("--last", action="store_true")
    parser.add_argument("--make", nargs=2, metavar=("K", "OUT"))
    asked = parser.parse_args()
    before, after = (open(name, "rb").read() for name in (asked.before, asked.after))
    order = order_of(before, after, asked.last)
    if asked.make:
        with open(asked.make[1], "wb") as f:
            f.write(written(before, after, order[:int(asked.make[0])]))
    else:
        print("\n".join(table(before, after, order)))


if __name__ == "__main__":
    main()

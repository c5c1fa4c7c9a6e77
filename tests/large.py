#!/usr/bin/env python3
"""Large hives that an import changes: tests/large.py [--with NTBOOT NTMEND]. Lists of 1 to 1,001 children with one more and one less, many values at once,
and hives of almost 16 MiB which are repacked for lack of room, or full. What is saved is what hive_edits.py works out, and bench/hive_rules.py finds
nothing wrong in it."""
import bisect
import functools
import sys

from hive_edits import Edited, Key, data_cells, key_cells, numbers, packed
from programs import Said, differs, fresh, judged, main, read, said
import hive_rules

HEADER = "Windows Registry Editor Version 5.00\n"
ROOT = "HKEY_LOCAL_MACHINE\\SYSTEM"
COUNTS = (1, 2, 499, 500, 501, 999, 1000, 1001)
# What the bulk of a tree may be, and how many bytes a value may have.
MOST = 16773120
LONGEST = 1048576


def import_of(programs, hive, lines, line, wanted):
    """An import of these lines: wrong where another line is printed, or another hive is saved."""
    with fresh({"h": hive, "r": (HEADER + lines).encode()}) as room:
        found = said(programs.ntboot, ["import", "--hive", "h", "--reg", "r", "--encoding", "utf-8", "--save-hive", "x"], room)
        wrong = differs(found, Said(line.encode() + b"\n", b"", 0))
        if wrong:
            return wrong
        saved = read(room, "x")
    if saved != wanted:
        at = next((at for at, (one, other) in enumerate(zip(saved, wanted)) if one != other), min(len(saved), len(wanted)))
        return f"{len(saved)} bytes are saved, wanted {len(wanted)}; they differ from byte {at} on"
    return "; ".join(f"{kind} at {path}" for kind, path in hive_rules.judged(saved).found)


# ---- lists of children


def children(minor, count):
    """A root with that many children, whose names are far apart."""
    return packed(Key("ROOT", [], [Key(f"K{i:05}") for i in range(0, 10 * count, 10)]), minor=minor)


def not_full(hive, count):
    """What is wrong where the root's lists don't have 500 children each, and the last one the rest."""
    lists = [at for at in hive.list_cells(hive.root) if hive.bins[at + 4:at + 6] != b"ri"]
    lengths = [int.from_bytes(hive.bins[at + 6:at + 8], "little") for at in lists]
    return "" if lengths == [min(500, count - i) for i in range(0, count, 500)] else f"lists of {lengths} children"


def one_more(programs, minor, count, name):
    """A child more, in its place by name."""
    before = children(minor, count)
    hive = Edited(before)
    hive.add_key("", Key(name))
    return import_of(programs, before, f"[{ROOT}\\{name}]\n", "commit import 6", hive.file(6)) or not_full(hive, count + 1)


def one_less(programs, minor, count, name):
    """A child less; of an only child no list is left."""
    before = children(minor, count)
    hive = Edited(before)
    hive.delete_key(name)
    return import_of(programs, before, f"[-{ROOT}\\{name}]\n", "commit import 6", hive.file(6)) or not_full(hive, count - 1)


def list_rows(programs):
    for minor in (3, 5):
        for count in COUNTS:
            middle, last = 10 * (count // 2), 10 * count
            for name in ("A", f"K{middle:05}a", f"K{last:05}"):
                yield f"version 1.{minor}, {count} children and {name}", one_more, programs, minor, count, name
            for name in sorted({"K00000", f"k{middle:05}", f"K{last - 10:05}"}, key=str.upper):
                yield f"version 1.{minor}, {count} children without {name}", one_less, programs, minor, count, name


# ---- hives of almost 16 MiB


def bulk(minor, tree):
    return 32 + len(key_cells(minor, tree, 32))


def text_of(size):
    """A value's text of that many bytes with its zero, and the same as data."""
    text = "x" * (size // 2 - 1)
    return text, (text + "\0").encode("utf-16-le")


def big_values():
    """Sixteen values, among them two that make holes when they are deleted."""
    values = [(f"V{i}", 3, bytes([i]) * 1040000) for i in range(15)]
    return values[:5] + [("A", 3, b"a" * 50000)] + values[5:10] + [("B", 3, b"b" * 50000)] + values[10:] + [("C", 3, b"c" * 1000000)]


@functools.cache
def with_holes(minor):
    """A hive of almost 16 MiB in which no cell is free that holds 80,000 bytes, and its tree."""
    tree = Key("ROOT", big_values())
    hive = Edited(packed(tree, minor=minor))
    for name in "AB":
        hive.delete_value("", name)
    return hive.file(5), Key("ROOT", [value for value in tree.values if value[0] not in "AB"])


def packed_anew(programs, minor, more, size):
    """New values that find no room: the tree with them is packed. The sectors behind it stay."""
    before, tree = with_holes(minor)
    text, data = text_of(size)
    wanted = packed(Key("ROOT", tree.values + [("M", 4, numbers(1))] * more + [("N", 1, data)]), 6, minor)
    lines = f"[{ROOT}]\n" + '"M"=dword:00000001\n' * more + f'"N"="{text}"\n'
    return import_of(programs, before, lines, "commit import 6", wanted + before[len(wanted):])


def full(programs, minor, more, size):
    """New values by which the tree is too large: nothing changes."""
    before, _ = with_holes(minor)
    lines = f"[{ROOT}]\n" + '"M"=dword:00000001\n' * more + f'"N"="{text_of(size)[0]}"\n'
    return import_of(programs, before, lines, "import refused full", before)


def most_that_fits(minor, more):
    """How long the text of a new value may be, so that the bulk is the greatest there is."""
    _, tree = with_holes(minor)
    left = MOST - bulk(minor, Key("ROOT", tree.values + [("M", 4, numbers(1))] * more + [("N", 1, b"")]))
    return 2 * bisect.bisect(range(LONGEST // 2), left, key=lambda half: len(data_cells(minor, bytes(2 * half), 0))) - 2


def many_steps(programs, minor):
    """Steps of which more than 4,096 set a value are made on the tree, which is packed."""
    gone = Key("Gone", [("Old", 4, numbers(1))], [Key("Below")])
    before = packed(Key("ROOT", [], [Key("A", [("Old", 4, numbers(1)), ("Stays", 4, numbers(1))], [Key("B"), gone])]), minor=minor)
    lines = f'[{ROOT}\\A]\n"Old"=-\n"stays"=dword:00000007\n[-{ROOT}\\A\\Gone]\n[{ROOT}\\A\\B]\n'
    lines += "".join(f'"V{i}"=dword:{i:08x}\n' for i in range(4096))
    values = [(f"V{i}", 4, numbers(i)) for i in range(4096)]
    wanted = packed(Key("ROOT", [], [Key("A", [("Stays", 4, numbers(7))], [Key("B", values)])]), 6, minor)
    return import_of(programs, before, lines, "commit import 6", wanted)


def room_rows(programs):
    for minor in (3, 5):
        yield f"version 1.{minor}, 4,097 values set", many_steps, programs, minor
        for more in (0, 1):
            most = most_that_fits(minor, more)
            yield f"version 1.{minor}, repacked with {1 + more} values", packed_anew, programs, minor, more, 80000
            yield f"version 1.{minor}, the greatest bulk with {1 + more} values", packed_anew, programs, minor, more, most
            yield f"version 1.{minor}, {1 + more} values of two bytes more", full, programs, minor, more, most + 2


def most_services(programs):
    """The greatest number that `make` takes: all services start, and the guard and the save are two commits."""
    with fresh({}) as room:
        return differs(said(programs.ntboot, ["make", "10000"], room), Said(b"made 10000 started 10000 failed 0 unmet 0 verdict good sequence 3\n", b"", 0))


def check(programs):
    return judged([*list_rows(programs), *room_rows(programs), ("10,000 services", most_services, programs)])


if __name__ == "__main__":
    sys.exit(main(check))

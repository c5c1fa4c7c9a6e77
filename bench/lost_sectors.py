#!/usr/bin/env python3
"""Loses sectors of a hive, one at a time, and tries `salvage` on the rest: bench/lost_sectors.py PROGRAM [COUNT]. The hive is one that `make 2000` saves. Each time
one sector of its bins is zeros, or noise, at COUNT places (1,000) spread over the file; and of a small hive each byte is turned. Each key and
value of the hive that has no byte in the lost sector, nor has a key above it or a list that leads to it, must be salvaged at its path with its data; and there may
be no more others than parts of the hive that were hit: what is lost is what stood there. With `--by-parent` nothing may be missing that is there without it."""
import json
import os
import random
import struct
import subprocess
import sys
import tempfile

SMALL = os.path.join(os.path.dirname(os.path.abspath(__file__)), "..", "tests", "runs", "starts_one_boot_driver", "hive")


def cells_of(hive):
    """Of each key and value of a sound hive: what it is, and the ranges of bytes of the cells that it and the way to it have."""
    def cell(at):
        return 4096 + at, 4096 + at - struct.unpack_from("<i", hive, 4096 + at)[0]

    def entries(at):
        begin, _ = cell(at)
        sign, count = hive[begin + 4 : begin + 6], struct.unpack_from("<H", hive, begin + 6)[0]
        step = 8 if sign in (b"lf", b"lh") else 4
        places = [struct.unpack_from("<I", hive, begin + 8 + step * i)[0] for i in range(count)]
        if sign != b"ri":
            return [(it, [cell(at)]) for it in places]
        return [(it, [cell(at), *way]) for list_at in places for it, way in entries(list_at)]

    def text(begin, size, is_narrow):
        raw = hive[begin : begin + size]
        return raw.decode("latin-1") if is_narrow else raw.decode("utf-16-le", "surrogatepass")

    found = []

    def walk(at, path, way):
        begin, _ = cell(at)
        way = [*way, cell(at)]
        flags, = struct.unpack_from("<H", hive, begin + 6)
        subkeys, = struct.unpack_from("<I", hive, begin + 24)
        children, = struct.unpack_from("<I", hive, begin + 32)
        values, value_list = struct.unpack_from("<II", hive, begin + 40)
        name = text(begin + 80, struct.unpack_from("<H", hive, begin + 76)[0], flags & 32)
        path = [*path, name] if way[1:] else []
        found.append((("key", tuple(path)), way))
        for i in range(values):
            list_begin, _ = cell(value_list)
            value, = struct.unpack_from("<I", hive, list_begin + 4 + 4 * i)
            v, _ = cell(value)
            name_size, size, data, kind, narrow = struct.unpack_from("<HIIIH", hive, v + 6)
            cells = [*way, cell(value_list), cell(value)]
            if size & 0x80000000 == 0 and size:
                cells.append(cell(data))
                raw = hive[4096 + data + 4 : 4096 + data + 4 + size]
            else:
                raw = hive[v + 12 : v + 12 + (size & 0x7FFFFFFF)]
            found.append((("value", tuple(path), text(v + 24, name_size, narrow & 1), kind, raw.hex()), cells))
        if subkeys:
            for child, lists in entries(children):
                walk(child, path, [*way, *lists])

    walk(struct.unpack_from("<I", hive, 36)[0], [], [])
    return found


def shown(program, room, name):
    """The keys and values that `show` prints of a hive, with their paths, or None where it doesn't load."""
    ran = subprocess.run([program, "show", "--hive", name, "--json"], cwd=room, stdout=subprocess.PIPE)
    if ran.returncode:
        return None
    path, found = [], set()
    for line in ran.stdout.splitlines():
        it = json.loads(line)
        if it["line"] == "key":
            path = [*path[: it["level"]], it["name"]]
            found.add(("key", tuple(path[1:])))
        elif it["line"] == "value":
            found.add(("value", tuple(path[1 : it["level"] + 1]), it["name"], it["type"], it["data"]))
    return found


def wrong(program, room, hive, parts, lost):
    """What is wrong with what is salvaged of a hive that lost the bytes of this range, if anything."""
    with open(os.path.join(room, "hive"), "wb") as f:
        f.write(hive)
    kept = []
    for more in ([], ["--by-parent"]):
        ran = subprocess.run([program, "salvage", "--hive", "hive", "--save-hive", "saved", *more], cwd=room, stdout=subprocess.PIPE, timeout=60)
        if ran.returncode not in (0, 8) or not ran.stdout.endswith(b"\nend\n"):
            return f"exit {ran.returncode}"
        if b"save refused" in ran.stdout or b"root file" in ran.stdout:
            return None
        kept.append(shown(program, room, "saved"))
    if None in kept:
        return "what was saved does not load"
    whole = {part for part, _ in parts}
    good = {part for part, way in parts if all(end <= lost[0] or lost[1] <= begin for begin, end in way)}
    # Data, names and types are read as they now are: so what differs is at most what was hit.
    if len(kept[0] - whole) > len(whole - good):
        return f"something that was not there: {sorted(map(str, kept[0] - whole))[:2]}"
    if good - kept[0]:
        return f"something good is missing: {sorted(map(str, good - kept[0]))[:2]}"
    if kept[0] - kept[1]:
        return f"missing by parent: {sorted(map(str, kept[0] - kept[1]))[:2]}"
    return None


def main(words):
    program, count = os.path.abspath(words[0]), int(words[1]) if len(words) > 1 else 1000
    tried, failed = 0, 0
    with tempfile.TemporaryDirectory() as room:
        subprocess.run([program, "make", "2000", "--save-hive", "made"], cwd=room, stdout=subprocess.DEVNULL, check=True)
        with open(os.path.join(room, "made"), "rb") as f:
            large = f.read()
        with open(SMALL, "rb") as f:
            small = f.read()
        cases = []
        parts = cells_of(large)
        sectors = range(8, len(large) // 512)
        for i in range(count):
            at = 512 * sectors[i * len(sectors) // count]
            noise = random.Random(i).randbytes(512) if i % 2 else bytes(512)
            cases.append((f"sector at {at}", large[:at] + noise + large[at + 512 :], parts, (at, at + 512)))
        few = cells_of(small)
        cases += [(f"byte {at}", small[:at] + bytes([small[at] ^ 255]) + small[at + 1 :], few, (at, at + 1)) for at in range(4096, len(small))]
        for name, hive, of, lost in cases:
            why = wrong(program, room, hive, of, lost)
            tried, failed = tried + 1, failed + (why is not None)
            if why:
                print(f"{name}: {why}")
    print(f"{tried} hives, {failed} wrong")
    return 1 if failed else 0


if __name__ == "__main__":
    sys.exit(main(sys.argv[1:]))

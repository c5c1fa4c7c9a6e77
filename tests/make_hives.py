#!/usr/bin/env python3
"""Writes again the hives of the runs and examples that are listed at its end, and those that must be there after a run: tests/make_hives.py. The others
were written by hand. What a run must leave is worked out here from the rules, step by step (hive_edits.py)."""
import os
import struct
import sys

TOP = os.path.join(os.path.dirname(os.path.abspath(__file__)), "..")
RUNS = os.path.join(TOP, "tests", "runs")
sys.path.insert(0, os.path.join(TOP, "bench"))
import hives

from hive_edits import Edited, Key, numbers, packed

JUNK = b"nk\x20\x00hbinregf\xff\xff\xff\xfflh\x02\x00vk\x05\x00DIRT\xf8\xff\xff\xff"
BOOT, SYSTEM, AUTOMATIC, DISABLED = 0, 1, 2, 4


def junk(size):
    """That many bytes that look like parts of a hive."""
    return (JUNK * (size // len(JUNK) + 1))[:size]


class Bins:
    """Bins of as few pages as a cell needs, filled cell by cell. All that nothing reads is junk."""

    def __init__(self):
        self.data = bytearray()
        self.left = 0
        self.puts = 0

    def free(self, size):
        self.data += struct.pack("<i", size) + junk(size - 4)
        self.left -= size

    def put(self, payload):
        """Puts a cell with this payload, and after every fifth one a free cell. The answer is where it stands."""
        size = (4 + len(payload) + 7) // 8 * 8
        if size > self.left:
            if self.left:
                self.free(self.left)
            self.left = (32 + size + 4095) // 4096 * 4096
            self.data += b"hbin" + struct.pack("<II", len(self.data), self.left) + junk(20)
            self.left -= 32
        at = len(self.data)
        self.data += struct.pack("<i", -size) + payload + junk(size - 4 - len(payload))
        self.left -= size
        self.puts += 1
        if self.puts % 5 == 0 and self.left >= 24:
            self.free(24)
        return at

    def put_values(self, values):
        """Puts values, whose data are in place, and their list."""
        if not values:
            return hives.NONE
        places = [self.put(b"vk" + struct.pack("<HIIIHH", len(name), 0x80000000 + len(data), *struct.unpack("<I", data), kind, 1, 0) + name)
                  for name, kind, data in values]
        return self.put(struct.pack(f"<{len(places)}I", *places))

    def put_children(self, children):
        """Puts children and their lists of up to 1,013 entries, with a list of these where there is more than one."""
        if not children:
            return hives.NONE
        entries = [struct.pack("<I", self.put_key(*child)) + junk(4 + i % 7)[-4:] for i, child in enumerate(children)]
        parts = [entries[i:i + 1013] for i in range(0, len(entries), 1013)]
        lists = [self.put(b"lh" + struct.pack("<H", len(part)) + b"".join(part)) for part in parts]
        return lists[0] if len(lists) == 1 else self.put(b"ri" + struct.pack(f"<H{len(lists)}I", len(lists), *lists))

    def put_key(self, name, values, children):
        """Puts a key after all below it."""
        payload = bytearray(hives.node(name, len(children), self.put_children(children), len(values), self.put_values(values)))
        for at, size in ((12, 8), (24, 4), (32, 4), (52, 20)):
            payload[at:at + size] = junk(size)
        return self.put(bytes(payload))

    def file(self, root):
        if self.left:
            self.free(self.left)
        return hives.base_block(len(self.data), root, minor=5) + bytes(self.data)


def entry(name, start, kind=1, control=1, group=None, tag=None, services=(), groups=()):
    """A driver, or with the kind 32 a service."""
    values = [hives.dword(b"Start", start), hives.dword(b"Type", kind), hives.dword(b"ErrorControl", control)]
    if group:
        values.append((b"Group", 1, f"{group}\0".encode("utf-16-le")))
    if tag:
        values.append(hives.dword(b"Tag", tag))
    if services:
        values.append(hives.strings(b"DependOnService", services))
    if groups:
        values.append(hives.strings(b"DependOnGroup", groups))
    return (name.encode(), values, [])


def lists_of_lists():
    """2,033 keys below Services, in three lists below a list of lists; the first and last of each list are drivers or services."""
    starts = {0: BOOT, 1012: BOOT, 1013: BOOT, 2025: SYSTEM, 2026: AUTOMATIC, 2032: AUTOMATIC}
    services = [(b"S%04d" % i, [hives.dword(b"Start", starts[i]), hives.dword(b"Type", 1)] if i in starts else [], []) for i in range(2033)]
    bins = Bins()
    return bins.file(bins.put_key(b"SYSTEM", [], [(b"ControlSet001", [], [(b"Services", [], services)]), hives.select(1, 1, 0, 0)]))


def one_set(services, groups=(), tags=None):
    """A machine that was never logged on to."""
    return hives.machine([hives.control_set(b"ControlSet001", services, groups, tags or {})], (1, 1, 0, 0))


def groups_and_tags():
    return one_set([
        entry("Aic78xx", BOOT, group="SCSI miniport", tag=2),
        entry("Atapi", BOOT, group="SCSI miniport", tag=3),
        entry("Beep", BOOT),
        entry("Browser", AUTOMATIC, kind=32, group="NetworkProvider", tag=1),
        entry("Cpqarray", BOOT, group="SCSI miniport"),
        entry("Dac960nt", BOOT, group="SCSI miniport", tag=1),
        entry("Extra", BOOT, group="Nobody's"),
        entry("Pci", BOOT, group="Boot Bus Extender"),
        entry("Workstation", AUTOMATIC, kind=32, group="NetworkProvider", tag=2),
    ], ["Boot Bus Extender", "SCSI miniport", "NetworkProvider"], {"SCSI miniport": [3, 1, 2], "NetworkProvider": [2, 1]})


def unmet_dependencies():
    return one_set([
        entry("Audio", AUTOMATIC, kind=32, services=["Mixer"]),
        entry("Backup", AUTOMATIC, kind=32, groups=["Tape"]),
        entry("Dhcp", AUTOMATIC, kind=32, services=["Tcpip"]),
        entry("Eventlog", AUTOMATIC, kind=32),
        entry("Mixer", AUTOMATIC, kind=32, services=["Audio"]),
        entry("Nic", SYSTEM, group="NDIS"),
        entry("Tcpip", AUTOMATIC, groups=["NDIS"]),
    ], ["NDIS", "Tape"])


def disabled_driver():
    return one_set([
        entry("Disk", BOOT, control=3),
        entry("Eventlog", AUTOMATIC, kind=32),
        entry("Ntfs", BOOT, control=3, services=["Disk"]),
    ])


def spooler(start):
    return one_set([entry("Disk", BOOT), entry("Spooler", start, kind=32)])


def changed_sectors():
    """The sectors of the bins in which the hive with the spooler on differs from the one with it off, and what they become."""
    before, after = (spooler(start)[4096:] for start in (DISABLED, AUTOMATIC))
    return [(at, after[at:at + 512]) for at in range(0, len(after), 512) if after[at:at + 512] != before[at:at + 512]]


def dirty_hive():
    """The hive with the spooler off, the power lost while the changed sectors were written: they are junk."""
    bins = bytearray(spooler(DISABLED)[4096:])
    for at, _ in changed_sectors():
        bins[at:at + 512] = junk(512)
    return hives.base_block(len(bins), first=6) + bytes(bins)


def log_of_dirty_hive():
    bits = sum(1 << at // 512 for at, _ in changed_sectors())
    base = hives.base_block(len(spooler(AUTOMATIC)) - 4096, first=6, second=6, kind=1)[:512]
    return base + (b"DIRT" + bits.to_bytes(4, "little")).ljust(512, b"\0") + b"".join(data for _, data in changed_sectors())


# ---- hives of a few keys, packed, and what runs leave of them


def read(run, *path):
    with open(os.path.join(RUNS, run, *path), "rb") as f:
        return f.read()


def number(name, value):
    return (name, 4, numbers(value))


def text(name, value):
    return (name, 1, (value + "\0").encode("utf-16-le"))


def texts(name, values):
    return (name, 7, "".join(value + "\0" for value in [*values, ""]).encode("utf-16-le"))


def service_key(name, start, kind=1, control=1, **more):
    """A driver, or with the kind 32 a service; `more` has values of its group, its tag and what it needs."""
    told = [number("Start", start), number("Type", kind), number("ErrorControl", control)]
    told += [number("Tag", more["tag"])] if "tag" in more else []
    told += [text("Group", more["group"])] if "group" in more else []
    told += [texts(word, [more[field]]) for word, field in (("DependOnService", "after"), ("DependOnGroup", "after_group")) if field in more]
    return Key(name, told)


def set_key(n, services, below=()):
    return Key(f"ControlSet{n:03}", [], [*below, Key("Services", [], services)])


def select_key(*four):
    return Key("Select", [number(name, value) for name, value in zip(("Current", "Default", "Failed", "LastKnownGood"), four)])


def system(sets, *four, flags=0):
    """The root of a SYSTEM hive with these sets and the numbers of Select."""
    return Key("ROOT", [], [*sets, select_key(*four)], flags)


def one_driver(*four):
    return system([set_key(1, [Key("Disk", [number("Start", 0), number("Type", 1)])])], *four, flags=0x0C)


def names_and_values():
    """Values of six types with odd names, a value before two children that are not in the order of their names, and the greatest sequence number."""
    values = [("A", 3, b""), ("", 0, b"\0"), ("A ~", 1, b"\x0f\xf0"), ("\n\x1f", 7, b"\x9a"), ("\x7f\xe9", 4, b"\xff")]
    values.append(("\ud83d\\", 2 ** 32 - 1, b"0123456789:"))
    children = [Key("R", [("B", 3, b"")], [Key("\u4e2d")]), Key("A")]
    return packed(Key("R", values, children), 2 ** 32 - 1)


def levels(count):
    key = Key("A")
    for _ in range(1, count):
        key = Key("A", [], [key])
    return packed(key)


def pattern(i, size):
    """Data that are unlike those of another i."""
    return bytes((17 * i + 7 * k + k // 256) % 256 for k in range(size))


def letters(i, size):
    """A text of that many bytes with its zero."""
    return ("".join(chr(97 + (5 * i + k) % 26) for k in range(size // 2 - 1)) + "\0").encode("utf-16-le")


def free_cells_reused():
    hive = Edited(packed(one_driver(1, 1, 0, 0)))
    for i, size in enumerate((100, 90, 3, 5000, 4800, 5000, 4, 5000)):
        hive.set_value("ControlSet001\\Services\\Disk", "Start", 3, pattern(i, size))
    return hive.file(6)


def free_cell_used():
    hive = Edited(packed(one_driver(1, 1, 0, 0)))
    for i, size in enumerate((4, 100, 5000, 0, 2900)):
        hive.set_value("ControlSet001", "A" * (i + 1), 3, pattern(i, size))
    return hive.file(6)


def free_segments_reused():
    """One value of several lengths, and new ones; 16,345 bytes are no text."""
    hive = Edited(read("big_data_in_segments", "hive"))
    for i, size in enumerate((100, 16400, 16345, 16400, 4, 16400)):
        hive.set_value("", "A", *((3, pattern(i, size)) if size % 2 else (1, letters(i, size))))
    for i, size in enumerate((4, 100, 16400, 0, 2900)):
        hive.set_value("", "B" * (i + 1), *((1, letters(i, size)) if size else (3, b"")))
    return hive.file(6)


def copied(key, name):
    return Key(name, key.values, key.children, key.flags)


def written(hive, values):
    """Numbers of Select, in the order in which a change writes them."""
    for name in ("Current", "Default", "Failed", "LastKnownGood"):
        if name in values:
            hive.set_value("Select", name, 4, numbers(values[name]))


def made_service(i):
    told = [number("Start", i % 3), number("Type", 16 if i % 3 == 2 else 1), number("ErrorControl", 1)]
    told += [text("Group", f"Group{7 * i % 10}"), number("Tag", i % 8)]
    told += [texts("DependOnService", [f"Svc{i - 3:05}"])] if i >= 3 and i % 4 == 1 else []
    return Key(f"Svc{i:05}", told)


def made_set(count):
    tags = Key("GroupOrderList", [(f"Group{i}", 3, numbers(8, *range(7, -1, -1))) for i in range(10)])
    order = Key("ServiceGroupOrder", [texts("List", [f"Group{i}" for i in range(10)])])
    return set_key(1, list(map(made_service, range(count))), [Key("Control", [], [tags, order])])


def four_made():
    """What the run of `make 4` leaves: the guard copies set 1 to 2, and the save adds it as 3 and takes 2 out."""
    one = made_set(4)
    hive = Edited(packed(system([one], 1, 1, 0, 1, flags=0x0C), 1))
    hive.add_key("", copied(one, "ControlSet002"))
    written(hive, {"LastKnownGood": 2})
    hive.add_key("", copied(one, "ControlSet003"))
    hive.delete_key("ControlSet002")
    written(hive, {"LastKnownGood": 3})
    return hive.file(3)


def with_sets(taken, *four):
    """A root with these sets, each of which has a driver of its own."""
    return system([set_key(n, [service_key(f"Driver{n}", 0)]) for n in taken], *four)


def retired_current():
    hive = Edited(packed(with_sets([1, 2, 3], 1, 2, 0, 3)))
    hive.delete_key("ControlSet001")
    written(hive, {"Current": 2})
    return hive.file(6)


def retired_failed():
    tree = with_sets([1, 2, 3], 1, 1, 3, 2)
    hive = Edited(packed(tree))
    hive.add_key("", copied(tree.children[1], "ControlSet004"))
    hive.delete_key("ControlSet003")
    written(hive, {"Current": 2, "Default": 2, "Failed": 1, "LastKnownGood": 4})
    return hive.file(6)


def guarded_default():
    tree = with_sets([2, 9], 2, 2, 9, 2)
    hive = Edited(packed(tree))
    hive.add_key("", copied(tree.children[0], "ControlSet001"))
    written(hive, {"LastKnownGood": 1})
    return hive.file(6)


def every_command():
    """The guard's copy, the edits, and the save, which takes the copy out again."""
    tree = one_driver(1, 1, 0, 1)
    hive = Edited(packed(tree))
    hive.add_key("", copied(tree.children[0], "ControlSet002"))
    written(hive, {"LastKnownGood": 2})
    hive.add_key("", Key("A"))
    for value in (number("V", 258), text("", "X"), texts("W", []), texts("X Y", ["X", ""]), ("Z", 3, b"\x0a\xf0"), text("Y", "a b")):
        hive.set_value("A", *value)
    hive.delete_value("A", "V")
    hive.add_key("A", Key("B"))
    hive.delete_key("A\\B")
    hive.add_key("", copied(tree.children[0], "ControlSet003"))
    hive.delete_key("ControlSet002")
    written(hive, {"LastKnownGood": 3})
    return hive.file(8)


def secured():
    """One driver whose keys have one security cell, behind all others."""
    hive = Edited(packed(one_driver(1, 1, 0, 1)))

    def cell(at):
        descriptor = b"\1\0\4\x80" + bytes(16)
        return hives.cell(b"sk\0\0" + numbers(at, at, 0, len(descriptor)) + descriptor)

    hive.use_security(hive.root, hive.put(cell))
    return hive


def security_counted():
    """The guard's copy uses the cell, and so does each key that is made; one that is removed doesn't."""
    hive = secured()
    hive.add_key("", copied(one_driver(1, 1, 0, 1).children[0], "ControlSet002"))
    written(hive, {"LastKnownGood": 2})
    hive.add_key("ControlSet001\\Services", Key("New"))
    hive.set_value("ControlSet001\\Services\\New", "Type", 4, numbers(1))
    hive.add_key("ControlSet001\\Services", Key("Gone"))
    hive.delete_key("ControlSet001\\Services\\Gone")
    hive.delete_key("ControlSet001\\Services\\Disk")
    return hive.file(7)


def refused_starts():
    services = [
        service_key("X", 4, 32), service_key("Y", 3, 32, after="X"), service_key("Z", 3, 32, after="Nope"), service_key("P", 3, 32, after="Q"),
        service_key("Q", 3, 32, after="P"), service_key("R", 2, 32), service_key("Other", 2, 4),
    ]
    return packed(system([set_key(1, services)], 1, 1, 0, 0))


def group_members():
    services = [service_key("E", 3, 32, after_group="g"), service_key("M", 2, 32, group="G"), service_key("N", 2, 32, group="G")]
    return packed(system([set_key(1, services)], 1, 1, 0, 0))


def small_system():
    """Drivers of two groups, of which one has tags, and one of each: a severe driver, a driver that waits for a group without members, a service that
    depends on a driver, which starts on demand."""
    services = [
        service_key("Beep", 1, group="Base", tag=2), service_key("D", 0, after_group="G"), service_key("Disk", 0),
        service_key("Ftdisk", 0, control=3, group="System Reserved"), service_key("LanmanWorkstation", 2, 32, after="Tcpip"),
        service_key("New", 0, control=2), service_key("Null", 1, group="Base", tag=1), service_key("Tcpip", 3),
    ]
    order = Key("ServiceGroupOrder", [texts("List", ["System Reserved", "Base"])])
    tags = Key("GroupOrderList", [("System Reserved", 3, numbers(0)), ("Base", 3, numbers(2, 1, 2))])
    return packed(system([set_key(1, services, [Key("Control", [], [order, tags])])], 1, 1, 0, 0))


def odd_names():
    """A driver whose name no report prints as it is, and one that waits for ever."""
    services = [service_key("~\x7f \xe9\ud83d", 0), service_key("\u4e2d\xc9", 0, after="P")]
    return packed(system([set_key(1, services)], 1, 1, 0, 0))


def safe_lists():
    """A service in each list, and one in none."""
    safe = Key("SafeBoot", [], [Key("Minimal", [], [Key("Small")]), Key("Network", [], [Key("Net")])])
    services = [service_key(name, 2, 32) for name in ("Late", "Net", "Small")]
    return packed(system([set_key(1, services, [Key("Control", [], [safe])])], 1, 1, 0, 0))


def each_form():
    values = [
        text("", "x"), number("B", 255), text('q"\\', '\\"'), ("C", 1, b"A\0"), ("D", 1, b"\n\0\0\0"), ("E", 1, bytes(4)), ("F", 1, b"A\0\0"),
        ("G", 4, b"\1\0\0"), ("H", 0, b""), ("I", 3, bytes(range(40))), ("J", 2 ** 32 - 1, b"\0"),
        ("K", 2, "%a%\0".encode("utf-16-le")), texts("L", ["a"]),
        text("\u4e2d", "\u00e9\u4e2d"), text("M", ""), ("N", 1, b""), ("O", 3, b""), ("P", 11, numbers(1, 0x80000000)), ("Q", 1, b"\r\0\0\0"),
    ]
    return packed(Key("ROOT", [number("Outside", 1)], [Key("A", [number("Outside", 2)], [Key("B", values, [Key("C")])])]))


# ---- of two files


def told_anew(hive, first, second):
    """The file with other numbers in its base block."""
    return hives.base_block(len(hive) - 4096, 32, first, second)[:512] + hive[512:]


def log_of(before, after, sequence):
    """The log of a commit that leads from one file to the other."""
    old, new = before[4096:], after[4096:]
    places = [at for at in range(0, len(new), 512) if old[at:at + 512] != new[at:at + 512]]
    bits = sum(1 << at // 512 for at in places)
    marks = b"DIRT" + bits.to_bytes((len(new) // 512 + 7) // 8, "little")
    base = hives.base_block(len(new), 32, sequence, sequence, kind=1)[:512]
    return base + marks.ljust((len(marks) + 511) // 512 * 512, b"\0") + b"".join(new[at:at + 512] for at in places)


def one_value_set():
    hive = Edited(read("import_of_one_value", "hive"))
    hive.set_value("ControlSet001\\Services\\Disk", "Start", 4, numbers(4))
    return hive.file(6)


def first_copy():
    return packed(one_driver(1, 2, 0, 0), 6)


def open_primary():
    """The power was lost while the bins were written: the primary is open, its bins and the sectors before them are junk."""
    return told_anew(packed(one_driver(1, 1, 0, 0)), 6, 5)[:512] + junk(3584 + 4096)


def second_copy():
    return packed(one_driver(1, 1, 0, 2), 6)


def repaired_primary():
    """The second copy's bins and base block; the sectors between them stay."""
    return second_copy()[:512] + junk(3584 + 4096)[:3584] + second_copy()[4096:]


def short_hive():
    return packed(one_driver(1, 1, 0, 0))[:-100]


def whole_hive():
    return packed(one_driver(1, 1, 0, 0), 6)


def open_hive():
    """The power was lost before the second sector of the bins was written, which is zeros."""
    hive = told_anew(whole_hive(), 6, 5)
    return hive[:4096 + 512] + bytes(512) + hive[4096 + 1024:]


def short_log():
    """The log of the open hive without the last 100 bytes, which are zeros."""
    return log_of(open_hive(), whole_hive(), 6)[:-100]


def dead_keyboard():
    """A keyboard and a mouse, each with its class. The class of the keyboard still names a filter driver whose program was removed."""
    keyboard, mouse = "{4D36E96B-E325-11CE-BFC1-08002BE10318}", "{4D36E96F-E325-11CE-BFC1-08002BE10318}"
    classes = [
        Key(keyboard, [text("Class", "Keyboard"), texts("UpperFilters", ["kbdclass", "HotKeys"])]),
        Key(mouse, [text("Class", "Mouse"), texts("UpperFilters", ["mouclass"])]),
    ]
    devices = [
        Key("PNP0303", [], [Key("4&1d2b1ac5&0", [text("Service", "i8042prt"), text("ClassGUID", keyboard), text("DeviceDesc", "Standard Keyboard")])]),
        Key("PNP0F13", [], [Key("4&1d2b1ac5&0", [text("Service", "i8042prt"), text("ClassGUID", mouse), text("DeviceDesc", "PS/2 Compatible Mouse")])]),
    ]
    below = [Key("Control", [], [Key("Class", [], classes)]), Key("Enum", [], [Key("ACPI", [], devices)])]
    return packed(system([set_key(1, [service_key(name, SYSTEM) for name in ("i8042prt", "kbdclass", "mouclass")], below)], 1, 1, 0, 0))


MADE = [
    ("tests/runs/lists_of_lists/hive", lists_of_lists),
    ("tests/runs/show_names_and_values/hive", names_and_values),
    ("tests/runs/keys_at_the_last_level/hive", lambda: levels(512)),
    ("tests/runs/edits_reuse_free_cells/hive", lambda: packed(one_driver(1, 1, 0, 0))),
    ("tests/runs/edits_reuse_free_cells/after/x", free_cells_reused),
    ("tests/runs/new_values_use_the_free_cell/hive", lambda: packed(one_driver(1, 1, 0, 0))),
    ("tests/runs/new_values_use_the_free_cell/after/x", free_cell_used),
    ("tests/runs/edits_reuse_free_segments/hive", lambda: read("big_data_in_segments", "hive")),
    ("tests/runs/edits_reuse_free_segments/after/x", free_segments_reused),
    ("tests/runs/make_saves/after/x", four_made),
    ("tests/runs/sweep_of_a_growing_flush/hive", lambda: packed(one_driver(1, 1, 0, 0))),
    ("tests/runs/control_refuses_each_start/hive", refused_starts),
    ("tests/runs/control_group_last_member/hive", group_members),
    ("tests/runs/twin_gets_its_first_copy/after/x", first_copy),
    ("tests/runs/twin_gets_its_first_copy/after/y", first_copy),
    ("tests/runs/twin_of_two_equal_copies/hive", lambda: packed(one_driver(1, 1, 0, 0))),
    ("tests/runs/twin_of_two_equal_copies/alt", lambda: packed(one_driver(1, 1, 0, 0))),
    ("tests/runs/twin_takes_the_second_copy/hive", open_primary),
    ("tests/runs/twin_takes_the_second_copy/alt", second_copy),
    ("tests/runs/twin_takes_the_second_copy/after/x", repaired_primary),
    ("tests/runs/twin_takes_the_second_copy/after/y", second_copy),
    ("tests/runs/begin_retires_current/hive", lambda: packed(with_sets([1, 2, 3], 1, 2, 0, 3))),
    ("tests/runs/begin_retires_current/after/x", retired_current),
    ("tests/runs/begin_retires_failed/hive", lambda: packed(with_sets([1, 2, 3], 1, 1, 3, 2))),
    ("tests/runs/begin_retires_failed/after/x", retired_failed),
    ("tests/runs/last_known_good_is_default/hive", lambda: packed(with_sets([2, 9], 2, 2, 9, 2))),
    ("tests/runs/last_known_good_is_default/after/x", guarded_default),
    ("tests/runs/small_system_starts/hive", small_system),
    ("tests/runs/ntmend_short_last_sector/hive", short_hive),
    ("tests/runs/ntmend_short_last_sector/after/hive", short_hive),
    ("tests/runs/ntmend_short_log/hive", open_hive),
    ("tests/runs/ntmend_short_log/log", short_log),
    ("tests/runs/ntmend_short_log/after/hive", whole_hive),
    ("tests/runs/ntmend_short_log/after/log", short_log),
    ("tests/runs/export_each_form/hive", each_form),
    ("tests/runs/script_of_every_command/hive", lambda: packed(one_driver(1, 1, 0, 1))),
    ("tests/runs/script_of_every_command/after/x", every_command),
    ("tests/runs/edits_count_security/hive", lambda: secured().file(5)),
    ("tests/runs/edits_count_security/after/x", security_counted),
    ("tests/runs/run_of_odd_names/hive", odd_names),
    ("tests/runs/safe_first_switch_counts/hive", safe_lists),
    ("tests/runs/safe_alternate_shell/hive", safe_lists),
    ("tests/runs/import_of_one_value/after/x", one_value_set),
    ("tests/runs/import_of_one_value/after/y", lambda: log_of(read("import_of_one_value", "hive"), one_value_set(), 6)),
    ("examples/groups_and_tags/SYSTEM", groups_and_tags),
    ("examples/unmet_dependencies/SYSTEM", unmet_dependencies),
    ("examples/disabled_driver/SYSTEM", disabled_driver),
    ("examples/dead_keyboard/SYSTEM", dead_keyboard),
    ("examples/dirty_hive/SYSTEM", dirty_hive),
    ("examples/dirty_hive/SYSTEM.LOG", log_of_dirty_hive),
]

for path, make in MADE:
    whole = os.path.join(TOP, path)
    os.makedirs(os.path.dirname(whole), exist_ok=True)
    with open(whole, "wb") as f:
        f.write(make())

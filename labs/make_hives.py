#!/usr/bin/env python3
"""Makes the hives and logs of the labs again, byte for byte: labs/make_hives.py. Keys and values are those of tests/make_hives.py and bench/hives.py."""
import datetime
import importlib.util
import os
import sys

LABS = os.path.dirname(os.path.abspath(__file__))
TOP = os.path.join(LABS, "..")
sys.path[:0] = [os.path.join(TOP, "bench"), os.path.join(TOP, "tests")]
import hives


def of_tests():
    """The functions of the script of the same name under tests/. It writes its own hives when it is read, with the bytes that they have."""
    spec = importlib.util.spec_from_file_location("hives_of_tests", os.path.join(TOP, "tests", "make_hives.py"))
    module = importlib.util.module_from_spec(spec)
    spec.loader.exec_module(module)
    return module


made_before = of_tests()
entry, junk, one_set = made_before.entry, made_before.junk, made_before.one_set
BOOT, SYSTEM, AUTOMATIC, DEMAND, DISABLED = range(5)
SERVICE = 32


def text(name, value):
    return (name, 1, f"{value}\0".encode("utf-16-le"))


def with_values(made, *values):
    """An entry with more values, as its Description."""
    name, old, children = made
    return (name, [*old, *values], children)


def sets(made, numbers, groups=(), tags=None):
    """A hive of control sets, each given by its entries, with the numbers of Select."""
    return hives.machine([hives.control_set(b"ControlSet%03d" % (i + 1), entries, groups, tags or {}) for i, entries in enumerate(made)], numbers)


def load_order():
    return one_set([
        entry("Acpi", BOOT, control=3, group="Boot Bus Extender", tag=1),
        entry("Atapi", BOOT, group="SCSI miniport"),
        entry("Beep", SYSTEM),
        entry("Browser", AUTOMATIC, kind=SERVICE, services=["Server"]),
        entry("Cpqarray", BOOT, group="SCSI miniport", tag=2),
        entry("Disk", BOOT, group="SCSI Class"),
        entry("Nic", SYSTEM, group="NDIS"),
        entry("Pci", BOOT, control=3, group="Boot Bus Extender", tag=2),
        entry("Server", AUTOMATIC, kind=SERVICE),
    ], ["Boot Bus Extender", "SCSI miniport", "SCSI Class", "NDIS"], {"Boot Bus Extender": [2, 1], "SCSI miniport": [1, 2]})


def cycle():
    return one_set([
        entry("Audio", AUTOMATIC, kind=SERVICE, services=["Mixer"]),
        entry("Backup", AUTOMATIC, kind=SERVICE, groups=["Tape"]),
        entry("Mixer", AUTOMATIC, kind=SERVICE, services=["Rpc", "Audio"]),
        entry("Player", AUTOMATIC, kind=SERVICE, services=["Audio"]),
        entry("Rpc", AUTOMATIC, kind=SERVICE),
        entry("Streamer", AUTOMATIC, kind=SERVICE, group="Tape", groups=["Tape"]),
    ], ["Tape"])


def error_control():
    drivers = [entry(f"Nic{control}", SYSTEM, control=control, group="NDIS") for control in range(4)]
    return sets([drivers, drivers], (1, 1, 0, 2), ["NDIS"])


def network(nic=SYSTEM):
    """A disk driver, and a network card that may be missing with the service that needs it."""
    return [
        entry("Dhcp", AUTOMATIC, kind=SERVICE, services=["Nic"]),
        entry("Disk", BOOT, control=1),
        entry("Eventlog", AUTOMATIC, kind=SERVICE),
        entry("Nic", nic, group="NDIS"),
    ]


def never_logged_on():
    return sets([network()], (1, 1, 0, 0), ["NDIS"])


def logged_on_before():
    """Two equal sets of two entries and nothing else, so that a third one is small too."""
    entries = [entry("Disk", BOOT, control=1), entry("Spooler", AUTOMATIC, kind=SERVICE)]
    return hives.machine([(b"ControlSet%03d" % number, [], [(b"Services", [], entries)]) for number in (1, 2)], (1, 1, 0, 2))


def found_on_the_desk():
    """The Default set is unlike LastKnownGood in four ways."""
    good = [
        entry("Afd", SYSTEM, group="TDI"),
        entry("Dhcp", AUTOMATIC, kind=SERVICE, services=["Afd"]),
        entry("Disk", BOOT, control=1, group="SCSI Class"),
        entry("Eventlog", AUTOMATIC, kind=SERVICE),
        entry("Nic", SYSTEM, group="NDIS"),
    ]
    now = [
        entry("Afd", DISABLED, group="TDI"),
        entry("Dhcp", AUTOMATIC, kind=SERVICE, services=["Afd"]),
        entry("Disk", BOOT, control=1, group="SCSI Class"),
        entry("Eventlog", AUTOMATIC, kind=SERVICE, services=["Helper"]),
        with_values(entry("Helper", AUTOMATIC, kind=SERVICE), text(b"ImagePath", "C:\\WINDOWS\\Temp\\hlp.exe")),
        with_values(entry("Memdump", DEMAND), text(b"ImagePath", "\\??\\C:\\WINDOWS\\system32\\memdump.sys")),
        entry("Nic", SYSTEM, group="NDIS"),
    ]
    return sets([now, good], (1, 1, 0, 2), ["SCSI Class", "NDIS", "TDI"])


def safe_lists():
    name, values, (control, services) = hives.control_set(b"ControlSet001", [
        entry("Dhcp", AUTOMATIC, kind=SERVICE, services=["Nic"]),
        entry("Disk", BOOT, control=1, group="SCSI Class"),
        entry("Eventlog", AUTOMATIC, kind=SERVICE),
        entry("Nic", SYSTEM, group="NDIS"),
        entry("Toolbar", AUTOMATIC, kind=SERVICE),
        entry("Vga", SYSTEM, group="Video"),
    ], ["SCSI Class", "Video", "NDIS"], {})
    lists = [
        (b"Minimal", [], [(b"Disk", [], []), (b"Eventlog", [], [])]),
        (b"Network", [], [(b"Dhcp", [], []), (b"Eventlog", [], []), (b"Video", [], [])]),
    ]
    control[2].append((b"SafeBoot", [], lists))
    return hives.machine([(name, values, [control, services])], (1, 1, 0, 0))


def printer(start):
    """A service that prints, in a set of its own."""
    return one_set([entry("Disk", BOOT, control=1), entry("Spooler", start, kind=SERVICE)])


def numbered(whole, first, second=None):
    """The hive with other sequence numbers, and its checksum for them."""
    bins = whole[4096:]
    return hives.base_block(len(bins), first=first, second=first if second is None else second) + bins


def differing(before, after):
    """Where the sectors of the bins begin that differ."""
    return [at for at in range(0, len(after) - 4096, 512) if before[4096 + at:4608 + at] != after[4096 + at:4608 + at]]


def torn(before, after, first, second):
    """The hive of before, with these numbers, in which each sector that the change touches is junk."""
    bins = bytearray(before[4096:])
    for at in differing(before, after):
        bins[at:at + 512] = junk(512)
    return hives.base_block(len(bins), first=first, second=second) + bytes(bins)


def log_of(before, after, number):
    """The log of a change: base block, a bit for each sector, and the sectors that differ."""
    places = differing(before, after)
    bits = sum(1 << at // 512 for at in places)
    base = hives.base_block(len(after) - 4096, first=number, second=number, kind=1)[:512]
    return base + (b"DIRT" + bits.to_bytes(4, "little")).ljust(512, b"\0") + b"".join(after[4096 + at:4608 + at] for at in places)


def two_sets(default):
    return sets([network(), network(DISABLED)], (1, default, 0, 0), ["NDIS"])


def device(place, description, *values):
    """A device instance by its path below Enum, with the keys on the way."""
    name, *above = reversed(place.split("\\"))
    key = (name.encode(), [text(b"DeviceDesc", description), *values], [])
    for outer in above:
        key = (outer.encode(), [], [key])
    return key


def device_class(name, *values):
    return [text(b"Class", name), *values]


CDROM, KEYBOARD, MOUSE = (f"{{4D36E9{end}-E325-11CE-BFC1-08002BE10318}}" for end in ("65", "6B", "6F"))


def keyboard_with_a_lost_filter():
    """A filter driver of the class Keyboard was removed and its name was not; and the driver of the CD drive is disabled."""
    groups = ["SCSI Class", "SCSI CDROM Class", "Keyboard Port", "Keyboard Class", "Pointer Class"]
    name, values, (control, services) = hives.control_set(b"ControlSet001", [
        entry("Cdrom", DISABLED, group="SCSI CDROM Class"),
        entry("Disk", BOOT, control=1, group="SCSI Class"),
        entry("Eventlog", AUTOMATIC, kind=SERVICE),
        entry("i8042prt", SYSTEM, group="Keyboard Port"),
        entry("Imapi", DEMAND),
        entry("Kbdclass", SYSTEM, group="Keyboard Class"),
        entry("Mouclass", SYSTEM, group="Pointer Class"),
    ], groups, {})
    control[2].insert(0, (b"Class", [], [
        (CDROM.encode(), device_class("CDROM", hives.strings(b"LowerFilters", ["Imapi"])), []),
        (KEYBOARD.encode(), device_class("Keyboard", hives.strings(b"UpperFilters", ["Kbdclass", "Hotkeyfl"])), []),
        (MOUSE.encode(), device_class("Mouse", hives.strings(b"UpperFilters", ["Mouclass"])), []),
    ]))
    (acpi, _, [keyboard]), (_, _, [mouse]) = (
        device("ACPI\\PNP0303\\4&1506BB2E&0", "Standard 101/102-Key Keyboard", text(b"ClassGUID", KEYBOARD), text(b"Service", "i8042prt")),
        device("ACPI\\PNP0F13\\4&1506BB2E&0", "PS/2 Compatible Mouse", text(b"ClassGUID", MOUSE), text(b"Service", "i8042prt")),
    )
    devices = [
        (acpi, [], [keyboard, mouse]),
        device("IDE\\CdRomLITE-ON_DVD_LTD-163\\5&2C3D4E5F&0&0.0.0", "CD-ROM Drive", text(b"ClassGUID", CDROM), text(b"Service", "Cdrom")),
        device("Root\\LEGACY_HOTKEYFL\\0000", "Hotkeyfl", hives.dword(b"Legacy", 1), text(b"Service", "Hotkeyfl")),
    ]
    return hives.machine([(name, values, [control, (b"Enum", [], devices), services])], (1, 1, 0, 0))


def stamp(moment):
    """A moment in UTC as a key's stamp."""
    return int((datetime.datetime.fromisoformat(moment) - datetime.datetime(1601, 1, 1)).total_seconds()) * 10 ** 7


def installed(written, name, start, image, kind=SERVICE, dll=None, **more):
    """A driver or service with its image, and the moment at which its key was written last."""
    name, values, children = entry(name, start, kind, **more)
    values.insert(3, (b"ImagePath", 2, f"{image}\0".encode("utf-16-le")))
    if dll:
        children.append((b"Parameters", [(b"ServiceDll", 2, f"{dll}\0".encode("utf-16-le"))], [], stamp(written)))
    return (name, values, children, stamp(written))


def unknown_service():
    """A service in another's process, a driver and a changed need, all of one minute; and a harmless service whose program is not Windows's."""
    shared, system = "%SystemRoot%\\system32\\svchost.exe -k netsvcs", "%SystemRoot%\\system32\\"
    first, printer_day = "2004-03-02T09:14:31", "2004-06-21T16:40:05"
    name, values, (control, services) = hives.control_set(b"ControlSet001", [
        installed(first, "Afd", SYSTEM, "System32\\drivers\\afd.sys", kind=1, group="TDI"),
        installed(first, "Dhcp", AUTOMATIC, shared, dll=system + "dhcpcsvc.dll", services=["Afd"]),
        installed(first, "Disk", BOOT, "System32\\drivers\\disk.sys", kind=1, group="SCSI Class"),
        installed("2004-11-05T02:47:18", "Eventlog", AUTOMATIC, system + "services.exe", services=["Wmdmhlp"]),
        installed(printer_day, "Prnmon", AUTOMATIC, '"C:\\Program Files\\Prnmon\\prnmon.exe"', services=["Spooler"]),
        installed(first, "Schedule", AUTOMATIC, shared, dll=system + "schedsvc.dll"),
        installed(first, "Spooler", AUTOMATIC, system + "spoolsv.exe"),
        installed("2004-11-05T02:47:16", "Wmdmhlp", AUTOMATIC, shared, dll="C:\\Documents and Settings\\All Users\\wmdmhlp.dll"),
        installed("2004-11-05T02:47:15", "Wmdmnet", SYSTEM, "System32\\drivers\\wmdmnet.sys", kind=1, group="TDI"),
    ], ["SCSI Class", "TDI"], {})
    listed = [(b"Afd", [], []), (b"Dhcp", [], []), (b"Eventlog", [], []), (b"Wmdmhlp", [], [])]
    control[2].insert(1, (b"SafeBoot", [], [(b"Minimal", [], [(b"Eventlog", [], [])]), (b"Network", [], listed)]))
    return hives.machine([(name, values, [control, services])], (1, 1, 0, 0))


OFF, ON = printer(DISABLED), printer(AUTOMATIC)

MADE = [
    ("01_load_order/SYSTEM", load_order()),
    ("02_groups_and_tags/SYSTEM", load_order()),
    ("03_cycle/SYSTEM", cycle()),
    ("04_error_control/SYSTEM", error_control()),
    ("05_last_known_good/SYSTEM", never_logged_on()),
    ("06_commit_point/SYSTEM", logged_on_before()),
    ("07_why_the_log_is_synced/SYSTEM", logged_on_before()),
    ("08_without_a_log/SYSTEM", logged_on_before()),
    ("09_second_copy/SYSTEM", torn(two_sets(1), two_sets(2), 6, 5)),
    ("09_second_copy/SYSTEM.ALT", numbered(two_sets(2), 6)),
    ("09_second_copy/SYSTEM.LOG", log_of(two_sets(1), two_sets(2), 6)),
    ("10_what_changed/SYSTEM", found_on_the_desk()),
    ("11_safe_mode/SYSTEM", safe_lists()),
    ("12_bytes/SYSTEM", torn(OFF, ON, 8, 7)),
    ("12_bytes/SYSTEM.LOG", log_of(OFF, ON, 8)),
    ("13_dead_keyboard/SYSTEM", keyboard_with_a_lost_filter()),
    ("14_unknown_service/SYSTEM", unknown_service()),
]


def main():
    for path, data in MADE:
        whole = os.path.join(LABS, path)
        os.makedirs(os.path.dirname(whole), exist_ok=True)
        with open(whole, "wb") as f:
            f.write(data)


if __name__ == "__main__":
    main()

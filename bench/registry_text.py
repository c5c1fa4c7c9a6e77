#!/usr/bin/env python3
"""Times `export` and `import` of registry texts, and compares them with other readers: bench/registry_text.py PROGRAM. `reged` (package
chntpw) and `hivexregedit` (package libwin-hivex-perl) are run beside it where they are installed. Prints processor seconds, the least of
a few runs each. No gate runs it."""
import os
import random
import re
import shutil
import struct
import subprocess
import sys
import tempfile

sys.path.insert(0, os.path.dirname(os.path.abspath(__file__)))
import hives
from peers import as_read_by_tools
from timing import used

TRIES = 3
# A peer is stopped after that many seconds.
PATIENCE = 60
PREFIX = "HKEY_LOCAL_MACHINE\\SYSTEM"
HEADER = "Windows Registry Editor Version 5.00"
# Each form of data, names of each kind, and keys below one another; in 8-bit characters, which the peers can tell.
SMALL = [
    f"[{PREFIX}\\Forms]",
    '@="the empty name"',
    '"Bytes"=hex:' + ",".join(f"{b:02x}" for b in range(256)),
    '"Empty"=hex:',
    '"List"=hex(7):6f,00,00,00,74,00,00,00,00,00',
    '"None"=hex(0):01',
    '"Number"=dword:89abcdef',
    '"Quote \\" and \\\\"="a \\" and a \\\\"',
    '"Expand"=hex(2):25,00,00,00',
    '"Wide"=hex(b):00,01,02,03,04,05,06,07',
    "",
    f"[{PREFIX}\\Forms\\Below]",
    '"Start"=dword:00000001',
    "",
    f"[{PREFIX}\\Forms\\Below\\Deep]",
    "",
    f"[{PREFIX}\\Other]",
    '"Start"=dword:00000003',
    "",
]


def base_hive():
    """A hive of a root alone, which has a descriptor, as the peers want it of a key that they add to."""
    root = bytearray(hives.node(b"ROOT", 0, hives.NONE, 0, hives.NONE))
    struct.pack_into("<H", root, 2, 0x2C)
    struct.pack_into("<I", root, 44, 32 + len(hives.cell(bytes(root))))
    at = struct.unpack_from("<I", root, 44)[0]
    descriptor = bytes([1, 0, 0, 0x80]) + bytes(16)
    return hives.hive(hives.cell(bytes(root)) + hives.cell(b"sk\0\0" + struct.pack("<IIII", at, at, 1, len(descriptor)) + descriptor))


def least(words, room, into=None):
    """The least time of a few runs, and what the last one said."""
    times = []
    for _ in range(TRIES):
        with open(os.path.join(room, into or "said"), "wb") as out:
            before = used()
            done = subprocess.run(words, cwd=room, stdout=out, stderr=subprocess.PIPE, timeout=3600)
            times.append(used() - before)
        if done.returncode:
            sys.exit(f"{words}: exit {done.returncode}: {done.stderr.decode(errors='replace')[:300]}")
    with open(os.path.join(room, into or "said"), "rb") as f:
        return min(times), f.read()


def write(room, name, data):
    with open(os.path.join(room, name), "wb") as f:
        f.write(data)


def read(room, name):
    with open(os.path.join(room, name), "rb") as f:
        return f.read()


def text_of(lines):
    """A registry text of these lines."""
    return b"\xff\xfe" + "".join(line + "\r\n" for line in [HEADER, ""] + lines).encode("utf-16-le")


def shown(program, room, hive, log=None):
    """What `show` prints of a hive."""
    words = [program, "show", "--hive", hive] + (["--log", log] if log else [])
    return least(words, room)[1]


def export_times(program, room):
    """`export` of a hive of 14 MB, beside the peers."""
    write(room, "large", hives.with_services(40_000))
    size = os.path.getsize(os.path.join(room, "large"))
    took, said = least([program, "export", "--hive", "large", "--reg", "large.reg"], room)
    out = os.path.getsize(os.path.join(room, "large.reg"))
    print(f"export of {size} bytes: {took:.2f} s, {out} bytes, {said.decode().strip()}")
    half = hives.with_services(20_000)
    write(room, "half", half)
    other, _ = least([program, "export", "--hive", "half", "--reg", "half.reg"], room)
    print(f"export of {len(half)} bytes: {other:.2f} s")
    # hivexregedit wants each key's parent in its node.
    write(room, "linked", as_read_by_tools(hives.with_services(40_000), 3))
    for words in (["reged", "-x", "linked", PREFIX, "\\", "reged.reg"], ["hivexregedit", "--export", "--prefix", PREFIX, "linked", "\\"]):
        if shutil.which(words[0]):
            print(f"{words[0]}: {by_peer(words, room)}; export: {took:.2f} s")


def by_peer(words, room):
    """The processor seconds that a peer takes, or that it was stopped after that many."""
    before = used()
    try:
        done = subprocess.run(words, cwd=room, capture_output=True, timeout=PATIENCE)
    except subprocess.TimeoutExpired:
        return f"not done in {PATIENCE} s"
    return f"{used() - before:.2f} s, exit {done.returncode}"


def import_times(program, room):
    """`import` of many values, and of an exported text into an empty hive."""
    write(room, "empty", hives.hive(hives.cell(hives.node(b"ROOT", 0, hives.NONE, 0, hives.NONE))))
    for count in (50_000, 100_000):
        lines = [f"[{PREFIX}\\Many]"] + [f'"V{i:06d}"=dword:{i:08x}' for i in range(count)] + [""]
        write(room, "many.reg", text_of(lines))
        took, said = least([program, "import", "--hive", "empty", "--reg", "many.reg", "--save-hive", "many"], room)
        print(f"import of {count} values of one key: {took:.2f} s, {said.decode().strip()}")
        over, said = least([program, "import", "--hive", "many", "--reg", "many.reg"], room)
        print(f"import of the same again: {over:.2f} s, {said.decode().strip()}")
    for keys in (100, 1_000):
        each = 100_000 // keys
        lines = []
        for k in range(keys):
            lines += [f"[{PREFIX}\\K{k:04d}]"] + [f'"V{i:04d}"=dword:{i:08x}' for i in range(each)] + [""]
        write(room, "spread.reg", text_of(lines))
        took, said = least([program, "import", "--hive", "empty", "--reg", "spread.reg"], room)
        print(f"import of 100000 values of {keys} keys: {took:.2f} s, {said.decode().strip()}")
    for count in (1_000, 2_000, 4_000):
        lines = [f"[{PREFIX}\\K{k:06d}]" for k in range(count)]
        write(room, "keys.reg", text_of(lines))
        took, said = least([program, "import", "--hive", "empty", "--reg", "keys.reg"], room)
        print(f"import of {count} keys below one: {took:.2f} s, {said.decode().strip()}")


def numbers(count, order):
    """That many numbers, rising, falling or mixed."""
    if order == "mixed":
        return random.Random(count).sample(range(count), count)
    return range(count) if order == "rising" else range(count - 1, -1, -1)


def edit_times(program, room):
    """`import` of values and keys of one key in any order, and of their deletions."""
    write(room, "empty", hives.hive(hives.cell(hives.node(b"ROOT", 0, hives.NONE, 0, hives.NONE))))
    for what, set_line, deletion in (
        ("values", '"V{0:06d}"=dword:{0:08x}', '"V{0:06d}"=-'),
        ("keys", f"[{PREFIX}\\Many\\K{{0:06d}}]", f"[-{PREFIX}\\Many\\K{{0:06d}}]"),
    ):
        for count in (25_000, 50_000):
            for order in ("rising", "falling", "mixed"):
                for form, hive, doing in ((set_line, "empty", "set"), (deletion, "full", "deleted")):
                    lines = [f"[{PREFIX}\\Many]"] + [form.format(i) for i in numbers(count, order)] + [""]
                    write(room, "edits.reg", text_of(lines))
                    took, said = least([program, "import", "--hive", hive, "--reg", "edits.reg", "--save-hive", "after"], room)
                    print(f"import of {count} {what} {doing}, {order}: {took:.2f} s, {said.decode().strip()}")
                    if doing == "set":
                        os.replace(os.path.join(room, "after"), os.path.join(room, "full"))


def lines_of(text):
    """The keys of a text, each with its values as a peer and this program both tell them: in small letters, whatever the order."""
    keys, at = {}, None
    for line in re.sub(r",\\\r?\n[ \t]*", ",", text).splitlines():
        line = line.strip()
        if line.startswith("["):
            at = keys.setdefault(line.lower(), set())
        elif "=" in line and at is not None:
            at.add(line)
    return keys


def told(text):
    """The same with each value's data as its type and bytes."""
    out = {}
    for key, values in lines_of(text).items():
        out[key] = {}
        for line in values:
            name, data = re.fullmatch(r'(@|""|"(?:[^"\\]|\\.)*")=(.*)', line, re.S).groups()
            name = "@" if name == '""' else name
            if data.startswith('"'):
                plain = re.sub(r"\\(.)", r"\1", data[1:-1])
                form = (1, plain.encode("utf-16-le") + b"\0\0")
            elif data.startswith("dword:"):
                form = (4, struct.pack("<I", int(data[6:], 16)))
            else:
                kind, rest = re.fullmatch(r"hex(?:\(([0-9a-f]+)\))?:(.*)", data).groups()
                form = (3 if kind is None else int(kind, 16), bytes(int(b, 16) for b in rest.split(",") if b))
            out[key][name] = form
    return out


def compare(program, room):
    """Texts exported here are read by `hivexregedit`, and what it exports is imported here."""
    write(room, "bare", base_hive())
    write(room, "small.reg", text_of(SMALL))
    least([program, "import", "--hive", "bare", "--reg", "small.reg", "--save-hive", "small"], room)
    least([program, "export", "--hive", "small", "--reg", "small.reg"], room)
    ours = read(room, "small.reg")[2:].decode("utf-16-le")
    # It reads and writes UTF-8.
    write(room, "small.utf8", ours.replace("\r\n", "\n").encode())
    done = subprocess.run(["hivexregedit", "--merge", "--prefix", PREFIX, "bare", "small.utf8"], cwd=room, capture_output=True)
    print(f"hivexregedit --merge of what was exported here: exit {done.returncode}", done.stderr.decode(errors="replace")[:300].strip())
    least([program, "export", "--hive", "bare", "--reg", "merged.reg"], room)
    merged = told(read(room, "merged.reg")[2:].decode("utf-16-le"))
    print(f"the same keys and values then: {merged == told(ours)}", differing(told(ours), merged))
    _, theirs = least(["hivexregedit", "--export", "--prefix", PREFIX, "small", "\\"], room, "theirs.reg")
    # Of the root it says `[..\SYSTEM\]`, which names a key without a name here.
    theirs = theirs.decode().replace(f"[{PREFIX}\\]", f"[{PREFIX}]")
    write(room, "theirs16.reg", b"\xff\xfe" + theirs.encode("utf-16-le"))
    write(room, "empty", base_hive())
    _, said = least([program, "import", "--hive", "empty", "--reg", "theirs16.reg", "--save-hive", "taken"], room)
    print(f"import of what hivexregedit exported: {said.decode().strip()}")
    least([program, "export", "--hive", "taken", "--reg", "taken.reg"], room)
    taken = told(read(room, "taken.reg")[2:].decode("utf-16-le"))
    print(f"the same keys and values then: {taken == told(ours)}", differing(told(ours), taken))


def differing(ours, theirs):
    """Which keys and values differ, where some do."""
    out = []
    for key in sorted(set(ours) | set(theirs)):
        a, b = ours.get(key), theirs.get(key)
        if a != b:
            names = sorted(n for n in set(a or {}) | set(b or {}) if (a or {}).get(n) != (b or {}).get(n))
            out.append((key, "absent" if a is None or b is None else [(n, (a or {}).get(n), (b or {}).get(n)) for n in names]))
    return out or ""


def main(words):
    program = os.path.abspath(words[0])
    with tempfile.TemporaryDirectory() as room:
        export_times(program, room)
        import_times(program, room)
        edit_times(program, room)
        if shutil.which("hivexregedit"):
            compare(program, room)


main(sys.argv[1:])

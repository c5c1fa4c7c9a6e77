#!/usr/bin/env python3
"""Asks other readers of hives what is in the images that the built program saves, and compares it with what `show` says of them: the keys,
and the name, type, length and data of each value. bench/peers.py PROGRAM. No gate runs it. Prints what differs, then 'N passed, N failed'.

It needs hivexml and hivexsh (apt-get install libhivex-bin), hivexregedit (libwin-hivex-perl) and reglookup (reglookup). The first three
stand on one library, hivex, and the last one on another, regfi. hivexregedit prints all data byte for byte; of the others each prints
some types as texts or numbers, and what `show` says is then put in their words.

None of them recovers a hive by its log. So they are asked about clean images alone: an image that `show` reads only with its log is loaded by
a next run, `show` must say the same of what that run saves, and they are asked about that. The order of keys and values is left aside.

Known, so printed and not counted: of data in segments both libraries take a segment's cell without its last four bytes. What of the last
segment lies in these is lost to them, which is up to four bytes where its length modulo 8 is 1 to 4."""
import base64
import collections
import glob
import os
import random
import re
import shutil
import struct
import subprocess
import sys
import tempfile
import urllib.parse
import xml.etree.ElementTree

sys.path.insert(0, os.path.dirname(os.path.abspath(__file__)))
import hives

TOP = os.path.join(os.path.dirname(os.path.abspath(__file__)), "..")
PACKAGES = {"hivexml": "libhivex-bin", "hivexsh": "libhivex-bin", "hivexregedit": "libwin-hivex-perl", "reglookup": "reglookup"}
NUMBERS_MADE = (1, 40, 1000)
MINORS = (3, 5)
MOST_IN_ONE_CELL = 16344
SHORT_OF_ROOM = MOST_IN_ONE_CELL + 1
RANDOM_RUNS = 4
RANDOM_EDITS = 250
BELOW = r"CurrentControlSet\Peers"


def ran(*words, text=b""):
    """What a program says, in UTF-8."""
    done = subprocess.run(words, input=text, capture_output=True, timeout=300, env={**os.environ, "LC_ALL": "C.UTF-8", "PERL_UNICODE": "O"})
    if done.returncode:
        raise ValueError(f"{os.path.basename(words[0])} ends with {done.returncode}: {(done.stdout[-200:] + done.stderr[-200:])!r}")
    return done.stdout


# ---- what `show` says: a tree is each key's path, its names from the root's on, with its values: name to type and data


def name_of(said):
    """A name out of its printed form, in which units outside 0x20 to 0x7E are `\\u` and four digits."""
    units = re.sub(r"\\u([0-9a-f]{4})", lambda found: chr(int(found[1], 16)), said)
    return units.encode("utf-16-le", "surrogatepass").decode("utf-16-le")


def value_of(said):
    """The name, type and data of a line `NAME TYPE LENGTH DATA`, which has no data where the length is 0."""
    rest, last = said.rsplit(" ", 1)
    data = b"" if last == "0" else bytes.fromhex(last)
    name, kind, length = (rest + " 0" if last == "0" else rest).rsplit(" ", 2)
    if int(length) != len(data):
        raise ValueError(f"show prints a length of {length} and {len(data)} bytes")
    return name_of(name), int(kind), data


def tree_of(text):
    """The tree out of what `show` says, without its first line. No key here has a name that begins with `= ` or a space."""
    tree, path = {}, []
    for line in text.decode("ascii").splitlines()[1:]:
        said = line.lstrip(" ")
        level = (len(line) - len(said)) // 2
        if said.startswith("= "):
            name, kind, data = value_of(said[2:])
            tree[tuple(path[:level])][name] = (kind, data)
        else:
            path[level:] = [name_of(said)]
            tree[tuple(path)] = {}
    return tree


def values_in(tree):
    """Each value with the path of its key."""
    return [(path, name, kind, data) for path, values in tree.items() for name, (kind, data) in values.items()]


def text_in(data):
    """The text that UTF-16 data begin with, up to a zero unit."""
    return data[:len(data) // 2 * 2].decode("utf-16-le").split("\0")[0]


def texts_in(data):
    """The texts that zero units end, the empty one at the end too."""
    return data.decode("utf-16-le").split("\0")[:-1]


# ---- each tool: what it prints of a file, and what it should print of a tree, both as a list of keys and values in any order

HIVEXML_KINDS = ["none", "string", "expand", "binary", "int32", "int32", "link", "string-list", "resource-list", "resource-description",
                 "resource-requirements", "int64"]


def hivexml_tells(file):
    told = []

    def value(path, node):
        runs = node.findall("byte_runs/byte_run")
        length = int(runs[1].get("len")) - 4 if len(runs) > 1 else None
        word, data = node.get("type"), node.get("value")
        if node.get("encoding") == "base64":
            data = base64.b64decode(data or "")
        if word == "string-list":
            data = [text.text or "" for text in node.findall("string")]
        told.append((path, "" if node.get("default") else node.get("key"), word, length, data))

    def key(above, node):
        path = above + (node.get("name"),)
        told.append((path,))
        for below in node:
            if below.tag == "value":
                value(path, below)
            elif below.tag == "node":
                key(path, below)

    key((), xml.etree.ElementTree.fromstring(ran("hivexml", file)).find("node"))
    return told


def hivexml_of(tree):
    def value(path, name, kind, data):
        word = HIVEXML_KINDS[kind] if kind < len(HIVEXML_KINDS) else "unknown"
        length = len(data) if len(data) > 4 else None
        if word in ("string", "expand", "link"):
            data = text_in(data)
        elif word == "string-list":
            data = texts_in(data)
        elif word in ("int32", "int64"):
            data = str(int.from_bytes(data, "big" if kind == 5 else "little", signed=True))
        return path, name, word, length, data

    return [(path,) for path in tree] + [value(*one) for one in values_in(tree)]


def hivexsh_tells(file):
    """It is asked level by level for what each key has, by the paths that it printed before. The path comes before each listing."""
    told, level = [("\\",)], ["\\"]
    while level:
        asked = "".join(f"cd {path.ljust(2)}\ncd\nls\ncd\nlsval\n" for path in level)
        below, path, listing = [], None, False
        for line in ran("hivexsh", file, text=asked.encode()).decode().split("\n")[:-1]:
            if line.startswith("\\"):
                path, listing = line, not (listing and path == line)
            elif listing:
                below.append(path.rstrip("\\") + "\\" + line)
            else:
                told.append((path, line))
        told += [(path,) for path in below]
        level = below
    return told


def quoted(name):
    return '"' + name.replace("\\", "\\\\").replace('"', '\\"') + '"'


def hex_in(data):
    return ",".join(f"{byte:02x}" for byte in data)


def path_in(path):
    """The path without the root's name, as hivex writes it."""
    return "\\" + "\\".join(path[1:])


def hivexsh_of(tree):
    def line(name, kind, data):
        if kind in (1, 2, 6):
            said = ("" if kind == 1 else f"str({kind}):") + quoted(text_in(data))
        elif kind in (4, 5):
            said = f"dword:{int.from_bytes(data, 'little' if kind == 4 else 'big'):08x}"
        else:
            said = f"hex({kind}):{hex_in(data)}"
        return f"{quoted(name or '@')}={said}"

    return [(path_in(path),) for path in tree] + [(path_in(path), line(*one)) for path, *one in values_in(tree)]


def hivexregedit_tells(file):
    told, path = [], None
    for line in ran("hivexregedit", "--export", file, "\\").decode().split("\n")[1:]:
        if line.startswith("["):
            path = line[1:-1]
            told.append((path,))
        elif line:
            told.append((path, line))
    return told


def hivexregedit_of(tree):
    def line(name, kind, data):
        number = kind == 4 and len(data) == 4
        said = f"dword:{int.from_bytes(data, 'little'):08x}" if number else f"hex({kind:x}):{hex_in(data)}"
        return f"{quoted(name) if name else '@'}={said}"

    return [(path_in(path),) for path in tree] + [(path_in(path), line(*one)) for path, *one in values_in(tree)]


REGLOOKUP_KINDS = ["NONE", "SZ", "EXPAND_SZ", "BINARY", "DWORD", "DWORD_BE", "LINK", "MULTI_SZ", "RSRC_LIST", "RSRC_DESC", "RSRC_REQ_LIST",
                   "QWORD"]


def reglookup_tells(file):
    told = []
    for line in ran("reglookup", "-H", file).decode("ascii").splitlines():
        path, word, data, _ = line.split(",")
        names = tuple(urllib.parse.unquote_to_bytes(name) for name in path.split("/")[1:])
        if word == "KEY":
            told.append((() if names == (b"",) else names,))
        elif word == "MULTI_SZ":
            told.append((names, word, [urllib.parse.unquote_to_bytes(text) for text in data.split("|")]))
        else:
            told.append((names, word, urllib.parse.unquote_to_bytes(data)))
    return told


def reglookup_of(tree):
    def stored(name):
        """A name is printed as the bytes that it has in the file: one for each unit where all are below 256, else two."""
        return name.encode("latin-1") if max(name, default="") < "\u0100" else name.encode("utf-16-le")

    def value(path, name, kind, data):
        word = REGLOOKUP_KINDS[kind] if kind < len(REGLOOKUP_KINDS) else f"0x{kind:08X}"
        said = data or b"(null)"
        if data and word in ("SZ", "EXPAND_SZ", "LINK"):
            said = text_in(data).encode()
        elif word == "MULTI_SZ":
            said = [text.encode() for text in texts_in(data) if text] or [b""] if data else [said]
        elif word in ("DWORD", "DWORD_BE", "QWORD"):
            said = f"0x{int.from_bytes(data, 'big' if kind == 5 else 'little'):0{2 * len(data)}X}".encode()
        return tuple(map(stored, path[1:] + (name,))), word, said

    return [(tuple(map(stored, path[1:])),) for path in tree] + [value(*one) for one in values_in(tree)]


TOOLS = {
    "hivexml": (hivexml_tells, hivexml_of),
    "hivexsh": (hivexsh_tells, hivexsh_of),
    "hivexregedit": (hivexregedit_tells, hivexregedit_of),
    "reglookup": (reglookup_tells, reglookup_of),
}


# ---- hives that runs begin with


def listed(bins, at):
    """The offsets of the keys in the list at an offset, and in the lists that it lists."""
    sign, count = struct.unpack_from("<2sH", bins, at + 4)
    step = 8 if sign in (b"lf", b"lh") else 4
    offsets = [struct.unpack_from("<I", bins, at + 8 + step * i)[0] for i in range(count)]
    return [key for part in offsets for key in listed(bins, part)] if sign == b"ri" else offsets


def as_read_by_tools(hive, minor):
    """The hive in a version, its root marked as one, without which reglookup finds none, and each node naming the one above it, which
    hivexsh and hivexregedit ask for. Edits in place leave other nodes as they are."""
    root, size = struct.unpack_from("<II", hive, 36)
    bins = bytearray(hive[4096:])
    bins[root + 6] |= 0x0C
    above = [root]
    for key in above:
        if struct.unpack_from("<I", bins, key + 24)[0]:
            for child in listed(bins, struct.unpack_from("<I", bins, key + 32)[0]):
                struct.pack_into("<I", bins, child + 20, key)
                above.append(child)
    return hives.base_block(size, root, minor=minor) + bytes(bins)


def widened(hive, name, wide):
    """The hive with a name of that many bytes in place of each narrow one of as many, of a key or a value."""
    data = bytearray(hive)
    for found in re.finditer(re.escape(name), hive):
        for sign, ahead, flags, narrow in ((b"nk", 76, 2, 0x20), (b"vk", 20, 16, 1)):
            at = found.start() - ahead
            if data[at:at + 2] == sign:
                data[at + flags] &= 0xFF ^ narrow
                data[found.start():found.end()] = wide.encode("utf-16-le")
    return bytes(data)


def with_all_kinds():
    """A hive with values of all types, and with names of other letters, in one byte or two for each."""
    text = "some text\0".encode("utf-16-le")
    datas = {0: b"", 2: text, 4: b"\1\2\3\4", 5: b"\1\2\3\4", 6: text, 7: text + b"\0\0", 11: bytes(range(1, 9))}
    values = [(b"kind %d" % kind, kind, datas.get(kind, bytes(range(40)))) for kind in (0, *range(2, 14), 1000)]
    values += [(b"caf\xe9 = a/b, 'c' | %41 <&>", 3, b"\xff" * 5), (b"8 bytes.", 3, b""), (b"", 1, text)]
    keys = [(b"na\xefve [x] / y, %41 <&>", [], []), (b"8 Bytes.", values, [])]
    control_set = hives.control_set(b"ControlSet001", [(b"Kinds", values, keys)], ["G"], {"G": [1]})
    made = hives.machine([control_set], (1, 1, 0, 0))
    return widened(widened(made, b"8 bytes.", "\u0416\u20ac\u3042z"), b"8 Bytes.", "\u03a9\u0416 k")


def stored_hives():
    """The hives of tests/runs, each one once, by the first folder that has it."""
    found = {}
    for file in sorted(glob.glob(os.path.join(TOP, "tests", "runs", "*", "hive"))):
        with open(file, "rb") as f:
            found.setdefault(f.read(), os.path.basename(os.path.dirname(file)))
    return [(name, hive) for hive, name in found.items() if len(hive) > 4096 and hive[:4] == b"regf"]


def made_hives():
    services = [hives.service(i, i % 3, i % 4, []) for i in range(8)]
    return [("all kinds", with_all_kinds()), ("services", hives.system(services, 4)), ("many services", hives.with_services(1200))]


# ---- scripts of edits

EVERY_EDIT = rf"""boot
make {BELOW}
set {BELOW} Number dword 4294967295
set {BELOW} Text sz "some words | of, a <text>"
set {BELOW} "Empty text" sz ""
set {BELOW} "" sz "of no name"
set {BELOW} Texts multi one "and two" three
set {BELOW} "No texts" multi
set {BELOW} "No bytes" binary ""
set {BELOW} "Three bytes" binary 00ff10
set {BELOW} "Four bytes" binary 01020304
set {BELOW} "Five bytes" binary 0102030405
make {BELOW}\Below
make "{BELOW}\Below\Further, at 100% / more"
set "{BELOW}\Below\Further, at 100% / more" Deep dword 7
make {BELOW}\Gone
set {BELOW}\Gone Number dword 1
flush
"""
MORE_EDITS = rf"""set {BELOW} Number dword 1
set {BELOW} "Four bytes" binary 0403020100
delete {BELOW} "Five bytes"
remove {BELOW}\Gone
"""
SCRIPTS = {
    "edits": EVERY_EDIT + MORE_EDITS + "off\n",
    "a save": EVERY_EDIT + "go\nlogon\n" + MORE_EDITS + "off\n",
}


def cut_scripts():
    """A cut within a commit, at each sync, with each choice of what is kept. Syncs 2 and 4 are those of the base block alone. Where that is torn,
    the file has zeros in its place, and nothing reads it."""
    for call in range(1, 5):
        for keep in ("none", "all", "odd") + (("torn",) if call in (1, 3) else ()):
            yield f"cut at sync {call} {keep}", EVERY_EDIT + MORE_EDITS + f"cut sync {call} {keep}\nflush\n"


def long_scripts():
    """Values that are as long as one cell of version 1.5 may be, and longer."""
    for size in (MOST_IN_ONE_CELL, SHORT_OF_ROOM, MOST_IN_ONE_CELL + 5, 20000, 2 * MOST_IN_ONE_CELL):
        data = bytes(i * i // 7 % 256 for i in range(size))
        yield size, f"boot\nset CurrentControlSet Long binary {data.hex()}\noff\n"


class Edits:
    """Random edits, each of which is accepted, and the tree after them."""

    def __init__(self, tree, seed):
        self.tree = {path: dict(values) for path, values in tree.items()}
        self.random = random.Random(seed)
        self.set = next(path for path in tree if path[1:] == ("ControlSet001",))

    def word(self):
        letters = "abcdefghijklmnopqrstuvwxyz0123456789 _-.,;:/|%&<>()[]'=#"
        return self.random.choice(letters[:26]) + "".join(self.random.choice(letters) for _ in range(self.random.randrange(8))) + "."

    def key(self, level=2):
        """A key of the set, from that many levels on."""
        return self.random.choice([path for path in self.tree if path[:2] == self.set and len(path) >= level])

    def path(self, path):
        return '"' + "\\".join(("CurrentControlSet",) + path[2:]) + '"'

    def value(self):
        """The words of a random value, its type and its data."""
        sort = self.random.choice(["dword", "sz", "multi", "binary"])
        if sort == "dword":
            number = self.random.randrange(2 ** 32)
            return f"dword {number}", 4, struct.pack("<I", number)
        if sort == "binary":
            data = self.random.randbytes(self.random.choice([0, 1, 3, 4, 5, 8, 40]))
            return f'binary "{data.hex()}"', 3, data
        words = [self.word() for _ in range(1 if sort == "sz" else self.random.randrange(4))]
        data = b"".join(word.encode("utf-16-le") + b"\0\0" for word in words)
        return " ".join([sort, *(f'"{word}"' for word in words)]), 1 if sort == "sz" else 7, data if sort == "sz" else data + b"\0\0"

    def edit(self):
        """One edit, done to the tree; and its line."""
        sort = self.random.choice(["set", "set", "set", "delete", "make", "make", "remove"])
        path = self.key(4 if sort == "remove" else 2)
        if sort == "remove":
            self.tree = {other: values for other, values in self.tree.items() if other[:len(path)] != path}
            return f"remove {self.path(path)}"
        if sort == "make":
            below = path + (self.word(),)
            self.tree.setdefault(below, {})
            return f"make {self.path(below)}"
        if sort == "delete" and self.tree[path]:
            name = self.random.choice(list(self.tree[path]))
            del self.tree[path][name]
            return f'delete {self.path(path)} "{name}"'
        name = self.random.choice([*self.tree[path], self.word()])
        said, kind, data = self.value()
        self.tree[path][name] = (kind, data)
        return f'set {self.path(path)} "{name}" {said}'

    def script(self):
        lines = ["boot"]
        for _ in range(RANDOM_EDITS):
            lines.append(self.edit())
            if self.random.randrange(20) == 0:
                lines.append("flush")
        return "\n".join([*lines, "off", ""])


# ---- the comparisons


class Peers:
    def __init__(self, program, room):
        self.program = program
        self.room = room
        self.passed = self.failed = 0

    def at(self, name):
        return os.path.join(self.room, name)

    def judge(self, what, told, wanted, known=""):
        """Counts whether both have the same keys and values, and prints what only one has; or says alone what is known of it."""
        told, wanted = (collections.Counter(repr(one) for one in listed) for listed in (told, wanted))
        if told == wanted:
            self.passed += 1
            return
        if known:
            print(f"{what}: known: {known}")
            return
        self.failed += 1
        print(f"{what}: differs")
        for whose, only in (("only it has", told - wanted), ("it lacks", wanted - told)):
            for one in sorted(only.elements())[:4]:
                print(f"    {whose} {one[:300]}")

    def attempt(self, what, check):
        """A check that ends early, at a program that refuses or a text without sense, has failed."""
        try:
            return check()
        except (ValueError, KeyError, IndexError, AttributeError, xml.etree.ElementTree.ParseError, subprocess.TimeoutExpired) as why:
            self.failed += 1
            print(f"{what}: {type(why).__name__} {why}"[:600])
            return None

    def show(self, *files):
        return ran(self.program, "show", *(word for pair in zip(("--hive", "--log"), files) for word in pair))

    def ask(self, what, image, known=""):
        """Each tool about a clean image."""
        tree = self.attempt(f"{what}: show", lambda: tree_of(self.show(image)))
        for tool, (tells, of) in TOOLS.items() if tree else ():
            self.attempt(f"{what}: {tool}", lambda: self.judge(f"{what}: {tool}", tells(image), of(tree), known))

    def run(self, script, saved, *given):
        """A run that saves both files, and its report."""
        with open(self.at("script"), "w", encoding="ascii") as f:
            f.write(script)
        files = [word for pair in zip(("--hive", "--log"), given) for word in pair]
        saves = ["--save-hive", saved, "--save-log", saved + ".log"]
        return ran(self.program, "run", *files, "--script", self.at("script"), *saves).decode()

    def is_clean(self, image):
        """Whether `show` reads it without a log."""
        return subprocess.run([self.program, "show", "--hive", image], capture_output=True, timeout=300).returncode == 0

    def reads(self, hive):
        with open(self.at("given"), "wb") as f:
            f.write(hive)
        return self.is_clean(self.at("given"))

    def saved(self, what, hive, script, known=""):
        """A run over a hive, and each tool about what it saved. Whether its log was needed, and the report."""
        with open(self.at("given"), "wb") as f:
            f.write(hive)
        report = self.run(script, self.at("image"), self.at("given"))
        if self.is_clean(self.at("image")):
            self.ask(what, self.at("image"), known)
            return False, report
        said = self.show(self.at("image"), self.at("image.log"))
        self.run("boot\noff\n", self.at("clean"), self.at("image"), self.at("image.log"))
        self.judge(f"{what}: recovered", self.show(self.at("clean")).splitlines(), said.splitlines())
        self.ask(f"{what}, recovered", self.at("clean"))
        return True, report

    def made(self):
        for number in NUMBERS_MADE:
            ran(self.program, "make", str(number), "--save-hive", self.at("image"))
            self.ask(f"make {number}", self.at("image"))

    def edited(self):
        """Every hive that is read, in both versions, with each script. In some of those stored no start takes a set, so no edit is taken."""
        commits = collections.Counter()
        for name, hive in made_hives() + stored_hives():
            for minor in MINORS if self.reads(hive) else ():
                given = as_read_by_tools(hive, minor)
                for script_name, script in SCRIPTS.items() if self.reads(given) else ():
                    what = f"{name} 1.{minor}, {script_name}"
                    found = self.attempt(what, lambda: self.saved(what, given, script))
                    commits.update(re.findall("^commit (\\w+)", found[1], re.M) if found else ())
        self.judge("commits of all sorts", commits, ["flush", "off", "save", "begin"])

    def refused_nothing(self, what, found, commits):
        """The run's edits and commits were all done."""
        report = found[1] if found else ""
        self.judge(f"{what}: report", [line for line in report.splitlines() if line.startswith("refused")], [])
        self.judge(f"{what}: commits", [len(re.findall("^commit ", report, re.M)) >= commits], [True])

    def cut(self):
        dirty = 0
        for minor in MINORS:
            hive = as_read_by_tools(hives.system([hives.service(i, i % 3, i % 4, []) for i in range(8)], 4), minor)
            for script_name, script in cut_scripts():
                what = f"1.{minor}, {script_name}"
                found = self.attempt(what, lambda: self.saved(what, hive, script))
                self.refused_nothing(what, found, 1)
                dirty += bool(found and found[0])
        self.judge("cuts that left a dirty image", [dirty > 0], [True])

    def long(self):
        for minor in MINORS:
            hive = as_read_by_tools(hives.system([hives.service(0, 0, 0, [])], 1, 1), minor)
            for size, script in long_scripts():
                what = f"1.{minor}, {size} bytes"
                known = "the end of the last segment is lost" if minor == 5 and size == SHORT_OF_ROOM else ""
                self.refused_nothing(what, self.attempt(what, lambda: self.saved(what, hive, script, known)), 1)

    def random(self):
        """A thousand edits, in runs of which each begins with what the one before it saved."""
        for minor in MINORS:
            hive = as_read_by_tools(hives.system([hives.service(i, i % 3, i % 4, []) for i in range(192)], 4), minor)
            for number in range(RANDOM_RUNS):
                what = f"random edits in 1.{minor}, run {number + 1}"
                with open(self.at("given"), "wb") as f:
                    f.write(hive)
                edits = Edits(tree_of(self.show(self.at("given"))), number)
                script = edits.script()
                self.refused_nothing(what, self.attempt(what, lambda: self.saved(what, hive, script)), 2)
                self.judge(f"{what}: edits", values_in(tree_of(self.show(self.at("image")))), values_in(edits.tree))
                with open(self.at("image"), "rb") as f:
                    hive = f.read()


def main(words):
    absent = [f"{tool} is absent: apt-get install {package}" for tool, package in PACKAGES.items() if not shutil.which(tool)]
    if len(words) != 1 or not os.path.exists(words[0]):
        absent.append("bench/peers.py PROGRAM: a program that is built")
    if absent:
        print("\n".join(absent))
        return 1
    with tempfile.TemporaryDirectory() as room:
        peers = Peers(os.path.abspath(words[0]), room)
        for part in (peers.made, peers.edited, peers.cut, peers.long, peers.random):
            part()
    print(f"{peers.passed} passed, {peers.failed} failed")
    return 1 if peers.failed or not peers.passed else 0


if __name__ == "__main__":
    sys.exit(main(sys.argv[1:]))

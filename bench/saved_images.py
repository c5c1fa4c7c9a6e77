#!/usr/bin/env python3
"""Looks in each image that the built programs save for what Windows relies on and a reader of the tree ignores (hive_rules.py):
bench/saved_images.py PROGRAM [NTMEND] [--rows FOLDER].. No gate runs it. Prints each finding, a line for each source, then 'N images, N findings'.

The images are those of tests/runs, of the examples, of each folder that is named, which has runs in the same form, and of large hives made here, in
both versions. Where a command can save and a run doesn't ask for it, it is asked. Each run is made once more, its hive put right before: with
security, and without what the check would find in it. An image that needs its log is recovered first.

What was wrong in the image that a run began with, as much or more, is no finding: the same kind at the same key, or as many of the kind where they
belong to no key. Of a security cell any of the keys that use it decides. The check itself is tried first: it finds nothing in sound hives, and
something wherever a byte is changed that it looks at."""
import functools
import os
import subprocess
import sys
import tempfile

HERE = os.path.dirname(os.path.abspath(__file__))
sys.path.insert(0, HERE)
import hives
from hive_rules import Bins, judged, more, recovered, sound
from peers import widened

RUNS = os.path.join(HERE, "..", "tests", "runs")
EXAMPLES = os.path.join(HERE, "..", "examples")
NO_INPUTS = ("words", "stdout", "stderr", "status", "after", "command", "since", "until", "tree", "program")
BOTH = ("--save-hive", "--save-log")
SAVES = {"run": BOTH, "import": BOTH, "twin": ("--save-hive", "--save-alt"), "salvage": BOTH[:1], "replay": BOTH[:1], "make": BOTH[:1]}
PRINTED = 10
LOGON = "go\nlogon\nset CurrentControlSet\\Services\\S000001 Start dword 2\noff\nboot\ngo\nlogon\n"
EDITS = {
    "a value set": "set A V binary 0102030405060708090a0b0c\nflush\nset A V dword 7\nset A V16 binary 00\n",
    "values of a longer name and longer data": 'set A "A longer name" sz "and longer data than any other value has"\n',
    "keys made": 'make A\\K\nflush\nmake "A\\A longer name than any"\nmake CurrentControlSet\\Services\\S024000a\n',
    "deletions": "delete A V\nflush\nremove CurrentControlSet\\Services\\S001000\nremove A\n",
}
IMPORTED = ["[HKEY_LOCAL_MACHINE\\SYSTEM\\A]", '"V"=dword:00000007', '"\u0416\u20ac"="text"', '"Long"=hex:' + ",".join(["07"] * 40_000), "",
            "[HKEY_LOCAL_MACHINE\\SYSTEM\\A\\\u0416\u20ac]", '@="text"', "", "[HKEY_LOCAL_MACHINE\\SYSTEM\\ControlSet001\\Services\\S000999]",
            '"Start"=-', "", "[-HKEY_LOCAL_MACHINE\\SYSTEM\\ControlSet001\\Services\\S001000]", ""]


class Watched(Bins):
    """The check, which keeps the places that it looks at. Of a field that may have more, only a change of the bytes that it needs can be found."""

    def __init__(self, *parts):
        self.looked = set()
        super().__init__(*parts)

    def number(self, at, size=4):
        self.looked.update(range(at, at + size))
        return super().number(at, size)

    def field(self, kind, path, at, right, size=4, least=False):
        super().field(kind, path, at, right, size, least)
        if least:
            self.looked.difference_update(range(at + (right.bit_length() + 7) // 8, at + size))


def kinds(told):
    return {kind for kind, _ in [*told.found, *told.of_security]}


def try_check():
    """Small hives, a wide name of a key and of a value among theirs, and each byte that the check looks at turned."""
    found, count = set(), 0
    for minor in (3, 5):
        hive = sound(widened(widened(hives.with_a_key(2, 2), b"Select", "\u0416\u20acz"), b"V1", "\u0416"), minor)
        told = judged(hive, how=Watched)
        if kinds(told):
            sys.exit(f"of a sound hive the check finds {kinds(told)}")
        for at in [*range(512), *(4096 + at for at in sorted(told.looked))]:
            told = [kinds(judged(hive[:at] + bytes([hive[at] ^ turned]) + hive[at + 1:])) for turned in (1, 8, 0x80, 0xFF, hive[at]) if turned]
            if not any(told):
                sys.exit(f"the check does not find that byte {at} is changed")
            found, count = found.union(*told), count + 1
    print(f"the check: {count} bytes changed, findings of {len(found)} kinds")


def option(words, name):
    """What an option is given, as a word of its own or behind an equals sign."""
    for word, behind in zip(words, [*words[1:], None]):
        if word == name or word.startswith(name + "="):
            return behind if word == name else word.partition("=")[2]
    return None


def read(path):
    with open(path, "rb") as f:
        return f.read()


def run(program, files, words):
    """The files of a folder after a run in it."""
    with tempfile.TemporaryDirectory() as room:
        for name, data in files.items():
            with open(os.path.join(room, name), "wb") as f:
                f.write(data)
        subprocess.run([program, *words], cwd=room, stdout=subprocess.DEVNULL, stderr=subprocess.DEVNULL, timeout=600)
        return {name: read(os.path.join(room, name)) for name in os.listdir(room) if os.path.isfile(os.path.join(room, name))}


@functools.lru_cache(4)
def begun(hive, log):
    told = judged(hive, log)
    if not hive:
        told.found.clear()
    return told


class Looks:
    """The runs of a source, the images that they saved, those of them that are not a file of the run as it was, and the findings."""

    def __init__(self, source, programs):
        self.source, self.programs = source, programs
        self.runs = self.images = self.new = self.findings = 0

    def look(self, name, files, words, mended=False):
        """A run as it is, and with its hive put right."""
        hive = words[0] if mended and words else option(words, "--hive")
        self.once(name, files, words, mended)
        right = sound(files[hive]) if hive in files else None
        if right and right != files[hive]:
            self.once(name + ", put right", {**files, hive: right}, words, mended)

    def once(self, name, files, words, mended=False):
        """A run, with what it began with and what it saved: a hive and its log, or of a twin each of its copies."""
        command = next((word for word in words if word in SAVES), None)
        if self.programs[mended] is None or not mended and command is None:
            return
        if not mended:
            behind = words.index(command) + 1
            asked = [word for save in SAVES[command] if option(words, save) is None for word in (save, save[2:])]
            words = [*words[:behind], *asked, *words[behind:]]
        self.runs += 1
        after = run(self.programs[mended], files, words)
        hive, log, alt, saved, saved_log, saved_alt = (option(words, "--" + name) for name in ("hive", "log", "alt", "save-hive", "save-log", "save-alt"))
        if mended:
            hive, log, saved, saved_log = [*words, "", ""][:2] * 2
        begin, images = (files.get(hive, b""), files.get(log, b"")), [(saved, saved_log)]
        if command == "twin" and option(words, "--scheme") == "log":
            begin, images = (begin[0], files.get(alt, b"")), [(saved, saved_alt)]
        elif command == "twin":
            begin = (files.get(alt, b"") if recovered(begin[0])[2] else begin[0], b"")
            images = [(saved, None), (saved_alt, None)]
        for image, image_log in images:
            if image in after:
                self.judge(f"{self.source}, {name}", begin, (after[image], after.get(image_log, b"")), after[image] in files.values())

    def judge(self, name, begin, image, known):
        found = [] if known else sorted(more(begun(*begin), judged(*image)), key=str)
        self.images += 1
        self.new += not known
        self.findings += len(found)
        for kind, path, amount in found[:PRINTED]:
            print(f"{name}: {kind}, {amount}" + ("" if path is None else " at " + ascii("\\".join(path))))
        if len(found) > PRINTED:
            print(f"{name}: {len(found) - PRINTED} more")

    def end(self):
        print(f"{self.source}: {self.runs} runs, {self.images} images, {self.new} of them not as a file before, {self.findings} findings", flush=True)
        return self


def inputs(folder):
    return {name: read(os.path.join(folder, name)) for name in os.listdir(folder) if name not in NO_INPUTS and os.path.isfile(os.path.join(folder, name))}


def of_runs(folder, looks):
    for name in sorted(os.listdir(folder)):
        parts = os.path.join(folder, name)
        if os.path.exists(os.path.join(parts, "words")):
            mended = name.startswith("ntmend_") or os.path.exists(os.path.join(parts, "program"))
            looks.look(name, inputs(parts), read(os.path.join(parts, "words")).decode().split("\n")[:-1], mended)
    return looks.end()


def of_examples(looks):
    for name in sorted(os.listdir(EXAMPLES)):
        for line in read(os.path.join(EXAMPLES, name, "command")).decode().splitlines():
            looks.look(f"{name}: {line}", inputs(os.path.join(EXAMPLES, name)), line.partition(" > ")[0].split()[1:])
    return looks.end()


def of_large_hives(looks):
    text = b"\xff\xfe" + "".join(line + "\r\n" for line in ["Windows Registry Editor Version 5.00", "", *IMPORTED]).encode("utf-16-le")
    for minor in (3, 5):
        for what, made, scripts in (
            ("48,000 services", hives.with_a_key(48_000), EDITS),
            ("200,000 values", hives.with_a_key(1_100, 200_000), {"deletions": "delete A V1\nflush\ndelete A V100000\nset A V7 dword 7\n"}),
            ("a set that is copied in place", hives.with_a_key(12, 200_000), {"two logons": LOGON}),
            ("a set that is copied as the hive is packed", hives.with_a_key(5_000, 100_000), {"two logons": LOGON}),
        ):
            files = {"hive": sound(made, minor), "reg": text}
            for name, lines in scripts.items():
                looks.once(f"1.{minor}, {what}, {name}", {**files, "script": f"boot\n{lines}off\n".encode()}, ["run", "--hive", "hive", "--script", "script"])
            for words in (["import", "--hive", "hive", "--reg", "reg"], ["salvage", "--hive", "hive"]) if scripts is EDITS else ():
                looks.once(f"1.{minor}, {what}, {words[0]}", files, words)
    looks.once("10,000 services, make", {}, ["make", "10000"])
    return looks.end()


def main(words):
    folders = [word for before, word in zip(words, words[1:]) if before == "--rows"]
    named = [word for before, word in zip([None, *words], words) if "--rows" not in (before, word)]
    programs = [*map(os.path.abspath, named), None][:2]
    try_check()
    told = [of_runs(folder, Looks(name, programs)) for name, folder in [("tests/runs", RUNS), *((folder, folder) for folder in folders)]]
    told += [of_examples(Looks("examples", programs)), of_large_hives(Looks("large hives", programs))]
    images, findings = sum(one.images for one in told), sum(one.findings for one in told)
    print(f"{images} images, {findings} findings")
    return 1 if findings or not images else 0


if __name__ == "__main__":
    sys.exit(main(sys.argv[1:]))

#!/usr/bin/env python3
"""Explores what a kill, a loss of power, a failed call or a short count leaves of a save and of a repair:
bench/crash_states.py NTBOOT NTMEND [--few] [--only CASE]. No gate runs it. It needs strace (Debian: apt-get install strace), and cc for shorten.c.

Each case is a run that saves a hive and its log over its own input, or a repair in place, in a folder of its own.
1. States of power loss. The system calls of the run are recorded. After each one every state is made that a file system may then leave: of the
   writes to a file since its last sync any subset, in sectors of 512 bytes; of the names that were made, moved or removed since the folder's last sync
   any subset. Where there are over 512 subsets of sectors, none, all, each one alone, each one missing and 64 at random are taken. In each state `show`
   has to tell the tree from before the run or the one after it; the run is then made again on a sample of the states, and has to end.
2. Faults. Each call that the program makes fails in turn, with each of EIO, ENOSPC, EDQUOT and EINTR: the tree is then the old or the new one, the new
   one where the exit is 0, no new file is left over but where its removal failed, and the run made again ends its work.
3. Kills. The run is killed at each call: the same, but that a new file may be left, and does not stop the run that follows.
4. Short counts. Each read and write moves half of the bytes that it asks for, or one byte, and then each of one run moves at most that many: the run
   ends as it does without, prints the same, and leaves the same files.
Prints the counts. --few takes each third fault, kill and short count.
"""
import itertools
import os
import random
import re
import shutil
import struct
import subprocess
import sys
import tempfile

HERE = os.path.dirname(os.path.abspath(__file__))
sys.path.insert(0, HERE)
import hives

RUNS = os.path.join(HERE, "..", "tests", "runs")
CALLS = "openat,read,pread64,write,pwrite64,fsync,fdatasync,rename,renameat,renameat2,unlink,unlinkat,fchmod,fchown,statx,flock,close,readlink,ftruncate"
SECTOR, MOST = 512, 512
ERRORS = ("EIO", "ENOSPC", "EDQUOT", "EINTR")
ENVIRON = dict(os.environ, ASAN_OPTIONS="detect_leaks=0")


class Case:
    def __init__(self, name, files, words, program):
        self.name, self.files, self.words, self.program = name, files, words, program


def read(*path):
    try:
        with open(os.path.join(*path), "rb") as f:
            return f.read()
    except FileNotFoundError:
        return None


def fill(room, files):
    for name in os.listdir(room):
        os.remove(os.path.join(room, name))
    for name, data in files.items():
        with open(os.path.join(room, name), "wb") as f:
            f.write(data)


def run(words, room):
    return subprocess.run(words, cwd=room, capture_output=True, check=False, env=ENVIRON, timeout=60)


class Shown:
    """What `show` prints of a hive and a log; each pair is asked once."""

    def __init__(self, ntboot):
        self.ntboot, self.seen = ntboot, {}
        self.room = tempfile.TemporaryDirectory()

    def tree(self, hive, log):
        """The tree without the line of its number, or what is printed where it does not load."""
        pair = hive, log
        if pair not in self.seen:
            fill(self.room.name, {name: data for name, data in (("hive", hive), ("log", log)) if data is not None})
            words = [self.ntboot, "show", "--hive", "hive"] + (["--log", "log"] if log is not None else [])
            done = run(words, self.room.name)
            self.seen[pair] = done.stdout.partition(b"\n")[2] if done.returncode == 0 else b"exit %d: %s" % (done.returncode, done.stdout)
        return self.seen[pair]


# ---- the calls of a run

LINE = re.compile(r"^(?:\d+ +)?(\w+)\((.*)\) += (-?\d+)")
TEXT = re.compile(r'"((?:\\x[0-9a-f]{2})*)"')


def text(part):
    return bytes.fromhex(part.replace("\\x", ""))


def traced(case, room, *more):
    """Runs the case under strace. The answer is its exit and the lines of the trace from the first call of the program itself on."""
    fill(room, case.files)
    with tempfile.NamedTemporaryFile() as out:
        words = ["strace", "-xx", "-s", "100000000", "-o", out.name, "-e", "trace=" + CALLS, *more, case.program, *case.words]
        done = run(words, room)
        lines = read(out.name).decode("latin-1").splitlines()
    null = "".join(f"\\x{c:02x}" for c in b"/dev/null")
    first = next((i for i, line in enumerate(lines) if null in line), len(lines))
    return done, lines, first


class Inode:
    def __init__(self, data=b""):
        self.held, self.flight = data, []

    def parts(self):
        """The writes in flight, each cut at the sectors of the file."""
        for at, data in self.flight:
            while data:
                n = SECTOR - at % SECTOR
                yield at, data[:n]
                at, data = at + n, data[n:]

    def with_parts(self, kept):
        out = bytearray(self.held)
        for keep, (at, data) in zip(kept, self.parts()):
            if keep:
                if len(out) < at:
                    out += bytes(at - len(out))
                out[at : at + len(data)] = data
        return bytes(out)

    def sync(self):
        self.held, self.flight = self.with_parts(itertools.repeat(True)), []

    def states(self, named):
        count = len(list(self.parts()))
        if 2**count <= MOST and named:
            kept = itertools.product((False, True), repeat=count)
        else:
            kept = [[False] * count, [True] * count]
            if named:
                kept += [[i == j for i in range(count)] for j in range(count)] + [[i != j for i in range(count)] for j in range(count)]
            kept += [[random.random() < 0.5 for _ in range(count)] for _ in range(64 if named else 1)]
        return {self.with_parts(k) for k in kept}


class Disk:
    """A folder as a file system may keep it: the names that are there for good, and what was done to them since."""

    def __init__(self, files):
        self.names = {name: Inode(data) for name, data in files.items()}
        self.now, self.ops, self.open = dict(self.names), [], {}

    def do(self, op):
        self.ops.append(op)
        self.change(self.now, op)

    @staticmethod
    def change(names, op):
        kind, name, what = op
        if kind == "put":
            names[name] = what
        elif kind == "move":
            names.pop(name, None)
            names[what[0]] = what[1]
        else:
            names.pop(name, None)

    def states(self):
        for kept in itertools.product((False, True), repeat=len(self.ops)):
            names = dict(self.names)
            for keep, op in zip(kept, self.ops):
                if keep:
                    self.change(names, op)
            for inode in set(names.values()):
                inode.named = names.get("hive") is inode or names.get("log") is inode
            for contents in itertools.product(*(sorted(inode.states(inode.named)) for inode in names.values())):
                yield dict(zip(names, contents))

    def call(self, line):
        """Follows a call; whether it changed what may be left."""
        found = LINE.match(line)
        if not found or int(found[3]) < 0:
            return False
        name, words, answer = found[1], found[2], int(found[3])
        paths = [os.path.normpath(text(t).decode("latin-1")) for t in TEXT.findall(words)] if not name.endswith(("write", "write64", "read", "pread64")) else []
        fd = int(words.split(",")[0]) if words.split(",")[0].isdigit() else None
        if name == "openat":
            if paths[0] == ".":
                self.open[answer] = self
            elif paths[0] in self.now:
                self.open[answer] = [self.now[paths[0]], 0]
            elif "O_CREAT" in words:
                inode = Inode()
                self.open[answer] = [inode, 0]
                self.do(("put", paths[0], inode))
                return True
            else:
                self.open.pop(answer, None)
        elif name == "close":
            self.open.pop(fd, None)
        elif name in ("write", "pwrite64") and isinstance(self.open.get(fd), list):
            inode, at = self.open[fd]
            data = text(TEXT.search(words)[1])[:answer]
            if name == "pwrite64":
                at = int(words.rsplit(",", 1)[1])
            else:
                self.open[fd][1] = at + answer
            inode.flight.append((at, data))
            return True
        elif name in ("fsync", "fdatasync") and fd in self.open:
            if self.open[fd] is self:
                self.names, self.ops = dict(self.now), []
            else:
                self.open[fd][0].sync()
            return True
        elif name.startswith("rename"):
            self.do(("move", paths[0], (paths[1], self.now[paths[0]])))
            return True
        elif name.startswith("unlink"):
            self.do(("gone", paths[0], None))
            return True
        return False


# ---- the four explorations

def wrong(case, how, tree):
    sys.exit(f"{case.name}: {how}: {tree[:200]!r}")


def left_over(room):
    return [name for name in os.listdir(room) if name.startswith(".ntboot-new")]


def power_losses(case, room, shown, trees):
    done, lines, first = traced(case, room)
    if done.returncode != 0:
        wrong(case, "the run itself", done.stdout)
    disk, count, points, samples = Disk(case.files), 0, 0, []
    for line in lines[first:]:
        if not disk.call(line):
            continue
        points += 1
        states = list(disk.states())
        for state in states:
            tree = shown.tree(state.get("hive"), state.get("log"))
            if tree not in trees:
                wrong(case, f"power loss after {line[:60]}", tree)
        count += len(states)
        samples += random.sample(states, min(2, len(states)))
    for state in samples:
        fill(room, state)
        again(case, room, shown, trees, "after a power loss")
    return points, count


def again(case, room, shown, trees, how):
    done = run([case.program, *case.words], room)
    if done.returncode != 0:
        wrong(case, "the next run " + how, done.stdout)
    tree = shown.tree(read(room, "hive"), read(room, "log"))
    if tree.startswith(b"exit") or case.words[0] != "run" and tree != trees[1]:
        wrong(case, "what the next run leaves " + how, tree)


def calls(lines, first):
    """Each call of the program itself: its name, and which one of this name it is in the whole run."""
    seen = {}
    for i, line in enumerate(lines):
        found = re.match(r"^(?:\d+ +)?(\w+)\(", line)
        if found:
            seen[found[1]] = seen.get(found[1], 0) + 1
            if i >= first:
                yield found[1], seen[found[1]]


def faults(case, room, shown, trees, step):
    _, lines, first = traced(case, room)
    made = list(calls(lines, first))
    count, exits = 0, {}
    for n, ((name, which), error) in enumerate(itertools.product(made, ERRORS)):
        if n % step:
            continue
        done, _, _ = traced(case, room, "-e", f"inject={name}:error={error}:when={which}")
        how = f"{error} at {name} {which}, exit {done.returncode}"
        tree = shown.tree(read(room, "hive"), read(room, "log"))
        if tree not in trees or done.returncode not in (0, 2, 6, 7, 9, 11) or done.returncode == 0 and tree != trees[1]:
            wrong(case, how, tree)
        if left_over(room) and not name.startswith("unlink"):
            wrong(case, how, b"a new file is left")
        exits[done.returncode] = exits.get(done.returncode, 0) + 1
        count += 1
        again(case, room, shown, trees, how)
    return count, exits


def kills(case, room, shown, trees, step):
    _, lines, first = traced(case, room)
    count = 0
    for name, which in list(calls(lines, first))[::step]:
        traced(case, room, "-e", f"inject={name}:signal=KILL:when={which}")
        tree = shown.tree(read(room, "hive"), read(room, "log"))
        if tree not in trees:
            wrong(case, f"killed at {name} {which}", tree)
        count += 1
        again(case, room, shown, trees, f"killed at {name} {which}")
    return count


def shortened(case, room, shorten, which, most):
    """Runs the case with short counts. The answer is what it prints, its exit, the files that it leaves, and how many reads and writes there were."""
    fill(room, case.files)
    with tempfile.NamedTemporaryFile() as out:
        done = run([shorten, out.name, str(which), str(most), case.program, *case.words], room)
        count = int(read(out.name))
    return (done.returncode, done.stdout, {name: read(room, name) for name in sorted(os.listdir(room))}), count


def shorts(case, room, shorten, step):
    """No read or write has its count shortened in the run that the others are compared with."""
    whole, count = shortened(case, room, shorten, 0, 1 << 40)
    if whole[0] != 0 or count == 0:
        wrong(case, "the run itself", whole[1])
    tried = [*itertools.product(range(1, count + 1, step), (0, 1)), *((0, most) for most in (1, 7, 511, 513, 4095))]
    for which, most in tried:
        if shortened(case, room, shorten, which, most)[0] != whole:
            wrong(case, f"short counts, {which} of {count}, at most {most}", b"another end")
    return len(tried)


# ---- the cases

def grown(count):
    """A hive of that many keys in which a free cell of three pages stands before the root, and another bin of one page after all."""
    free = struct.pack("<i", 12_288) + bytes(12_284)
    cells, _ = hives.layout((b"ROOT", [], [(b"K%06d" % i, [hives.dword(b"V", i)], []) for i in range(count)]), 32 + len(free))
    packed = hives.hive(free + cells)
    size = len(packed) - 4096
    last = b"hbin" + struct.pack("<II", size, 4096) + bytes(20) + struct.pack("<i", 4064) + bytes(4060)
    return hives.base_block(size + 4096, root=32 + len(free)) + packed[4096:] + last


def cases(ntboot, ntmend, room):
    """Saves over one's own files from a clean and a dirty pair to a clean and a dirty one, and mendings."""
    start = os.path.join(RUNS, "cut_in_a_save_and_in_two_recoveries")
    hive = read(start, "hive")
    save = ["run", "--hive", "hive", "--log", "log", "--script", "script", "--save-hive", "hive", "--save-log", "log"]
    scripts = {"clean": b"boot\ngo\nlogon\n", "dirty": b"boot\ngo\ncut sync 3 none\nlogon\n"}
    fill(room, {"hive": hive, "log": b"", "script": scripts["dirty"]})
    run([ntboot, *save], room)
    pairs = {"clean": {"hive": hive, "log": b""}, "dirty": {"hive": read(room, "hive"), "log": read(room, "log")}}
    for (before, pair), (after, script) in itertools.product(pairs.items(), scripts.items()):
        yield Case(f"run, {before} to {after}", dict(pair, script=script), save, ntboot)
    reg = os.path.join(RUNS, "import_of_one_value")
    yield Case("import", {"hive": read(reg, "hive"), "log": b"", "reg": read(reg, "reg")},
               ["import", "--hive", "hive", "--log", "log", "--reg", "reg", "--save-hive", "hive", "--save-log", "log"], ntboot)
    for name in ("ntmend_recovers", "ntmend_packs"):
        yield Case(name, {"hive": read(RUNS, name, "hive"), "log": read(RUNS, name, "log")}, ["hive", "log"], ntmend)
    yield Case("ntmend of 200 keys", {"hive": grown(200), "log": b""}, ["hive", "log"], ntmend)


def main(words):
    random.seed(1)
    step = 3 if "--few" in words else 1
    only = words[words.index("--only") + 1] if "--only" in words else ""
    ntboot, ntmend = (os.path.abspath(w) for w in words[:2])
    shown = Shown(ntboot)
    with tempfile.TemporaryDirectory() as room, tempfile.TemporaryDirectory() as made:
        shorten = os.path.join(made, "shorten")
        subprocess.run(["cc", "-O2", "-o", shorten, os.path.join(HERE, "shorten.c")], check=True)
        for case in cases(ntboot, ntmend, room):
            if only not in case.name:
                continue
            fill(room, case.files)
            old = shown.tree(case.files["hive"], case.files["log"])
            run([case.program, *case.words], room)
            trees = old, shown.tree(read(room, "hive"), read(room, "log"))
            points, states = power_losses(case, room, shown, trees)
            print(f"{case.name}: {states} states of power loss at {points} calls", flush=True)
            count, exits = faults(case, room, shown, trees, step)
            print(f"{case.name}: {count} failed calls, exits {exits}", flush=True)
            print(f"{case.name}: {kills(case, room, shown, trees, step)} kills", flush=True)
            print(f"{case.name}: {shorts(case, room, shorten, step)} runs with short counts", flush=True)


main(sys.argv[1:])

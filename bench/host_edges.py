#!/usr/bin/env python3
"""Tries what a host may put in the way of a save or of a repair: bench/host_edges.py NTBOOT NTMEND. No gate runs it. Run as root, it also tries another
user's rights and a file system that fills up; else it says that it left them out.

Each edge is a run in a folder of its own: its exit, what the files then are, and that no new file is left over. Prints one line for each edge.
"""
import os
import resource
import signal
import stat
import subprocess
import sys
import tempfile
import time

sys.path.insert(0, os.path.dirname(os.path.abspath(__file__)))
import hives

RUNS = os.path.join(os.path.dirname(os.path.abspath(__file__)), "..", "tests", "runs")
NOBODY = 65534
ENVIRON = dict(os.environ, ASAN_OPTIONS="detect_leaks=0")


def read(*path):
    with open(os.path.join(*path), "rb") as f:
        return f.read()


def write(path, data=b""):
    with open(path, "wb") as f:
        f.write(data)


OLD, REG = read(RUNS, "import_of_one_value", "hive"), read(RUNS, "import_of_one_value", "reg")
PACKS = read(RUNS, "ntmend_packs", "hive"), read(RUNS, "ntmend_packs", "log")
BIG = hives.with_children(100_000)


class Edges:
    def __init__(self, ntboot, ntmend):
        self.ntboot, self.ntmend, self.count = ntboot, ntmend, 0

    def run(self, room, words, **how):
        return subprocess.run(words, cwd=room, capture_output=how.pop("capture", True), check=False, env=ENVIRON, timeout=120, **how)

    def save(self, room, hive, log, **how):
        """An import over the hive `h` with the log `l`, saved under these names."""
        return self.run(room, [self.ntboot, "import", "--hive", "h", "--log", "l", "--reg", "reg", "--save-hive", hive, "--save-log", log], **how).returncode

    def mend(self, room, hive="h", log="l", **how):
        return self.run(room, [self.ntmend, hive, log], **how).returncode

    def loads(self, room, hive="h"):
        return self.run(room, [self.ntboot, "show", "--hive", hive, "--log", "l"]).stdout.partition(b"\n")[2]

    def holds(self, name, got, wanted):
        if got != wanted:
            sys.exit(f"{name}: {str(got)[:300]}, and not {str(wanted)[:300]}")
        self.count += 1
        print(f"{name}: {got if isinstance(got, int) else got[0]}")


def filled(room, hive=OLD, log=b""):
    write(f"{room}/h", hive)
    write(f"{room}/l", log)
    write(f"{room}/reg", REG)


def room_of(call):
    """Gives each edge a folder of its own with a hive `h`, a log `l` and a text `reg`; another user may write there."""
    def within(edges):
        with tempfile.TemporaryDirectory() as room:
            os.chmod(room, 0o777)
            filled(room)
            call(edges, room)
    return within


def left(room):
    """What the folder has beside the inputs."""
    return sorted(set(os.listdir(room)) - {"h", "l", "reg"})


def new_hive(edges):
    with tempfile.TemporaryDirectory() as room:
        filled(room)
        edges.holds("a save beside", (edges.save(room, "n", "m"), left(room)), (0, ["m", "n"]))
        return read(room, "n"), read(room, "m")


# ---- saves

@room_of
def one_file(edges, room):
    os.mkdir(f"{room}/d")
    os.symlink("..", f"{room}/d/up")
    os.symlink("h", f"{room}/s")
    for name in ("./h", "d/../h", "d/up/h", "s"):
        status = edges.save(room, "h", name)
        edges.holds(f"the hive and the log are one file, by {name}", (status, read(room, "h") == OLD, left(room)), (7, True, ["d", "s"]))


@room_of
def hard_link(edges, room):
    new, log = new_hive(edges)
    os.link(f"{room}/h", f"{room}/k")
    status = edges.save(room, "h", "k")
    edges.holds("the log is a hard link of the hive", (status, read(room, "h") == new, read(room, "k") == log, left(room)), (0, True, True, ["k"]))


@room_of
def one_name(edges, room):
    _, log = new_hive(edges)
    edges.holds("one name for both has the log", (edges.save(room, "n", "n"), read(room, "n") == log, left(room)), (0, True, ["n"]))


@room_of
def through_a_link(edges, room):
    new, _ = new_hive(edges)
    os.symlink("h", f"{room}/s")
    os.symlink("made", f"{room}/t")
    status = edges.save(room, "s", "t")
    edges.holds("links stay, and what they name is saved, or made", (status, read(room, "h") == new, os.readlink(f"{room}/s"), left(room)), (0, True, "h", ["made", "s", "t"]))
    os.symlink("round", f"{room}/round")
    status = edges.save(room, "round", "m")
    edges.holds("a link to itself", (status, left(room)), (7, ["made", "round", "s", "t"]))


@room_of
def special(edges, room):
    os.mkdir(f"{room}/d")
    edges.holds("a folder", (edges.save(room, "d", "m"), left(room)), (7, ["d"]))
    edges.holds("a folder that isn't there", (edges.save(room, "e/n", "m"), left(room)), (7, ["d"]))
    edges.holds("a name that ends in a slash", (edges.save(room, "n/", "m"), left(room)), (7, ["d"]))
    edges.holds("/dev/null for both", (edges.save(room, "/dev/null", "/dev/null"), left(room)), (0, ["d"]))
    edges.holds("/dev/full for the log", (edges.save(room, "h", "/dev/full"), read(room, "h") == OLD, left(room)), (7, True, ["d"]))


@room_of
def names(edges, room):
    for count in (255, 256):
        long, wanted = "n" * count, 0 if count == 255 else 7
        edges.holds(f"a name of {count} bytes", (edges.save(room, long, "m"), long in left(room)), (wanted, wanted == 0))
    wide = "\u00e9" * 127
    edges.holds("a name of 127 letters of two bytes", (edges.save(room, wide, "m"), wide in left(room)), (0, True))
    odd = " a\n\"b\"\\ \t*?"
    edges.holds("a name of blanks, quotes and line ends", (edges.save(room, odd, "m"), odd in left(room)), (0, True))
    status = edges.save(room, b"\xff", "m")
    edges.holds("a name that is not UTF-8", (status, "\udcff" in left(room)), (1, False))


@room_of
def leftovers(edges, room):
    for i in range(151):
        write(f"{room}/.ntboot-new-{i}", b"left")
    status = edges.save(room, "h", "l")
    edges.holds("151 files that killed runs left", (status, len(left(room)), read(room, ".ntboot-new-150")), (0, 151, b"left"))


def limited(ignored):
    def set_limits():
        resource.setrlimit(resource.RLIMIT_FSIZE, (4096, 4096))
        signal.signal(signal.SIGXFSZ, signal.SIG_IGN if ignored else signal.SIG_DFL)
    return set_limits


@room_of
def file_sizes(edges, room):
    status = edges.save(room, "h", "l", preexec_fn=limited(True))
    edges.holds("a limit of sizes, with SIGXFSZ ignored", (status, read(room, "h") == OLD, left(room)), (7, True, []))
    status = edges.save(room, "h", "l", preexec_fn=limited(False))
    edges.holds("a limit of sizes: the signal ends it", (status, read(room, "h") == OLD, left(room)), (-signal.SIGXFSZ, True, [".ntboot-new-0"]))
    edges.holds("and the next run works", (edges.save(room, "h", "l"), read(room, "h") == OLD), (0, False))


@room_of
def closed(edges, room):
    for program, words, wanted in ((edges.ntboot, ["import", "--hive", "h", "--log", "l", "--reg", "reg", "--save-hive", "h", "--save-log", "l"], OLD), (edges.ntmend, ["h", "l"], None)):
        for shut in ("1", "0 1 2"):
            filled(room, *([OLD] if wanted else PACKS))
            tree = edges.loads(room)
            line = " ".join(f"{it}>&-" if it != "0" else "0<&-" for it in shut.split())
            status = edges.run(room, ["sh", "-c", 'exec "$0" "$@" ' + line, program, *words]).returncode
            same = read(room, "h") == wanted if wanted else edges.loads(room) == tree
            edges.holds(f"{os.path.basename(program)} with {shut} closed", (status, same, left(room)), (7, True, []))


def as_nobody():
    os.setgid(NOBODY)
    os.setuid(NOBODY)


@room_of
def rights(edges, room):
    os.chmod(f"{room}/h", 0o644)
    edges.holds("another user's hive", (edges.save(room, "h", "m", preexec_fn=as_nobody), read(room, "h") == OLD, left(room)), (7, True, []))
    os.chmod(room, 0o755)
    edges.holds("another user's folder", (edges.save(room, "n", "m", preexec_fn=as_nobody), left(room)), (7, []))
    os.chown(f"{room}/h", NOBODY, NOBODY)
    os.chmod(f"{room}/h", 0o4640)
    status = edges.save(room, "h", "l")
    kept = os.stat(f"{room}/h")
    edges.holds("owner and mode are kept", (status, stat.S_IMODE(kept.st_mode), kept.st_uid), (0, 0o4640, NOBODY))


# ---- mendings

@room_of
def mended_link(edges, room):
    filled(room, *PACKS)
    tree = edges.loads(room)
    os.symlink("h", f"{room}/s")
    status = edges.mend(room, "s")
    edges.holds("ntmend over a link", (status, os.readlink(f"{room}/s"), read(room, "h") != PACKS[0], edges.loads(room) == tree), (0, "h", True, True))
    os.link(f"{room}/h", f"{room}/k")
    for name in ("h", "k", "s"):
        edges.holds(f"ntmend with one file as both, by {name}", (edges.mend(room, "h", name), edges.loads(room) == tree), (2, True))


@room_of
def mended_read_only(edges, room):
    filled(room, *PACKS)
    os.chmod(f"{room}/h", 0o444)
    edges.holds("ntmend of a file that may not be written", (edges.mend(room, preexec_fn=as_nobody), read(room, "h") == PACKS[0]), (2, True))


@room_of
def mended_at_once(edges, room):
    """Twelve runs at one moment: each ends its work or finds the files locked, one of them works, and the hive is what a run alone leaves."""
    big = mend_of_200()
    filled(room, big)
    tree = edges.loads(room)
    alone = edges.mend(room), read(room, "h")
    ends = {0: 0, 2: 0}
    for _ in range(50):
        filled(room, big)
        runs = [subprocess.Popen([edges.ntmend, "h", "l"], cwd=room, stdout=subprocess.DEVNULL, env=ENVIRON) for _ in range(12)]
        statuses = [it.wait(60) for it in runs]
        for it in statuses:
            ends[it] += 1
        if 0 not in statuses or read(room, "h") != alone[1]:
            sys.exit(f"ntmend twelve times at once: {statuses}")
    edges.holds("ntmend twelve times at once, 50 times", (alone[0], sum(ends.values()), edges.loads(room) == tree), (0, 600, True))
    print(f"  of 600 runs {ends[0]} worked and {ends[2]} found the files locked")


def mend_of_200():
    import struct
    free = struct.pack("<i", 12_288) + bytes(12_284)
    cells, _ = hives.layout((b"ROOT", [], [(b"K%06d" % i, [hives.dword(b"V", i)], []) for i in range(200)]), 32 + len(free))
    packed = hives.hive(free + cells)
    size = len(packed) - 4096
    last = b"hbin" + struct.pack("<II", size, 4096) + bytes(20) + struct.pack("<i", 4064) + bytes(4060)
    return hives.base_block(size + 4096, root=32 + len(free)) + packed[4096:] + last


@room_of
def full(edges, room):
    big = mend_of_200()
    for spare in (0, 4096, 8192, 16384):
        os.mkdir(f"{room}/m")
        size = 3 * ((len(big) + 4095) // 4096 * 4096) + 65536
        subprocess.run(["mount", "-t", "tmpfs", "-o", f"size={size}", "none", f"{room}/m"], check=True)
        try:
            write(f"{room}/m/h", big)
            write(f"{room}/m/l")
            tree = edges.loads(f"{room}/m")
            left_over = os.statvfs(f"{room}/m").f_bavail * 4096
            write(f"{room}/m/rest", bytes(max(left_over - spare, 0)))
            status = edges.mend(f"{room}/m")
            edges.holds(f"ntmend on a file system with {spare} bytes free", (status in (0, 11), edges.loads(f"{room}/m") == tree), (True, True))
            print(f"  its exit is {status}")
            os.remove(f"{room}/m/rest")
            edges.holds("and with room again", (edges.mend(f"{room}/m"), edges.loads(f"{room}/m") == tree), (0, True))
        finally:
            subprocess.run(["umount", f"{room}/m"], check=True)
            os.rmdir(f"{room}/m")


@room_of
def full_for_a_save(edges, room):
    """There is no room for the new hive, and then for the new hive and not for the log."""
    os.mkdir(f"{room}/m")
    for size in (12_288, 16_384):
        subprocess.run(["mount", "-t", "tmpfs", "-o", f"size={size}", "none", f"{room}/m"], check=True)
        try:
            write(f"{room}/m/n", OLD)
            status = edges.save(room, "m/n", "m/l")
            edges.holds(f"a save on a file system of {size} bytes", (status, read(room, "m/n") == OLD, os.listdir(f"{room}/m")), (7, True, ["n"]))
        finally:
            subprocess.run(["umount", f"{room}/m"], check=True)


def main(words):
    edges = Edges(*(os.path.abspath(it) for it in words[:2]))
    for edge in (one_file, hard_link, one_name, through_a_link, special, names, leftovers, file_sizes, closed, mended_link, mended_at_once):
        edge(edges)
    if os.getuid() == 0:
        for edge in (rights, mended_read_only, full, full_for_a_save):
            edge(edges)
    else:
        print("not root: another user's rights and a full file system are left out")
    print(f"{edges.count} edges")


main(sys.argv[1:])

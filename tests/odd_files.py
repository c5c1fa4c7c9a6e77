#!/usr/bin/env python3
"""Files, command lines, outputs and saves that no folder can hold: a folder in place of a file, a pipe, 256 MiB and a byte more, an output that ends
early, a save over links or without room. Two rows at once, since the long ones take much memory. Prints each row that differs, then
'N passed, M failed'. With --short no file has 32 MiB or more.
tests/odd_files.py [--with NTBOOT NTMEND] [--short]"""
import os
import stat
import subprocess
import sys
import tempfile
import threading
import time

from programs import TIMEOUT, Run, Said, differs, fresh, judged, listing, main, read, said, write

ONE_DRIVER = Run("starts_one_boot_driver")
DIRTY = Run("hive_recovered_by_its_log")
WORDS = ["run", "--hive", "hive", "--script", "script"]
REPORT = ONE_DRIVER.wanted.out
HIVE = ONE_DRIVER.inputs["hive"]
# What a run says whose file cannot be read.
UNREAD = Said(b"", b"", 6)
# That many bytes of a hive or a log count.
COUNTED = 32 * 1024 * 1024
UMASK = os.umask(0o022)
os.umask(UMASK)


def as_it_is(room):
    """The folder as it is."""


def becomes_a_folder(room):
    os.remove(os.path.join(room, "script"))
    os.mkdir(os.path.join(room, "script"))


def becomes_as_long_as_is_read(room):
    """The hive with zeros after it up to 256 MiB. Its first 32 MiB count."""
    os.truncate(os.path.join(room, "hive"), 256 * 1024 * 1024)


def becomes_too_long(room):
    """A hive of one byte more than 256 MiB, of which no part is taken for the whole."""
    os.truncate(os.path.join(room, "hive"), 256 * 1024 * 1024 + 1)


def comes_in_pieces(room):
    """The hive comes through a pipe with a name, a little at a time."""
    path = os.path.join(room, "hive")
    os.remove(path)
    os.mkfifo(path)

    def give():
        with open(path, "wb", buffering=0) as f:
            for at in range(0, len(HIVE), 1000):
                f.write(HIVE[at:at + 1000])
                time.sleep(0.01)

    threading.Thread(target=give, daemon=True).start()


def has_an_old_file(room):
    """An old file of another mode, and the new file that a killed run left beside it."""
    for name in ("saved", "saved.ntboot-new-0"):
        write(b"old", room, name)
        os.chmod(os.path.join(room, name), 0o640)


def has_links(room):
    """A link to a link to an old file, and one to nothing."""
    os.mkdir(os.path.join(room, "below"))
    write(b"old", room, "below", "old")
    os.symlink("old", os.path.join(room, "below", "link"))
    os.symlink("below/link", os.path.join(room, "saved"))
    os.symlink("below/new", os.path.join(room, "dangling"))
    os.symlink("circle", os.path.join(room, "circle"))


def has_a_pipe(room):
    """A pipe with a name whose other end is read."""
    path = os.path.join(room, "saved")
    os.mkfifo(path)
    threading.Thread(target=read, args=(path,), daemon=True).start()


def padded(room, name, size):
    """A file with zeros after it up to that many bytes, the last byte after the first 32 MiB another one."""
    path = os.path.join(room, name)
    os.truncate(path, size)
    if size > COUNTED:
        with open(path, "r+b") as f:
            f.seek(size - 1)
            f.write(b"\xff")


def wrong_answer(programs, change, words, wanted):
    """What is wrong with a run over the hive and script of one driver, after a change of their folder."""
    with fresh(ONE_DRIVER.inputs) as room:
        change(room)
        return differs(said(programs.ntboot, words, room), wanted)


def wrong_long_hive(programs, size):
    """What is wrong with a run that saves a hive of that many bytes: the saved file has its first 32 MiB."""
    with fresh(ONE_DRIVER.inputs) as room:
        padded(room, "hive", size)
        found = said(programs.ntboot, [*WORDS, "--save-hive", "saved"], room)
        kept = read(room, "saved") == read(room, "hive")[:COUNTED]
        return differs(found, ONE_DRIVER.wanted) or ("" if kept else "the saved file is another one")


def wrong_long_log(programs, size):
    """What is wrong with a run over a dirty hive with its log, which has that many bytes."""
    with fresh(DIRTY.inputs) as room:
        padded(room, "log", size)
        return differs(said(programs.ntboot, DIRTY.words, room), DIRTY.wanted)


def limited(program, words, most):
    """A command line by which no file gets longer than that. With `restore_signals=False` a write past it is an error, and no signal."""
    return ["prlimit", f"--fsize={most}:{most}", program, *words]


def wrong_save(programs, change, name, put, status, most="unlimited"):
    """What is wrong with a run that saves its hive, which it doesn't change, under a name. The report is whole, whatever becomes of the save, and the
    folder is then as before, but that the file `put`, where one is given, has the hive's bytes, and the mode that it had or a new file's."""
    with fresh(ONE_DRIVER.inputs) as room:
        change(room)
        wanted = listing(room)
        if put:
            wanted[put] = wanted.get(put, (stat.S_IFREG | 0o666 & ~UMASK, None))[0], HIVE
        program, *words = limited(programs.ntboot, [*WORDS, "--save-hive", name], most)
        found = said(program, words, room, restore_signals=False)
        return differs(found, Said(REPORT, b"", status)) or ("" if listing(room) == wanted else "the folder is not as it should be")


def wrong_at_full_device(programs):
    """What is wrong with a run that can say nothing."""
    with open("/dev/full", "wb") as full:
        ran = subprocess.run([programs.ntboot], stdout=full, stderr=subprocess.PIPE, timeout=TIMEOUT)
        return differs(Said(b"", ran.stderr, ran.returncode), Said(b"", b"", 7))


def wrong_in_short_file(programs):
    """What is wrong with a run whose report goes to a file that ends two bytes before the report does."""
    most = len(REPORT) - 2
    with fresh(ONE_DRIVER.inputs) as room, tempfile.TemporaryFile() as report:
        ran = subprocess.run(limited(programs.ntboot, WORDS, most), cwd=room, stdout=report, stderr=subprocess.PIPE, restore_signals=False, timeout=TIMEOUT)
        report.seek(0)
        return differs(Said(report.read(), ran.stderr, ran.returncode), Said(REPORT[:most], b"", 7))


def saves(programs):
    """Saves: to which name, what is there before, which file has the hive then, the exit, and how long a file may get."""
    for name, *rest in (
            ("a save to a new name", as_it_is, "saved", "saved", 0),
            ("a save over the input", as_it_is, "hive", "hive", 0),
            ("a save over an old file", has_an_old_file, "saved", "saved", 0),
            ("a save over links", has_links, "saved", "below/old", 0),
            ("a save over a link to nothing", has_links, "dangling", "below/new", 0),
            ("a save over a circle of links", has_links, "circle", None, 7),
            ("a save to a pipe", has_a_pipe, "saved", None, 0),
            ("a save to a folder", has_links, "below", None, 7),
            ("a save below a plain file", as_it_is, "hive/saved", None, 7),
            ("a save over an old file that ends early", has_an_old_file, "saved", None, 7, 4096),
            ("a save to a new name that ends early", as_it_is, "saved", None, 7, 4096)):
        yield name, wrong_save, programs, *rest


def long_rows(programs):
    yield "a hive of 32 MiB", wrong_long_hive, programs, COUNTED
    yield "a hive of a byte more than 32 MiB", wrong_long_hive, programs, COUNTED + 1
    yield "a log of 32 MiB", wrong_long_log, programs, COUNTED
    yield "a log of a byte more than 32 MiB", wrong_long_log, programs, COUNTED + 1
    yield "a hive of 256 MiB", wrong_answer, programs, becomes_as_long_as_is_read, WORDS, ONE_DRIVER.wanted
    yield "a hive of more than 256 MiB", wrong_answer, programs, becomes_too_long, WORDS, UNREAD


def rows(programs):
    below = ["run", "--hive", "hive", "--script", "script/below"]
    odd = [b"run", b"--hive", b"\xff", b"--script", b"script"]
    unusable = Said(b"bad usage\n", b"", 1)
    yield "a file that is a folder", wrong_answer, programs, becomes_a_folder, WORDS, UNREAD
    yield "a path below a plain file", wrong_answer, programs, as_it_is, below, UNREAD
    yield from [] if programs.short else long_rows(programs)
    yield "a hive that comes in pieces", wrong_answer, programs, comes_in_pieces, WORDS, ONE_DRIVER.wanted
    yield "the program's name as a word", wrong_answer, programs, as_it_is, ["ntboot", *WORDS], unusable
    yield "a word that is no UTF-8", wrong_answer, programs, as_it_is, odd, unusable
    yield from saves(programs)
    yield "an output that takes nothing", wrong_at_full_device, programs
    yield "an output that ends early", wrong_in_short_file, programs


def check(programs):
    return judged(rows(programs), at_once=2)


if __name__ == "__main__":
    sys.exit(main(check))

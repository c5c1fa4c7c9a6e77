#!/usr/bin/env python3
"""Builds a program as `rt try` does, unproved and with run-time checks, once for each state of the sources, and keeps it: a part of ./try.

    tools/kept.py KIT CACHE PROGRAM SEEN [COMMAND] -- WORDS..

runs COMMAND PROGRAM WORDS.., with the program built where CACHE doesn't have it. It is kept there under a sum of all that is built from, and SEEN becomes
a link to it. `rt try` keeps no program: here it takes a folder of links for the kit, whose linker also copies what it makes."""
import contextlib
import fcntl
import hashlib
import os
import shutil
import signal
import subprocess
import sys
import tempfile
import time

TOP = os.path.dirname(os.path.dirname(os.path.realpath(__file__)))
# How long a build takes on an idle machine.
MINUTES = {"ntboot": "two to three minutes", "ntmend": "under a minute"}
# How many programs are kept, of some 25 MB each.
KEPT = 12
LINKER = """#!/bin/sh
"{kit}/toolchain/bin/ld.lld" "$@" || exit
while [ $# -gt 1 ]; do [ "$1" = -o ] && {{ cp "$2" "{made}.part" && mv "{made}.part" "{made}" || exit; }}; shift; done
exit 0
"""


class NoProgram(Exception):
    """Why there is no program to run."""


def say(line):
    print(f"./try: {line}", file=sys.stderr, flush=True)


def sources():
    """What a build reads: the list of crates, and their code. Definitions and proofs are not part of what runs."""
    yield os.path.join(TOP, "crates.txt")
    crates = os.path.join(TOP, "crates")
    for crate in sorted(os.listdir(crates)):
        for at, folders, names in os.walk(os.path.join(crates, crate, "src")):
            folders.sort()
            yield from (os.path.join(at, name) for name in sorted(names))


def state(kit):
    """A sum of all that a program is built from, and when the latest of it changed."""
    total, latest = hashlib.sha256(), 0
    for path in (os.path.join(kit, "KIT-ID"), *sources()):
        with open(path, "rb") as f:
            total.update(f"{os.path.relpath(path, TOP) if path.startswith(TOP) else ''} {hashlib.sha256(f.read()).hexdigest()}\n".encode())
            latest = max(latest, os.fstat(f.fileno()).st_ctime)
    return total.hexdigest()[:16], latest


def link_kit(kit, room, made):
    """Makes the room a kit of links. `rt` and its library are copies, since they find the kit by where they lie. Nothing checks beside the build."""
    own = {"bin/rt": shutil.copy, "bin/rtlib.py": shutil.copy, "bin/rattle": lambda _, at: os.symlink("/bin/true", at)}
    for folder in ("", "bin", "toolchain", "toolchain/bin"):
        os.makedirs(os.path.join(room, folder), exist_ok=True)
        for name in os.listdir(os.path.join(kit, folder)):
            at = os.path.join(folder, name)
            if at not in ("bin", "toolchain", "toolchain/bin", "toolchain/bin/ld.lld"):
                own.get(at, os.symlink)(os.path.join(kit, at), os.path.join(room, at))
    linker = os.path.join(room, "toolchain", "bin", "ld.lld")
    with open(linker, "w") as f:
        f.write(LINKER.format(kit=kit, made=made))
    os.chmod(linker, 0o755)


def build(kit, program, room):
    """Builds the program in the room, and answers where it is."""
    made, log, temporary = (os.path.join(room, name) for name in ("made", "log", "temporary"))
    os.mkdir(temporary)
    link_kit(kit, os.path.join(room, "kit"), made)
    words = [sys.executable, os.path.join(room, "kit", "bin", "rt"), "try", "--steps", "1", "--seconds", "10", "--", "version"]
    with open(log, "wb") as said:
        how = {"stdin": subprocess.DEVNULL, "stdout": said, "stderr": said, "env": {**os.environ, "TMPDIR": temporary}}
        tool = subprocess.Popen(words, cwd=os.path.join(TOP, "crates", program), **how)
        try:
            tool.wait()
        except BaseException:
            tool.terminate()
            tool.wait()
            raise
    if not os.access(made, os.X_OK):
        with open(log, errors="replace") as said:
            sys.stderr.write(said.read())
        raise NoProgram(f"{program} is not built; what `rt try` says of it stands above")
    return made


@contextlib.contextmanager
def alone(cache):
    """The one build at a time, in a new folder of the cache. What a killed one left is removed."""
    with open(os.path.join(cache, "lock"), "w") as lock:
        try:
            fcntl.flock(lock, fcntl.LOCK_EX | fcntl.LOCK_NB)
        except BlockingIOError:
            say("another build runs, and is waited for")
            fcntl.flock(lock, fcntl.LOCK_EX)
        for name in os.listdir(cache):
            if name.startswith("building-"):
                shutil.rmtree(os.path.join(cache, name), ignore_errors=True)
        with tempfile.TemporaryDirectory(prefix="building-", dir=cache) as room:
            yield room


def forget_old(cache):
    """Removes all but the newest programs, and the links that lead to none."""
    programs = [it.path for it in os.scandir(cache) if it.name.startswith(tuple(MINUTES)) and it.is_file()]
    for path in sorted(programs, key=os.path.getmtime)[:-KEPT]:
        os.remove(path)
    for link in os.scandir(os.path.join(cache, "seen")):
        if not os.path.exists(link.path):
            os.remove(link.path)


def kept(kit, cache, program):
    """Where the program of the sources as they are is, built where it is not there, and whether a link to it may be trusted: not where a source changed
    just before it was read, since a second change within the same tick of the clock shows neither in its size nor in its times."""
    began, (name, latest) = time.time(), state(kit)
    path = os.path.join(cache, f"{program}-{name}")
    if not os.path.exists(path):
        os.makedirs(os.path.join(cache, "seen"), exist_ok=True)
        with alone(cache) as room:
            if not os.path.exists(path):
                say(f"{program} is built, unproved, for this state of the sources: {MINUTES[program]} on an idle machine; kept in {cache}")
                made = build(kit, program, room)
                began, (now, latest) = time.time(), state(kit)
                if now != name:
                    raise NoProgram(f"the sources changed while {program} was built: run it again")
                os.rename(made, path)
                forget_old(cache)
    return path, began - latest > 2


def link(seen, path):
    with contextlib.suppress(OSError):
        os.symlink(path, seen + ".new")
        os.rename(seen + ".new", seen)


def interrupt(*_):
    raise KeyboardInterrupt


def main(kit, cache, program, seen, *words):
    for number in (signal.SIGTERM, signal.SIGHUP):
        signal.signal(number, interrupt)
    cut = words.index("--")
    try:
        path, trusted = kept(kit, os.path.abspath(cache), program)
        if trusted:
            link(seen, path)
    except NoProgram as why:
        return say(why) or 125
    except OSError as why:
        return say(f"{program} can't be kept in {cache} ({why.strerror}): set NTBOOT_CACHE to a folder that can be written") or 125
    except KeyboardInterrupt:
        return say(f"the build of {program} was interrupted, and nothing of it is kept") or 125
    # Python ignores these two, and the program is to find them as the shell has them.
    for number in (signal.SIGPIPE, signal.SIGXFSZ):
        signal.signal(number, signal.SIG_DFL)
    command = [*words[:cut], path, *words[cut + 1 :]]
    os.execvp(command[0], command)


if __name__ == "__main__":
    sys.exit(main(*sys.argv[1:]))

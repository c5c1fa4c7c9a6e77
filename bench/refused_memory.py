#!/usr/bin/env python3
"""Runs the built program with its N-th allocation refused, for each N: bench/refused_memory.py PROGRAM [RUN..].

RUN is a folder of tests/runs; without one they are a run with edits, one with a cut and one that saves a clone. Each is run with both files
of the disk saved. With the N-th allocation refused the program has to end with exit 9 and a prefix of what it prints otherwise, or as otherwise;
each file that is saved is there whole or as it was, and no other file is left. It wants gcc, for a library that is loaded before the C
library and counts the allocations. No gate runs it."""
import os
import shutil
import subprocess
import sys
import tempfile

TOP = os.path.join(os.path.dirname(os.path.abspath(__file__)), "..")
RUNS = os.path.join(TOP, "tests", "runs")
USUAL = ("fault_in_a_flush", "cut_at_sync_2_all", "clone_is_saved")
SAVED = ("new", "newlog")
BEFORE = b"as it was"

LIBRARY = r"""
#define _GNU_SOURCE
#include <dlfcn.h>
#include <errno.h>
#include <stdio.h>
#include <stdlib.h>

static unsigned long made, refused;

__attribute__((constructor)) static void start(void) {
    const char *n = getenv("REFUSED");
    refused = n ? strtoul(n, 0, 10) : 0;
    made = 0;
}

__attribute__((destructor)) static void stop(void) {
    const char *path = getenv("COUNTED");
    FILE *file = path ? fopen(path, "w") : 0;
    if (file) {
        fprintf(file, "%lu", made);
        fclose(file);
    }
}

static int is_refused(void) {
    return refused && ++made == refused ? (errno = ENOMEM, 1) : (made += !refused, 0);
}

#define REAL(name) static __typeof__(&name) real; if (!real) *(void **)&real = dlsym(RTLD_NEXT, #name)

void *malloc(size_t size) {
    REAL(malloc);
    return is_refused() ? 0 : real(size);
}

void *realloc(void *old, size_t size) {
    REAL(realloc);
    return is_refused() ? 0 : real(old, size);
}

void *aligned_alloc(size_t align, size_t size) {
    REAL(aligned_alloc);
    return is_refused() ? 0 : real(align, size);
}

int posix_memalign(void **at, size_t align, size_t size) {
    REAL(posix_memalign);
    return is_refused() ? ENOMEM : real(at, align, size);
}
"""


def read(*path):
    with open(os.path.join(*path), "rb") as f:
        return f.read()


def run(program, library, folder, refused, counted=None):
    """The exit status, what was printed, and the files that are there afterwards besides the inputs."""
    with tempfile.TemporaryDirectory() as room:
        for part in os.listdir(folder):
            if part not in ("words", "stdout", "status"):
                shutil.copy(os.path.join(folder, part), room)
        for name in SAVED:
            with open(os.path.join(room, name), "wb") as f:
                f.write(BEFORE)
        inputs = set(os.listdir(room)) - set(SAVED)
        words = read(folder, "words").decode().split("\n")[:-1] + ["--save-hive", "new", "--save-log", "newlog"]
        more = {"LD_PRELOAD": library, "REFUSED": str(refused)}
        if counted:
            more["COUNTED"] = counted
        done = subprocess.run([program, *words], cwd=room, stdout=subprocess.PIPE, stderr=subprocess.STDOUT, timeout=60, env={**os.environ, **more})
        return done.returncode, done.stdout, {name: read(room, name) for name in set(os.listdir(room)) - inputs}


def wrong(plain, status, said, files):
    """What is wrong with a run of which an allocation was refused, if anything."""
    if (status, said, files) == plain:
        return None
    if status != 9:
        return f"exit {status} says {said[-60:]!r}"
    if not plain[1].startswith(said):
        return f"it prints {said[-60:]!r}"
    if set(files) != set(SAVED):
        return f"it leaves {sorted(files)}"
    for name in SAVED:
        if files[name] not in (BEFORE, plain[2][name]):
            return f"{name} is half-written"
    return None


def each(program, library, name, room):
    """How many allocations a run makes, and how many of them may not be refused."""
    folder = os.path.join(RUNS, name)
    counted = os.path.join(room, "counted")
    plain = run(program, library, folder, 0, counted)
    count, failed = int(read(counted)), 0
    if plain[0] != 0 or count == 0:
        print(f"{name}: exit {plain[0]} after {count} allocations")
        return 0, 1
    for n in range(1, count + 1):
        why = wrong(plain, *run(program, library, folder, n))
        if why:
            failed += 1
            print(f"{name}, allocation {n}: {why}", flush=True)
    print(f"{name}: {count} allocations", flush=True)
    return count, failed


def main(words):
    program, names = os.path.abspath(words[0]), words[1:] or USUAL
    total = failed = 0
    with tempfile.TemporaryDirectory() as room:
        library = os.path.join(room, "refused.so")
        subprocess.run(["gcc", "-shared", "-fPIC", "-O1", "-x", "c", "-", "-o", library, "-ldl"], input=LIBRARY.encode(), check=True)
        for name in names:
            some, bad = each(program, library, name, room)
            total, failed = total + some, failed + bad
    print(f"{total - failed} passed, {failed} failed")
    return 1 if failed else 0


sys.exit(main(sys.argv[1:]))

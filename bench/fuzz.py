#!/usr/bin/env python3
"""Runs the built program on mutated inputs: bench/fuzz.py PROGRAM [--first N] [--count N] [--seed TEXT] [--jobs N] [--keep FOLDER].

Each input is a folder of tests/runs with one to four changes of its hive, log, boot.ini or texts: bytes turned, fields set to edges, blocks
of 512 bytes swapped, dropped or doubled, lines doubled or dropped, the end cut off. Where the base block changes its checksum is mostly
computed again, so that later checks are reached too. Most inputs are for `run`, the others for each further command that reads a hive. Each run
must end with an answer of the program within ten seconds, take no more memory than 64 MiB and eight times its files, and where it is done
leave files that load. What fails is kept as a folder with its inputs and words. The N-th input of a seed is always the same. No gate runs
it."""
import argparse
import multiprocessing
import os
import random
import resource
import shutil
import signal
import struct
import sys
import tempfile

sys.path.insert(0, os.path.dirname(os.path.abspath(__file__)))
import hives

TOP = os.path.dirname(os.path.dirname(os.path.abspath(__file__)))
RUNS = os.path.join(TOP, "tests", "runs")
TEXTS = ("boot.ini", "script", "commands", "reg")
INPUTS = ("hive", "log", "alt", *TEXTS)
ANSWERS = {0: b"", 1: b"bad usage", 2: b"no file ", 3: b"script fault ", 4: b"boot.ini fault ", 5: b"hive fault ", 10: b"reg fault "}
# The further commands: what each reads beside the hive (and a log, or a boot.ini, where the folder has one), and what it saves.
FURTHER = {
    "show": ([], []),
    "safe": ([], []),
    "control": (["commands"], []),
    "twin": ([], ["hive", "alt"]),
    "export": ([], []),
    "import": (["reg"], ["hive", "log"]),
}
EDGES = (0, 1, 2, 3, 4, 5, 7, 8, 0x20, 0x7F, 0x80, 0xFF, 0x1000, 0x7FFF, 0x8000, 0xFFFF, 0x7FFFFFFF, 0x80000000, 0x80000004, hives.NONE - 7, hives.NONE)


def seeds():
    """The inputs of each run that is kept, by name."""
    found = []
    for name in sorted(os.listdir(RUNS)):
        parts = {}
        for part in INPUTS:
            path = os.path.join(RUNS, name, part)
            if os.path.isfile(path) and os.path.getsize(path) <= 1 << 20:
                with open(path, "rb") as f:
                    parts[part] = f.read()
        if "hive" in parts:
            found.append((name, parts))
    return found


def texts(found):
    """The texts of one kind that the kept runs have, by kind."""
    return {kind: [parts[kind] for _, parts in found if kind in parts] for kind in TEXTS}


def turned(chance, data):
    for _ in range(chance.randint(1, 4)):
        if data:
            data[chance.randrange(len(data))] ^= 1 << chance.randrange(8)


def edged(chance, data):
    """A field of one, two or four bytes is set to an edge; most are at multiples of two."""
    size = chance.choice((1, 2, 4, 4))
    if len(data) >= size:
        at = chance.randrange((len(data) - size) // 2 + 1) * 2 if size > 1 else chance.randrange(len(data))
        near = int.from_bytes(data[at:at + size], "little") + chance.choice((-8, -1, 1, 8))
        value = chance.choice((*EDGES, near)) % (1 << (8 * size))
        data[at:at + size] = value.to_bytes(size, "little")


def moved(chance, data):
    """A block of 512 bytes is swapped with another, dropped or doubled."""
    blocks = [data[i:i + 512] for i in range(0, len(data), 512)]
    if len(blocks) > 1:
        one, other = chance.randrange(len(blocks)), chance.randrange(len(blocks))
        kind = chance.randrange(3)
        if kind == 0:
            blocks[one], blocks[other] = blocks[other], blocks[one]
        elif kind == 1:
            del blocks[one]
        else:
            blocks.insert(other, blocks[one])
        data[:] = b"".join(blocks)


def copied(chance, data):
    """A few bytes are copied over others, as offsets and names of other cells."""
    size = chance.choice((4, 8, 16))
    if len(data) > size:
        one, other = chance.randrange(len(data) - size), chance.randrange(len(data) - size)
        data[one:one + size] = data[other:other + size]


def ended(chance, data):
    del data[chance.randrange(len(data) + 1):]


def lined(chance, data):
    """A line is doubled, dropped or moved."""
    lines = bytes(data).split(b"\n")
    at = chance.randrange(len(lines))
    line = lines.pop(at)
    for _ in range(chance.choice((0, 1, 2, 40))):
        lines.insert(chance.randrange(len(lines) + 1), line)
    data[:] = b"\n".join(lines)


def summed(data):
    """The checksum of the base block is computed again."""
    if len(data) >= 512:
        total = 0
        for (word,) in struct.iter_unpack("<I", bytes(data[:508])):
            total ^= word
        struct.pack_into("<I", data, 508, {0: 1, hives.NONE: hives.NONE - 1}.get(total, total))


def mutated(chance, parts):
    """The inputs with one to four changes."""
    parts = {name: bytearray(data) for name, data in parts.items()}
    for _ in range(chance.randint(1, 4)):
        name = chance.choice([*parts, "hive"])
        data = parts[name]
        is_text = name in TEXTS
        change = chance.choice((turned, edged, lined, lined, ended) if is_text else (turned, edged, edged, edged, copied, moved, ended))
        change(chance, data)
    for name in ("hive", "log", "alt"):
        if name in parts and chance.random() < 0.9:
            summed(parts[name])
    return parts


def ran(program, words):
    """The exit status, or minus the signal's number, the output, and the greatest memory in KiB. A run over ten seconds is killed."""
    out = [(os.POSIX_SPAWN_OPEN, 1, "said", os.O_WRONLY | os.O_CREAT | os.O_TRUNC, 0o600), (os.POSIX_SPAWN_DUP2, 1, 2)]
    child = os.posix_spawn(program, [program, *words], os.environ, file_actions=out)
    signal.signal(signal.SIGALRM, lambda *_: os.kill(child, signal.SIGKILL))
    signal.alarm(10)
    _, status, used = os.wait4(child, 0)
    signal.alarm(0)
    with open("said", "rb") as f:
        return os.waitstatus_to_exitcode(status), f.read(), used.ru_maxrss


def words_of(command, parts):
    """The words of a command over these inputs."""
    words = [command, "--hive", "hive"]
    if command == "run":
        words += ["--script", "script", "--save-hive", "new-hive", "--save-log", "new-log"]
    if command == "export":
        words += ["--reg", "out"]
    for read in FURTHER.get(command, ([], []))[0]:
        words += [f"--{read}", read]
    for saved in FURTHER.get(command, ([], []))[1]:
        words += [f"--save-{saved}", f"new-{saved}"]
    if command == "twin":
        words += ["--alt", "alt"] if "alt" in parts else ["--scheme", "log"] if "log" in parts else []
    elif "log" in parts:
        words += ["--log", "log"]
    if command in ("run", "safe") and "boot.ini" in parts:
        words += ["--boot-ini", "boot.ini"]
    return words


def reading_again(command, parts):
    """The words that must read what a run saved, if it saved anything."""
    has = {name for name in ("new-hive", "new-log", "new-alt", "out") if os.path.exists(name)}
    if command == "run" and b"torn" in parts["script"]:
        return None
    if "out" in has:
        return ["import", "--hive", "hive", "--reg", "out", *(["--log", "log"] if "log" in parts else [])]
    if "new-alt" in has and "log" not in parts:
        return ["twin", "--hive", "new-hive", "--alt", "new-alt"]
    if "new-hive" in has:
        return ["show", "--hive", "new-hive", *(["--log", "new-log"] if "new-log" in has else [])]
    return None


def wrong(program, words, command, parts):
    """What is wrong with the run on these inputs in this folder, if anything."""
    for name in os.listdir():
        os.unlink(name)
    for name, data in parts.items():
        with open(name, "wb") as f:
            f.write(data)
    status, said, memory = ran(program, words)
    if status not in ANSWERS:
        return f"exit {status}"
    is_report = command in ("run", "twin") and status == 0
    if not said.endswith(b"\n") or not said.startswith(ANSWERS[status]) or (is_report and not said.endswith(b"end\n")):
        return f"exit {status} says {said[-60:]!r}"
    if memory > 64 * 1024 + 8 * sum(map(len, parts.values())) // 1024:
        return f"{memory} KiB"
    saves = "--save-hive" in words
    if (status == 0 and saves) != os.path.exists("new-hive"):
        return f"exit {status}, and the hive is {'not ' if saves and status == 0 else ''}saved"
    if command == "export" and status != 0 and os.path.exists("out"):
        return f"exit {status}, and a text is put"
    again = reading_again(command, parts)
    if again:
        status, said, _ = ran(program, again)
        if status != 0:
            return f"what was saved: {' '.join(again)}: exit {status}, {said[-60:]!r}"
    return None


def chosen(chance, found, kinds):
    """A command and its inputs, before they are changed."""
    name, parts = chance.choice(found)
    parts = dict(parts)
    command = "run" if chance.random() < 0.6 else chance.choice([*FURTHER])
    if command == "run":
        parts.setdefault("script", b"boot\ngo\nlogon\noff\n")
    for kind in FURTHER.get(command, ([], []))[0]:
        if kind not in parts:
            parts[kind] = chance.choice(kinds[kind])
    if command == "twin" and "alt" not in parts and "log" not in parts and chance.random() < 0.8:
        parts["alt"] = parts["hive"]
    return name, command, parts


def work(task):
    """Tries the inputs of one range, and answers how many there were, and what failed."""
    program, seed, first, last, keep = task
    found, failed = seeds(), []
    kinds = texts(found)
    with tempfile.TemporaryDirectory() as room:
        os.chdir(room)
        for n in range(first, last):
            chance = random.Random(f"{seed} {n}")
            name, command, parts = chosen(chance, found, kinds)
            parts = mutated(chance, parts)
            words = words_of(command, parts)
            why = wrong(program, words, command, parts)
            if why:
                failed.append(f"{seed} {n} ({command}, from {name}): {why}")
                kept = os.path.join(keep, f"{seed}_{n}")
                shutil.copytree(room, kept, dirs_exist_ok=True)
                with open(os.path.join(kept, "words"), "w") as f:
                    f.writelines(f"{word}\n" for word in words)
        os.chdir(TOP)
    return last - first, failed


def main():
    asked = argparse.ArgumentParser()
    asked.add_argument("program")
    asked.add_argument("--count", type=int, default=10_000)
    asked.add_argument("--first", type=int, default=0)
    asked.add_argument("--seed", default="a")
    asked.add_argument("--jobs", type=int, default=1)
    asked.add_argument("--keep", default="fuzz-failures")
    asked = asked.parse_args()
    resource.setrlimit(resource.RLIMIT_CORE, (0, 0))
    step = 200
    tasks = [(os.path.abspath(asked.program), asked.seed, n, min(n + step, asked.count), os.path.abspath(asked.keep)) for n in range(asked.first, asked.count, step)]
    done = failed = 0
    with multiprocessing.Pool(asked.jobs) as pool:
        for count, why in pool.imap_unordered(work, tasks):
            done += count
            failed += len(why)
            for line in why:
                print(line, flush=True)
    print(f"{done - failed} passed, {failed} failed")
    return 1 if failed else 0


if __name__ == "__main__":
    sys.exit(main())

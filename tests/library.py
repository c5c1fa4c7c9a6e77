#!/usr/bin/env python3
"""The library for C and Python: tests/library.py. A program in C prints Select of each example and of a large hive, and the module in Python reads the
same; a thousand damaged hives open or fail by name; the header compiles without a warning as C and as C++. It takes ./libntboot.so, which `./build` makes,
and a C compiler; without them it says what is skipped."""
import os
import random
import shutil
import subprocess
import sys
import tempfile

TOP = os.path.dirname(os.path.dirname(os.path.abspath(__file__)))
LIBRARY = os.environ.get("NTBOOT_LIBRARY") or os.path.join(TOP, "libntboot.so")
INCLUDE = os.path.join(TOP, "include")
STRICT = ["-Wall", "-Wextra", "-Werror", f"-I{INCLUDE}"]
HIVES = sorted(os.path.join(TOP, "examples", name, "SYSTEM") for name in os.listdir(os.path.join(TOP, "examples")))
SOUND = os.path.join(TOP, "examples", "one_driver", "SYSTEM")
REG = "Windows Registry Editor Version 5.00\r\n\r\n"
sys.path.insert(0, os.path.join(TOP, "python"))
import ntboot


def compiled(folder):
    """The program in C, built against the library."""
    program = os.path.join(folder, "c_library")
    source = os.path.join(TOP, "tests", "c_library.c")
    subprocess.run([os.environ.get("CC", "cc"), "-std=c11", *STRICT, source, LIBRARY, f"-Wl,-rpath,{os.path.dirname(LIBRARY)}", "-o", program], check=True)
    return program


def header_is_clean(compiler, *words):
    """Whether the header alone compiles without a warning."""
    return subprocess.run([compiler, *words, *STRICT, "-fsyntax-only", "-include", "ntboot.h", "-"], input=b"").returncode == 0


def told(key):
    """The lines of `key` on a key, from what the module in Python has of it."""
    yield "key " + "\\".join(key.path)
    yield f"stamp {key.written}"
    for value in key.values():
        yield f'value "{value.name}" {value.type} {value.value} 0x{value.value:08x}'
    yield "end"


def select_by_python(data):
    """What the program in C prints of a hive, by the module in Python, and its exit."""
    try:
        with ntboot.Hive(data) as hive:
            return "\n".join(told(hive.key("Select"))) + "\n", 0
    except ntboot.NtbootError as error:
        return error.text + "\n", 5 if isinstance(error, ntboot.HiveFault) else 0


def select_by_c(program, path):
    """What the program in C prints of a hive, and its exit."""
    done = subprocess.run([program, path], stdout=subprocess.PIPE)
    return done.stdout.decode(), done.returncode


def damaged(data, seed):
    """A copy of a hive with up to eight bytes changed."""
    chance, copy = random.Random(seed), bytearray(data)
    for _ in range(chance.randrange(1, 9)):
        copy[chance.randrange(len(copy))] = chance.randrange(256)
    return bytes(copy)


def opens_or_fails(data):
    """Whether a hive opens, or fails by name."""
    try:
        ntboot.Hive(data).key("Select")
    except (ntboot.HiveFault, ntboot.NoKey):
        pass
    except Exception as error:  # (anything else is no answer of the library)
        print(f"a damaged hive: {error!r}")
        return False
    return True


def changed(data):
    """Whether a change of CurrentControlSet, with the option for it, is made in the default set, and the hive before it stays."""
    hive, text = ntboot.Hive(data), REG + "[HKEY_LOCAL_MACHINE\\SYSTEM\\CurrentControlSet\\Added]\r\n\"One\"=dword:00000001\r\n"
    new, said = hive.imported(text, "--current=default")
    added = new.key("CurrentControlSet\\Added").value("one")
    return said.startswith("current 1\ncommit import ") and added.value == 1 and "Added" not in hive.key("CurrentControlSet").subkeys()


def rows(folder):
    """Each test with whether it holds."""
    program = compiled(folder)
    yield "the header as C", header_is_clean(os.environ.get("CC", "cc"), "-std=c11", "-x", "c")
    if shutil.which("c++"):
        yield "the header as C++", header_is_clean("c++", "-std=c++17", "-x", "c++")
    large = os.path.join(folder, "large")
    answer = ntboot.call(["make", "10000", "--save-hive", "saved"])
    with open(large, "wb") as file:
        file.write(answer.hive)
    for path in [*HIVES, large]:
        with open(path, "rb") as file:
            data = file.read()
        yield f"Select of {os.path.relpath(path, TOP)}", select_by_c(program, path) == select_by_python(data)
    with open(SOUND, "rb") as file:
        sound = file.read()
    for seed in range(1000):
        yield f"damaged hive {seed}", opens_or_fails(damaged(sound, seed))
    yield "bad usage has its name", fails_by(ntboot.BadUsage, lambda: ntboot.call(["fly"]))
    for word in ("a\nb", "\ud83d"):
        yield f"a key that no word can name: {word!r}", fails_by(ntboot.BadUsage, lambda: ntboot.Hive(sound).key(word))
    yield "a carriage return is part of its word", fails_by(ntboot.NoKey, lambda: ntboot.Hive(sound).key("Select\r"))
    yield "there is no such set", fails_by(ntboot.NoSet, lambda: ntboot.Hive(sound).services(999))
    yield "a change that is refused", fails_by(ntboot.Refused, lambda: ntboot.Hive(sound).imported(REG + "[-HKEY_LOCAL_MACHINE\\SYSTEM\\Nowhere]\r\n"))
    yield "a change of the default set", changed(sound)
    yield "a script's fault has its line", fails_by(ntboot.ScriptFault, lambda: ntboot.Hive(sound).report("boot\nfly\n"))
    if shutil.which("valgrind"):
        leaks = ["valgrind", "-q", "--leak-check=full", "--error-exitcode=99", program, SOUND]
        yield "no leak", subprocess.run(leaks, stdout=subprocess.DEVNULL).returncode != 99


def fails_by(error, call):
    """Whether a call raises this error."""
    try:
        call()
    except error:
        return True
    return False


def main():
    if not os.path.exists(LIBRARY):
        print(f"skipped: there is no {os.path.relpath(LIBRARY, TOP)} (./build makes it)")
        print("0 passed, 0 failed")
        return 0
    with tempfile.TemporaryDirectory() as folder:
        found = list(rows(folder))
    failed = [name for name, holds in found if not holds]
    for name in failed:
        print(f"{name}: failed")
    print(f"{len(found) - len(failed)} passed, {len(failed)} failed")
    return 1 if failed else 0


if __name__ == "__main__":
    sys.exit(main())

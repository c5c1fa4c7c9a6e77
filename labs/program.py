"""Runs ntboot for the scripts beside it: the program that `./build` left at the top of the repository, or else the unproved one of `./try`, which takes
some minutes the first time. `--with NTBOOT` of a script names another."""
import os
import subprocess

TOP = os.path.join(os.path.dirname(os.path.abspath(__file__)), "..")
FILES = ("--hive", "--log", "--script", "--boot-ini", "--commands", "--reg", "--alt", "--with", "--with-log", "--log1", "--log2",
         "--save-hive", "--save-log", "--save-alt")


def whole(words, folder):
    """The words with each name of a file made whole, as seen from the folder."""
    out, is_file = [], False
    for word in words:
        name, equals, value = word.partition("=")
        if is_file:
            word = os.path.abspath(os.path.join(folder, word))
        elif equals and name in FILES:
            word = name + "=" + os.path.abspath(os.path.join(folder, value))
        is_file = word in FILES
        out.append(word)
    return out


def place():
    """Where the program is."""
    built = os.path.join(TOP, "ntboot")
    if os.path.isfile(built):
        return built
    found = subprocess.run([os.path.join(TOP, "try"), "--where"], stdout=subprocess.PIPE, encoding="utf-8")
    if found.returncode:
        raise SystemExit(found.returncode)
    return found.stdout.rstrip("\n")


def answers(calls, program=None):
    """What the program prints, and its exit, for each list of words in turn. Names of files have to be whole (`whole`)."""
    program = program or place()
    for words in calls:
        done = subprocess.run([program, *words], stdout=subprocess.PIPE, stderr=subprocess.STDOUT)
        yield done.stdout.decode("latin-1"), done.returncode

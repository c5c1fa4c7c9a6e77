#!/usr/bin/env python3
"""How command lines are read: tests/words.py [--with NTBOOT NTMEND]. Those that cannot be read are refused for the first reason from the left; of the
others each file that is asked for is missing in turn, and then none. The rules: docs/texts.md, "The command line"."""
import os
import shlex
import sys

from programs import RUNS, Said, differs, fresh, judged, main, read, said

HIVE = read(RUNS, "starts_one_boot_driver", "hive")
# The options of files to read, in the order in which a command asks for them.
ASKED = {
    "run": ("--script", "--boot-ini", "--hive", "--log"),
    "why": ("--script", "--boot-ini", "--hive", "--log"),
    "graph": ("--script", "--boot-ini", "--hive", "--log"),
    "sweep": ("--script", "--boot-ini", "--hive", "--log"),
    "safe": ("--boot-ini", "--hive", "--log"),
    "whatif": ("--boot-ini", "--hive", "--log"),
    "control": ("--commands", "--hive", "--log"),
    "twin": ("--hive", "--alt"),
    "import": ("--hive", "--log", "--reg"),
    "diff": ("--hive", "--log", "--with", "--with-log"),
    "show": ("--hive", "--log"),
    "key": ("--hive", "--log"),
    "export": ("--hive", "--log"),
    "check": ("--hive", "--log"),
    "salvage": ("--hive", "--log"),
    "devices": ("--hive", "--log"),
    "find": ("--hive", "--log"),
    "services": ("--hive", "--log"),
    "make": (),
}
# What such a file has, which else is empty. A script of `sweep` is judged before the next file is asked for.
CONTENT = {"--hive": HIVE, "--alt": HIVE, "--with": HIVE, "sweep --script": b"sweep\nboot\n"}
USUAL = r"entry 1 multi(0)disk(0)rdisk(0)partition(1)\WINDOWS"
OTHER = r"scsi(0)disk(1)rdisk(0)partition(2)\WINNT"

# Command lines that cannot be read, each with its reason.
REFUSED = [
    ("run --hive h", "missing --script"),
    ("run --script s", "missing --hive"),
    ("run", "missing --hive"),
    ("run --hive h --scrpt=script", "unknown option --scrpt=script"),
    ("run --hive --script s", "no value --hive"),
    (r"run --system 'C:\WINDOWS'", r"bad value --system C:\WINDOWS"),
    ("run --hive h --script s --system=", "no value --system"),
    ("show --log l", "missing --hive"),
    ("show --hive h --script s", "unknown option --script"),
    ("show x --hive --log a --log b", "left over x"),
    ("show --hive a --hive=b", "twice --hive"),
    ("show --hive h --hive h", "twice --hive"),
    ("show --hive=h --hive=h", "twice --hive"),
    ("show --hive", "no value --hive"),
    ("show --hive h --log", "no value --log"),
    ("show --hive h l", "left over l"),
    ("show ''", 'left over ""'),
    ("show --hive ''", "no value --hive"),
    ("show --hive=", "no value --hive"),
    ("show --hive -", "no value --hive"),
    ("show --hive --log l", "no value --hive"),
    ("show --hive h --", "unknown option --"),
    ("show --hive h -l", "unknown option -l"),
    ("make", "missing N"),
    ("make --save-hive h", "missing N"),
    ("make 0", "bad value N 0"),
    ("make 10001", "bad value N 10001"),
    ("make 000001", "bad value N 000001"),
    ("make +4", "bad value N +4"),
    ("make 4a", "bad value N 4a"),
    ("make -", "unknown option -"),
    ("make 4 4", "left over 4"),
    ("make --N=4", "unknown option --N=4"),
    ("safe --boot-ini b", "missing --hive"),
    ("safe --hive h --script s", "unknown option --script"),
    ("safe --hive h --mode Minimal", "bad value --mode Minimal"),
    ("safe --hive h --images=yes", "unknown option --images=yes"),
    ("control --hive h", "missing --commands"),
    ("control --commands c", "missing --hive"),
    ("twin --alt a", "missing --hive"),
    ("twin --hive h --scheme both", "bad value --scheme both"),
    ("twin --hive h --scheme Alt", "bad value --scheme Alt"),
    ("twin --hive h --default 0", "bad value --default 0"),
    ("twin --hive h --default 1000", "bad value --default 1000"),
    ("twin --hive h --default 0001", "bad value --default 0001"),
    ("twin --hive h --default 1a", "bad value --default 1a"),
    ("twin --hive h --log l", "unknown option --log"),
    ("twin --hive h 2", "left over 2"),
    ("export --hive h --key A", "missing --reg"),
    ("export --hive h --reg r --key -A", "no value --key"),
    ("import --hive h", "missing --reg"),
    ("import --hive h --reg r --key A", "unknown option --key"),
    ("import --hive h --reg r --current last", "bad value --current last"),
    ("import --hive h --reg r --current 0", "bad value --current 0"),
    ("import --hive h --reg r --encoding UTF-8", "bad value --encoding UTF-8"),
    ("import --lenient=yes", "unknown option --lenient=yes"),
    ("key --json=1", "unknown option --json=1"),
    ("key --hive h --json --json", "twice --json"),
    ("key --hive h --depth 1000", "bad value --depth 1000"),
    ("check --hive h --set 1000", "bad value --set 1000"),
    ("check --hive h --order=1", "unknown option --order=1"),
    ("check --set 1", "missing --hive"),
    ("diff --hive h --with-log m", "missing --with"),
    ("diff --with-log m", "missing --hive"),
    ("diff --hive h --with-set 0", "bad value --with-set 0"),
    ("whatif --hive h --script s", "unknown option --script"),
    ("why --hive h", "missing NAME"),
    ("why Disk", "missing --hive"),
    ("why --hive h Disk Fs", "left over Fs"),
    ("sweep --hive h --script s --save-hive x", "unknown option --save-hive"),
    ("salvage --json --hive h --json", "twice --json"),
    ("devices --of Disk", "missing --hive"),
    ("devices --hive h --of", "no value --of"),
    ("devices --hive h --set 0", "bad value --set 0"),
    ("devices --hive h --ids=1", "unknown option --ids=1"),
    ("devices --findings --hive h --findings", "twice --findings"),
    ("devices --hive h --critical Disk", "left over Disk"),
    ("find --hive h", "missing --text"),
    ("find --text x", "missing --hive"),
    ("find --exact", "missing --hive"),
    ("find --hive h disk", "left over disk"),
    ("find --hive h --hex 4d5", "bad value --hex 4d5"),
    ("find --hive h --hex 0x4d", "bad value --hex 0x4d"),
    ("find --hive h --text T --hex 4G", "bad value --hex 4G"),
    ("find --hive h --hex ''", "no value --hex"),
    ("find --hive h --text x --names=x", "unknown option --names=x"),
    ("find --hive h --text x --data --data", "twice --data"),
    ("services --start 1", "missing --hive"),
    ("services --hive h --set 1000", "bad value --set 1000"),
    ("services --hive h --start 4294967296", "bad value --start 4294967296"),
    ("services --hive h --start 00000000001", "bad value --start 00000000001"),
    ("services --hive h --start 0x2", "bad value --start 0x2"),
    ("services --hive h --kind Driver", "bad value --kind Driver"),
    ("services --hive h --sort Name", "bad value --sort Name"),
    ("services --hive h --since 2012-02-30", "bad value --since 2012-02-30"),
    ("services --hive h --since 2100-02-29", "bad value --since 2100-02-29"),
    ("services --hive h --since 2012-00-01", "bad value --since 2012-00-01"),
    ("services --hive h --since 2012-13-01", "bad value --since 2012-13-01"),
    ("services --hive h --since 2012-04-00", "bad value --since 2012-04-00"),
    ("services --hive h --since 2012-04-31", "bad value --since 2012-04-31"),
    ("services --hive h --since 1600-12-31", "bad value --since 1600-12-31"),
    ("services --hive h --since 2012-4-04", "bad value --since 2012-4-04"),
    ("services --hive h --since 2012-04-04T11Z", "bad value --since 2012-04-04T11Z"),
    ("services --hive h --since 2012-04-04T11:47", "bad value --since 2012-04-04T11:47"),
    ("services --hive h --since 2012-04-04t11:47Z", "bad value --since 2012-04-04t11:47Z"),
    ("services --hive h --since 2012-04-04T24:00Z", "bad value --since 2012-04-04T24:00Z"),
    ("services --hive h --since 2012-04-04T11:60Z", "bad value --since 2012-04-04T11:60Z"),
    ("services --hive h --since 2012-04-04T11:47:60Z", "bad value --since 2012-04-04T11:47:60Z"),
    ("services --hive h --since 2012-04-04T11:47:06.Z", "bad value --since 2012-04-04T11:47:06.Z"),
    ("services --hive h --since 2012-04-04T11:47:06.12345678Z", "bad value --since 2012-04-04T11:47:06.12345678Z"),
    ("services --hive h --since 2012-04-04T11:47:06Zx", "bad value --since 2012-04-04T11:47:06Zx"),
    ("services --hive h --since 12012-04-04", "bad value --since 12012-04-04"),
    ("services --hive h --since +09999-12-31", "bad value --since +09999-12-31"),
    ("services --hive h --since +60056-05-28T05:36:10.9551616Z", "bad value --since +60056-05-28T05:36:10.9551616Z"),
    ("services --hive h --since +99999-12-31", "bad value --since +99999-12-31"),
    ("show -v --hive h --verbose", "twice --verbose"),
    ("show --hive h -v -v", "twice --verbose"),
    ("show --v", "unknown option --v"),
    ("show -v -v=1", "unknown option -v=1"),
    ("show --hive -v", "no value --hive"),
    ("boot", "unknown command boot"),
    ("Show --hive h", "unknown command Show"),
    ("--hive h show", "unknown command --hive"),
    ("''", 'unknown command ""'),
    ("runn x --verbose", "unknown command runn"),
]

# Command lines that cannot be read, and ask for no reason: only a word `-v` or `--verbose` after the first asks for one, and the first isn't one of these.
QUIET = [
    "", "run", "-v run", "run --verbose=1", "help nope -v", "help boot", "help run show", "version -v", "version show", "--help -v", "--help run", "-h -v",
    "--version -v", "--version run",
]

# Two command lines that ask for one page.
SAME = [
    ("--help", "help"), ("-h", "help"), ("help run -h", "help help"), ("run x --nope --help", "help run"), ("show --hive h --help", "help show"),
    ("version --help", "help version"), ("--version", "version"), ("help key", "key --help"), ("help exits --json -h", "help help"),
    ("devices --hive h --help", "help devices"), ("find x -h", "help find"), ("services --sort --help", "help services"),
]

# Command lines that are read; the exit where each file is there, and the first line that is printed then.
READ = [
    ("run --hive h --script s", 0, "end"),
    ("run --script=s --hive=h", 0, "end"),
    (f"run --save-log sl --save-hive=sh --system '{OTHER}' --boot-ini=-b --script s --log l --hive h=1", 0, "end"),
    ("show --hive h", 0, "sequence 5 bulk 776"),
    ("show --hive h --json", 0, '{"line":"tree","sequence":5,"bulk":776}'),
    ("show --log=--log --hive h", 0, "sequence 5 bulk 776"),
    ("show --hive h --json --verbose", 0, '{"line":"tree","sequence":5,"bulk":776}'),
    ("make 1", 0, "made 1 started 1 failed 0 unmet 0 verdict good sequence 3"),
    ("make 00040", 0, "made 40 started 40 failed 0 unmet 0 verdict good sequence 3"),
    ("make --save-hive=h 9", 0, "made 9 started 9 failed 0 unmet 0 verdict good sequence 3"),
    ("make 3 --save-hive h", 0, "made 3 started 3 failed 0 unmet 0 verdict good sequence 3"),
    ("safe --hive h", 0, USUAL),
    (f"safe --system='{OTHER}' --boot-ini b --log=l --hive h", 0, f"entry 1 {OTHER}"),
    ("safe --hive h --mode minimal --images", 0, USUAL),
    ("safe --mode=network --hive h", 0, USUAL),
    ("control --commands c --hive h", 0, "end"),
    ("control --hive=h --log=l --commands=-c", 0, "end"),
    ("twin --hive h", 0, "load 5 recovered"),
    ("twin --hive h --scheme log --default 007", 0, "load 5 clean"),
    ("twin --save-alt=sa --save-hive sh --default=999 --scheme=alt --alt a --hive h", 0, "load 5 clean"),
    ("export --hive h --reg r", 0, "exported 5 keys 6 values"),
    (r"export --key 'ControlSet001\Services' --reg=r --hive=h --log=l", 0, "exported 2 keys 2 values"),
    (r"export --key 'A\B C' --reg=r --hive=h --log=l", 0, "export refused no-key"),
    ("import --reg r --hive h", 10, "reg fault 0 mark"),
    ("import --hive=h --save-log=sl --reg=r --save-hive=sh --log=l", 10, "reg fault 0 mark"),
    ("import --hive h --lenient --reg r --current default --encoding utf-8", 10, "reg fault 1 header"),
    ("import --hive h --reg r --current=007", 10, "reg fault 0 mark"),
    ("import --hive h --reg r --encoding=utf-16", 10, "reg fault 0 mark"),
    (r"key --security --depth=012 --key 'Select' --json --log=l --hive h", 0, '{"line":"key","path":["Select"]}'),
    ("check --hive h", 8, "select LastKnownGood 0"),
    ("check --order --set=007 --log l --hive h", 8, "no-set 7"),
    ("diff --hive h", 8, "no-set second 0"),
    ("diff --with-set 7 --all --with-log m --with g --set 1 --log l --hive h", 8, "no-set second 7"),
    ("whatif --hive h", 0, "start 1"),
    (f"whatif --of Disk --boot-ini b --hive h --log l --system '{OTHER}'", 0, "start 1"),
    ("why --hive h Disk", 0, "start 1"),
    (rf"why '\u002dx' --script=s --boot-ini b --hive h --log l --system '{OTHER}'", 0, "no-boot"),
    ("graph --script s --hive h --of Disk", 0, "digraph ntboot {"),
    ("sweep --script s --hive h", 0, "sweep boot"),
    ("salvage --hive h", 0, "sequence 5 5 clean"),
    ("salvage --save-hive sh --log l --hive h", 0, "sequence 5 5 clean"),
    ("salvage --by-parent --hive h", 0, "sequence 5 5 clean"),
    ("devices --hive h", 8, "set 1"),
    ("devices --critical --of=Disk --findings --set 007 --ids --log l --hive h", 8, "no-set 7"),
    ("find --hive h --text disk", 0, r"key ControlSet001\Services\Disk"),
    ("find --hex=fFFeFd --exact --data --names --key Select --text=-x --log l --hive h", 8, "found 0"),
    ("services --hive h", 0, "set 1"),
    ("services --sort order --since=+60056-05-28T05:36:10.9551615Z --kind driver --start 4294967295 --set 007 --log l --hive h", 0, "no-set 7"),
    ("services --since 2000-02-29 --hive h", 0, "set 1"),
    ("services --since 2012-04-04T11:47:06.5Z --sort written --kind=service --start 0000000002 --hive h", 0, "set 1"),
]


def verbose(words):
    """The words, asking for the reason right after the command."""
    return words if {"-v", "--verbose"} & set(words[1:]) else [*words[:1], "-v", *words[1:]]


def given(words, option):
    """The value of an option, in one word or two."""
    for at, word in enumerate(words):
        if word == option:
            return words[at + 1]
        if word.startswith(option + "="):
            return word[len(option) + 1:]
    return None


def refused(programs, line, reason):
    """A command line that cannot be read: wrong where it is not refused for this reason."""
    errors = f"ntboot: {reason}\n" if reason else ""
    with fresh({}) as room:
        found = said(programs.ntboot, verbose(shlex.split(line)) if reason else shlex.split(line), room)
        return differs(found, Said(b"bad usage\n", errors.encode(), 1)) or ("a file is there" if os.listdir(room) else "")


def same(programs, line, other):
    """Two command lines that ask for one page."""
    with fresh({}) as room:
        page, found = (said(programs.ntboot, shlex.split(one), room) for one in (other, line))
        return differs(found, page) or ("" if page.status == 0 and page.out else f"no page of {other}")


def without(programs, words, files, option, name):
    """The first file of an option that is not there decides."""
    with fresh(files) as room:
        found = said(programs.ntboot, verbose(words), room)
        return differs(found, Said(f"no file {name}\n".encode(), f"ntboot: {option}: no file {name}\n".encode(), 2))


def all_there(programs, words, files, status, first):
    """With all files the command ends so, and this is its first line."""
    with fresh(files) as room:
        found = said(programs.ntboot, words, room)
        line = found.out.split(b"\n")[0].decode()
        return "" if (found.status, line) == (status, first) else f"exit {found.status}, wanted {status}; said {line!r}, wanted {first!r}"


def rows_of(programs, line, status, first):
    """A command line that is read, with each file that it asks for missing in turn, and then with all."""
    words, files = shlex.split(line), {}
    for option in ASKED[words[0]]:
        name = given(words, option)
        if name is not None:
            yield f"{line}, without {name}", without, programs, words, dict(files), option, name
            files[name] = CONTENT.get(f"{words[0]} {option}", CONTENT.get(option, b""))
    yield line, all_there, programs, words, files, status, first


def check(programs):
    rows = [(line, refused, programs, line, reason) for line, reason in REFUSED]
    rows += [(line or "no words", refused, programs, line, "") for line in QUIET]
    rows += [(line, same, programs, line, other) for line, other in SAME]
    return judged(rows + [row for one in READ for row in rows_of(programs, *one)])


if __name__ == "__main__":
    sys.exit(main(check))

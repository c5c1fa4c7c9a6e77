#!/usr/bin/env python3
"""The first input error decides, its line alone is printed, and no file changes: tests/refusals.py [--with NTBOOT NTMEND]. The order in which words and
files are judged is that of docs/texts.md, "The command line"."""
import shlex
import sys

from programs import RUNS, Said, differs, fresh, judged, listing, main, read, said

# The files of each row beside `s`, its script or other text. `z` is no hive, and too long for a script or a boot.ini; `x` and `y` were saved earlier.
FILES = {"h": read(RUNS, "starts_one_boot_driver", "hive"), "l": b"", "z": bytes(65537), "x": b"before", "y": b"before"}
NOT_REGF = "hive fault not-regf at 0"

# The words, the file `s`, the exit, and the line.
ROWS = [
    # run, show and make
    ("run --hive h --save-hive x --save-log y", b"", 1, "bad usage"),
    ("run --hive h --hive h --script s --save-hive x", b"", 1, "bad usage"),
    ("show --hive h --save-hive x", b"", 1, "bad usage"),
    ("make --save-hive x 0", b"", 1, "bad usage"),
    ("make --save-hive x 10001", b"", 1, "bad usage"),
    ("make --save-hive x +40", b"", 1, "bad usage"),
    ("run --hive h --script none --save-hive x", b"", 2, "no file none"),
    ("run --hive none --script s --save-hive x", b"boot\n", 2, "no file none"),
    ("run --hive h --log none --script s --save-log y", b"boot\n", 2, "no file none"),
    ("run --hive none --boot-ini none2 --script s", b"boot\n", 2, "no file none2"),
    ("run --hive z --log none --script s", b"boot\n", 2, "no file none"),
    ("run --hive none --boot-ini z --script s", b"boot now\n", 3, "script fault 1 word"),
    ("show --hive none", b"", 2, "no file none"),
    ("show --hive z --log none", b"", 2, "no file none"),
    ("run --hive z --log l --script s --save-hive x --save-log y", b"boot now\n", 3, "script fault 1 word"),
    ("run --hive h --script z --save-hive x", b"", 3, "script fault 0 too-long"),
    ("run --hive z --script s --boot-ini z --save-hive x", b"boot\n", 4, "boot.ini fault too-long"),
    ("run --hive none --script s --boot-ini z", b"boot\n", 4, "boot.ini fault too-long"),
    ("run --hive z --log l --script s --save-hive x --save-log y", b"boot\n", 5, NOT_REGF),
    ("show --hive z", b"", 5, NOT_REGF),
    # safe and whatif
    (r"safe --hive h --system 'C:\'", b"", 1, "bad usage"),
    ("safe --hive h --boot-ini none", b"", 2, "no file none"),
    ("safe --hive none --boot-ini s", b"", 2, "no file none"),
    ("safe --hive none --boot-ini z", b"", 4, "boot.ini fault too-long"),
    ("safe --hive s", b"", 5, NOT_REGF),
    ("whatif --hive none --boot-ini none2", b"", 2, "no file none2"),
    ("whatif --hive z --log none", b"", 2, "no file none"),
    ("whatif --hive z", b"", 5, NOT_REGF),
    # control
    ("control --hive h", b"", 1, "bad usage"),
    ("control --hive h --commands none", b"", 2, "no file none"),
    ("control --hive none --commands s", b"list\nbegin\n", 3, "script fault 2 word"),
    ("control --hive none --commands z", b"", 3, "script fault 0 too-long"),
    ("control --hive none --commands s", b"list\n", 2, "no file none"),
    ("control --hive s --commands s", b"list\n", 5, NOT_REGF),
    # twin
    ("twin --hive h --default 1000", b"", 1, "bad usage"),
    ("twin --hive h --alt none --save-alt y", b"", 2, "no file none"),
    ("twin --hive none --alt none2 --save-hive x", b"", 2, "no file none"),
    ("twin --hive s --save-hive x", b"", 5, NOT_REGF),
    # export and import
    ("export --hive h --reg x --key None", b"", 0, "export refused no-key"),
    ("export --hive s --reg x", b"", 5, NOT_REGF),
    ("export --hive s --reg x --key None", b"", 5, NOT_REGF),
    ("import --hive s --reg none --save-hive x", b"", 5, NOT_REGF),
    ("import --hive h --reg none --save-hive x", b"", 2, "no file none"),
    ("import --hive h --log none --reg none2 --save-hive x", b"", 2, "no file none"),
    ("import --hive h --reg s --save-hive x", b"REGEDIT4\r\n", 10, "reg fault 0 mark"),
    ("import --hive h --reg s --save-hive x --encoding utf-8", b"REGEDIT4\r\n", 10, "reg fault 1 header"),
    # why, graph and sweep
    ("why Disk --hive none --script none2", b"", 2, "no file none2"),
    ("why Disk --hive none --script s", b"fault sync 1\n", 3, "script fault 1 word"),
    ("why Disk --hive none", b"", 2, "no file none"),
    ("graph --hive none --script s --boot-ini z", b"", 4, "boot.ini fault too-long"),
    ("graph --hive z --script s", b"boot\n", 5, NOT_REGF),
    ("sweep --hive none --script s", b"boot\n", 3, "script fault 0 sweep"),
    ("sweep --hive none --script s", b"sweep\nboot\n", 2, "no file none"),
    # key, check, diff, replay and salvage
    ("key --hive none --key None", b"", 2, "no file none"),
    ("key --hive z --key None", b"", 5, NOT_REGF),
    ("check --hive z --log none", b"", 2, "no file none"),
    ("check --hive z", b"", 5, NOT_REGF),
    ("diff --hive z --with none", b"", 5, NOT_REGF),
    ("diff --hive h --with none", b"", 2, "no file none"),
    ("diff --hive h --with z --with-log none", b"", 2, "no file none"),
    ("diff --hive h --with z", b"", 5, "with fault not-regf at 0"),
    ("replay --hive none --log none2 --save-hive x", b"", 2, "no file none"),
    ("replay --hive z --log1 none --log2 none2 --save-hive x", b"", 2, "no file none"),
    ("replay --hive z --log2 none2 --log none", b"", 2, "no file none"),
    ("replay --hive z --save-hive x", b"", 5, NOT_REGF),
    ("salvage --hive none --save-hive x", b"", 2, "no file none"),
    ("salvage --hive z --log none --save-hive x", b"", 2, "no file none"),
    # devices, find and services
    ("devices --hive h --save-hive x", b"", 1, "bad usage"),
    ("devices --hive none --set 7", b"", 2, "no file none"),
    ("devices --hive z --log none", b"", 2, "no file none"),
    ("devices --hive z --set 7", b"", 5, NOT_REGF),
    ("find --hive h", b"", 1, "bad usage"),
    ("find --hive none --text Disk --key None", b"", 2, "no file none"),
    ("find --hive z --hex 00 --log none", b"", 2, "no file none"),
    ("find --hive z --text Disk --key None", b"", 5, NOT_REGF),
    ("services --hive h --since 2012-02-30", b"", 1, "bad usage"),
    ("services --hive none --start 5", b"", 2, "no file none"),
    ("services --hive z --log none --sort order", b"", 2, "no file none"),
    ("services --hive z --set 7", b"", 5, NOT_REGF),
]


def refused(programs, words, script, status, line):
    """Wrong where another line is printed, or a file changes."""
    with fresh({**FILES, "s": script}) as room:
        before = listing(room)
        found = said(programs.ntboot, shlex.split(words), room)
        return differs(found, Said(line.encode() + b"\n", b"", status)) or ("" if listing(room) == before else "a file is another one")


def check(programs):
    return judged((f"{words} of {script!r}", refused, programs, words, script, status, line) for words, script, status, line in ROWS)


if __name__ == "__main__":
    sys.exit(main(check))

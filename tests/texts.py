#!/usr/bin/env python3
"""How scripts and registry texts are read: tests/texts.py [--with NTBOOT NTMEND]. A script or a registry text with a fault is refused for its first
faulty line; a registry text without one is imported into a hive of a root alone, and what is exported then is the wanted text. The rules: docs/texts.md."""
import sys

from programs import RUNS, Said, differs, fresh, judged, listing, main, read, said
from hive_edits import Key, packed

ONE_DRIVER = read(RUNS, "starts_one_boot_driver", "hive")
EMPTY = packed(Key("ROOT"))
HEADER = "Windows Registry Editor Version 5.00\r\n"
ROOT = "HKEY_LOCAL_MACHINE\\SYSTEM"

# A script, and the line and the kind of its first fault.
SCRIPTS = [
    (b"boot\nboot 0\n", "2 number"),
    (b"boot now", "1 word"),
    (b"go\tnow", "1 line"),
    (b'fail "X 1', "1 line"),
    (b"BOOT", "1 word"),
    (b"fail X", "1 word"),
    (b"cut now some", "1 word"),
    (b"set A B dword", "1 word"),
    (b"go 0 0", "1 word"),
    (b"go 0", "1 number"),
    (b"go 4294967296", "1 number"),
    (b"go 00000000001", "1 number"),
    (b"set A B binary abc", "1 number"),
    (b"set A B binary 0g", "1 number"),
    (b"set A B dword -1", "1 number"),
    (b'# x\r\n\r\n fail "a b" 3 \nfail M', "4 word"),
    (b"go 5\r", "1 line"),
    (b'"bo"ot', "1 line"),
    (b'bo"ot', "1 line"),
    (b"boot lkg 5", "1 word"),
    (b"boot 5 5", "1 word"),
    (b"boot 0 lkg", "1 number"),
    (b"cut read 0 every", "1 word"),
    (b"cut read 0 all", "1 number"),
    (b"fault seek 1", "1 word"),
    (b"off now", "1 word"),
    (b'go ""', "1 number"),
    (b"flush\xff", "1 line"),
    (b"sweep", "1 word"),
    (b"boot\n" * 65, "65 too-many-starts"),
    (b"boot\n" * 65 + b"go 0\n", "65 too-many-starts"),
    (b"#" * 65537, "0 too-long"),
    (b"boot now\n" + b"#" * 65529, "0 too-long"),
]

# A script without a fault, and how many starts it has.
READ_SCRIPTS = [(b"boot\noff\n" * 64, 64), (b"#" * 65536, 0), (b" # \xff\n  \r\n \"boot\" \r\n\"off\"", 1), (b"boot 4294967295 lkg", 1)]

# The whole bytes of a registry text, and the line and the kind of its first fault.
WHOLE = [
    (b"", "0 mark"),
    (b"\xff", "0 mark"),
    (b"\xfe\xffW\0", "0 mark"),
    (b"\xff\xfe", "1 header"),
    (b"\xff\xfeR\0E\0G\0", "1 header"),
    (b"\xff\xfe\r\0\n\0", "1 header"),
    (b"\xff\xfe\n\0x", "1 header"),
    (b"\xff\xfeW\0i", "1 header"),
    (b"\xff\xfe;\0\n\0", "1 header"),
]

# Lines after the header, and the line and the kind of their first fault.
LINES = [
    ("[HKEY_CURRENT_USER\\X]\n", "2 root"),
    ("\n[HKEY_LOCAL_MACHINE\\SOFTWARE]\n", "3 root"),
    (f"[{ROOT}X]\n", "2 root"),
    ("[-HKEY_LOCAL_MACHINE]\n", "2 root"),
    ("[]\n", "2 root"),
    (f"[ {ROOT}]\n", "2 root"),
    (f"[{ROOT}\n", "2 line"),
    (f"[{ROOT}]x\n", "2 line"),
    ('"V"="x"\n', "2 line"),
    ("@=-\n", "2 line"),
    (f'[-{ROOT}\\A]\n"V"="x"\n', "3 line"),
    (f'[{ROOT}]\n"V"=hex:01,\\\n02,\\\n', "3 line"),
    (f'[{ROOT}]\n"V"=hex:01,\\\n;c\n02\n', "3 line"),
    (f'[{ROOT}]\n"V"=hex:01,\\\n\n02\n', "3 line"),
    (f'[{ROOT}]\n"V"=hex:01,\\', "3 line"),
    (f"[{ROOT}]\nx\n[HKEY_CURRENT_USER]\n", "3 line"),
]

# A line of a value that is faulty in any key.
VALUES = [
    'V="x"', '"V"', '"V"=', '"V" ="x"', '"V"= "x"', '"V"="x"y', '"V"="x', '"V="x"', '"a\\n"="x"', '"V"="a\\nb"', '"V"=dword:0000001', '"V"=dword:000000001',
    '"V"=dword: 00000001', '"V"=dword:0000000g', '"V"=hex:1', '"V"=hex:01,', '"V"=hex:01 ,02', '"V"=hex:01\\', '"V"=hex():01', '"V"=hex(123456789):01',
    '"V"=hex(1) :01', '"V"=hex(1:01', '"V"=--', '@@="x"',
]

# Lines after the header with half a unit behind them, which counts in the last line.
HALF = [("", "2 line"), (";c", "2 line"), (";c\n", "3 line"), ("[HKEY_CURRENT_USER]\n", "2 root")]

# Lines after the header, and the lines of each key that is exported then.
TAKEN = [
    ("", {"": []}),
    (f'\r\n[{ROOT}\\A\\B]\r\n"V"=dword:00000001\r\n', {"": [], "\\A": [], "\\A\\B": ['"V"=dword:00000001']}),
    ('[hkey_Local_machine\\sYSTEM]\n@="x"\n', {"": ['@="x"']}),
    (f'\t; c\n\n \t\r\n  [{ROOT}\\A] \t\r\n;"V"=1\n\t"V"=DWORD:0aBcDeF9 \r\n', {"": [], "\\A": ['"V"=dword:0abcdef9']}),
    (f'[{ROOT}]\n"V"=hex:01,\\\n \t 02,0A,\\ \n\t0b\n', {"": ['"V"=hex:01,02,0a,0b']}),
    (f'[{ROOT}]\n"V"=hex:\n"W"=HEX(7):00,00\n"X"=hex(0000000B):\n"Y"=hex(ffffffff):1f\n""=hex(1):\n',
     {"": ['"V"=hex:', '"W"=hex(7):00,00', '"X"=hex(b):', '"Y"=hex(ffffffff):1f', "@=hex(1):"]}),
    (f'[{ROOT}\\A]\n"V"="x"\n@="y"\n"W"="z"\n"V"=-\n@=-\n', {"": [], "\\A": ['"W"="z"']}),
    (f'[{ROOT}\\A\\C]\n"V"="x"\n[-{ROOT}\\A]\n[{ROOT}\\B]\n', {"": [], "\\B": []}),
    (f'[{ROOT}]\n"V"="x"', {"": ['"V"="x"']}),
    (f'[{ROOT}]\n"a\\\\b\\"c"=" \\"q\\\\ "\n', {"": ['"a\\\\b\\"c"=" \\"q\\\\ "']}),
    (f'[{ROOT}]\n"V"="a\rb"\r\n"W"=""\n', {"": ['"V"=hex(1):61,00,0d,00,62,00,00,00', '"W"=""']}),
    (f"[{ROOT}\\A]B]\n", {"": [], "\\A]B": []}),
    (f'[{ROOT}\\ A ]\n" "=";"\n', {"": [], "\\ A ": ['" "=";"']}),
    (f'[{ROOT}]\n"B"=dword:000000Ff\n', {"": ['"B"=dword:000000ff']}),
    (f'[{ROOT}]\n"B"=hex(4):01,00,00\n', {"": ['"B"=hex(4):01,00,00']}),
    (f'[{ROOT}]\n"B"=hex(4):01,00,00,00\n', {"": ['"B"=dword:00000001']}),
    (f"[{ROOT}]\n@=hex(1):41,00,00,00\n", {"": ['@="A"']}),
    (f'[{ROOT}]\n"B"=hex(1):41,00\n"C"=hex(1):0a,00,00,00\n"D"=hex(1):00,00,00,00\n"E"=hex(1):41,00,00\n',
     {"": ['"B"=hex(1):41,00', '"C"=hex(1):0a,00,00,00', '"D"=hex(1):00,00,00,00', '"E"=hex(1):41,00,00']}),
    (f'[{ROOT}]\n"q\\"\\\\"="\\\\\\""\n"F"=hex(0):\n"G"=hex(3):0A\n"H"=hex(FFFFFFFF):00\n',
     {"": ['"q\\"\\\\"="\\\\\\""', '"F"=hex(0):', '"G"=hex:0a', '"H"=hex(ffffffff):00']}),
    # A value keeps its name, a key comes before the first sibling that folds greater, and a name with a unit above 0xFF is one.
    (f'[{ROOT}\\A]\n"V"="x"\n"W"="y"\n[{ROOT}\\a]\n"v"=dword:00000001\n', {"": [], "\\A": ['"V"=dword:00000001', '"W"="y"']}),
    (f"[{ROOT}\\b]\n[{ROOT}\\C]\n[{ROOT}\\A]\n[{ROOT}\\B]\n", {"": [], "\\A": [], "\\b": [], "\\C": []}),
    (f'[{ROOT}\\\u4e2d\ud83d]\n"\u00e9"="\u4e2d"\n', {"": [], "\\\u4e2d\ud83d": ['"\u00e9"="\u4e2d"']}),
]

# Lines after the header that make a change which is refused, and the word.
REFUSED = [
    (f"[{ROOT}\\A\\\\B\\]\n", "bad-name"),
    (f"[{ROOT}\\B]\n[-{ROOT}]\n", "no-key"),
    (f"[-{ROOT}\\A]\n", "no-key"),
    (f'[{ROOT}\\A]\n"V"="x"\n"W"=-\n', "no-value"),
    (f"[{ROOT}\\{'A' * 256}]\n", "name-too-long"),
    (f"[{ROOT}" + "\\A" * 512 + "]\n", "too-deep"),
]


def wide(text):
    """A text in UTF-16 after its mark."""
    return b"\xff\xfe" + text.encode("utf-16-le", "surrogatepass")


def exported(keys):
    """The text of these keys, each with the lines of its values."""
    return wide(HEADER + "\r\n" + "".join(f"[{ROOT}{path}]\r\n" + "".join(line + "\r\n" for line in lines) + "\r\n" for path, lines in keys.items()))


def faulty_script(programs, script, fault):
    with fresh({"h": ONE_DRIVER, "s": script}) as room:
        return differs(said(programs.ntboot, ["run", "--hive", "h", "--script", "s"], room), Said(f"script fault {fault}\n".encode(), b"", 3))


def read_script(programs, script, starts):
    """A script that is read: the last lines are those of its end, after that many starts."""
    with fresh({"h": ONE_DRIVER, "s": script}) as room:
        found = said(programs.ntboot, ["run", "--hive", "h", "--script", "s"], room)
        lines = found.out.decode().splitlines()
        begun = sum(line.startswith("start ") for line in lines)
        return "" if (found.status, begun, lines[-1]) == (0, starts, "end") else f"exit {found.status}, {begun} starts, {lines[-1]}"


def imported(programs, text, status, line, files):
    """A text imported into the hive of a root alone: wrong where another line is printed, or the folder has not these files after it."""
    with fresh({"h": EMPTY, "r": text}) as room:
        found = said(programs.ntboot, ["import", "--hive", "h", "--reg", "r", "--save-hive", "x"], room)
        wrong = differs(found, Said(line.encode() + b"\n", b"", status))
        return wrong or ("" if sorted(listing(room)) == sorted(files) else f"there are {sorted(listing(room))}")


def faulty(programs, text, fault):
    return imported(programs, text, 10, f"reg fault {fault}", "hr")


def refused(programs, text, word):
    return imported(programs, text, 0, f"import refused {word}", "hrx")


def taken(programs, text, keys):
    """What is exported after the import."""
    with fresh({"h": EMPTY, "r": text}) as room:
        first = said(programs.ntboot, ["import", "--hive", "h", "--reg", "r", "--save-hive", "x"], room)
        line = "import nothing\n" if keys == {"": []} else "commit import 6\n"
        then = said(programs.ntboot, ["export", "--hive", "x", "--reg", "out"], room)
        told = f"exported {len(keys)} keys {sum(map(len, keys.values()))} values\n"
        wrong = differs(first, Said(line.encode(), b"", 0)) or differs(then, Said(told.encode(), b"", 0))
        return wrong or ("" if read(room, "out") == exported(keys) else f"exported {read(room, 'out').decode('utf-16-le', 'backslashreplace')!r}")


def check(programs):
    rows = [(f"script {script[:80]!r}", faulty_script, programs, script, fault) for script, fault in SCRIPTS]
    rows += [(f"script {script[:80]!r}", read_script, programs, script, starts) for script, starts in READ_SCRIPTS]
    rows += [(f"text {text!r}", faulty, programs, text, fault) for text, fault in WHOLE]
    rows += [(f"lines {lines!r}", faulty, programs, wide(HEADER + lines), fault) for lines, fault in LINES]
    rows += [(f"value {line!r}", faulty, programs, wide(f"{HEADER}[{ROOT}\\A]\n{line}"), "3 line") for line in VALUES]
    rows += [(f"half a unit after {lines!r}", faulty, programs, wide(HEADER + lines) + b"x", fault) for lines, fault in HALF]
    rows += [(f"lines {lines!r}", taken, programs, wide(HEADER + lines), keys) for lines, keys in TAKEN]
    rows += [(f"lines {lines[:80]!r}", refused, programs, wide(HEADER + lines), word) for lines, word in REFUSED]
    return judged(rows)


if __name__ == "__main__":
    sys.exit(main(check))

#!/usr/bin/env python3
"""Says whether a report shows what a lab asks for: labs/check.py LAB REPORT.. (LAB is its number or folder; several reports are read one after another).
It prints `passed`, or a hint for each thing that is missing, and its exit is 0 or 1. With --show, for a teacher, it prints the wanted lines too. The
reports are what ntboot prints, as text or as JSON lines, with or without lines `answer ..` that the task asks for.

What a lab asks for is its file `expected`, or in the students' archive the same file packed as `asked`. Its lines, in which `*` stands for any text:

    in report             what follows is asked of all that was handed in
    in part N             of its N-th part: a start of a run, or the whole report of another command; `last` is the last part
    in some part          all that follows is asked of one part, whichever
    says LINE             this line is there
    then LINE             this line is there, after the one that `says` or `then` found just before
    never LINE            this line is not there
    tries NAME..          the attempts are of these names, all of them and in this order
    counts N LINE         this line is there N times
    # TEXT                a hint, printed where the line before it fails
"""
import os
import re
import signal
import sys
import zlib

LABS = os.path.dirname(os.path.abspath(__file__))
sys.path.insert(0, LABS)
import reports


def agrees(line, wanted):
    """Whether a line is the wanted one, in which `*` stands for any text."""
    return re.fullmatch(".*".join(re.escape(piece) for piece in wanted.split("*")), line) is not None


# The hint of a claim that has none of its own, by its word.
HINTS = {
    "says": "a line is missing",
    "then": "a line is missing, or comes too early",
    "never": "a line is there that should not be",
    "tries": "the attempts are not the right ones, or not in the right order",
    "counts": "a line is there too often or too seldom",
}


class Claim:
    """A line of `expected` that a report meets or not."""

    def __init__(self, line):
        self.line = line
        self.word, _, self.rest = line.partition(" ")
        self.hint = ""

    def told(self, where, show):
        """What is printed where it does not hold: the hint, and the claim itself only where it is to be shown."""
        hint = self.hint or HINTS[self.word]
        return f"missing in {where}: {self.line}  ({hint})" if show else f"in {where}: {hint}"

    def holds(self, lines, since):
        """Whether it holds of these lines, and the place after the line that it found."""
        if self.word in ("says", "then"):
            begin = since if self.word == "then" else 0
            for i in range(begin, len(lines)):
                if agrees(lines[i], self.rest):
                    return True, i + 1
            return False, since
        if self.word == "never":
            return not any(agrees(line, self.rest) for line in lines), since
        if self.word == "tries":
            tried = [line.split(" ")[1] for line in lines if line.startswith("try ")]
            return tried == self.rest.split(), since
        if self.word == "counts":
            count, _, wanted = self.rest.partition(" ")
            return sum(agrees(line, wanted) for line in lines) == int(count), since
        raise SystemExit(f"no such claim: {self.line}")


def claims_of(text):
    """The blocks of a file `expected`: where, and the claims there."""
    blocks = [("report", [])]
    for line in (line.strip() for line in text.splitlines()):
        if line.startswith("in "):
            blocks.append((line[3:], []))
        elif line.startswith("#"):
            if blocks[-1][1]:
                blocks[-1][1][-1].hint = line[1:].strip()
        elif line:
            blocks[-1][1].append(Claim(line))
    return [block for block in blocks if block[1]]


def failing(claims, lines):
    """The claims that do not hold of these lines."""
    since, out = 0, []
    for claim in claims:
        held, since = claim.holds(lines, since)
        if not held:
            out.append(claim)
    return out


def missing(where, claims, lines):
    """The claims of a block that do not hold of all that was handed in. Answers are in no part."""
    parts = reports.parts_of([line for line in lines if not line.startswith("answer ")])
    if where == "report":
        return failing(claims, lines)
    if where == "some part":
        return min((failing(claims, part) for part in parts), key=lambda bad: (claims[0] in bad, len(bad)), default=claims)
    number = where.split(" ")[1]
    at = len(parts) - 1 if number == "last" else int(number) - 1
    return failing(claims, parts[at]) if 0 <= at < len(parts) else claims


def folder_of(lab):
    """The folder of a lab by its number or its name."""
    name = os.path.basename(os.path.normpath(lab))
    found = [n for n in sorted(os.listdir(LABS)) if n[:2].isdigit() and (n == name or name.isdigit() and int(n[:2]) == int(name))]
    if not found:
        raise SystemExit(f"no lab {lab}")
    return os.path.join(LABS, found[0])


def asked_in(folder):
    """What a lab asks for: its file `expected`, or in the students' archive `asked`."""
    plain = os.path.join(folder, "expected")
    if os.path.isfile(plain):
        with open(plain) as f:
            return f.read()
    try:
        with open(os.path.join(folder, "asked"), "rb") as f:
            return zlib.decompress(f.read()).decode()
    except (OSError, zlib.error):
        raise SystemExit(f"{os.path.basename(folder)}: what the lab asks for is not here; ask your teacher")


def read_reports(names):
    """The lines of the reports, one report after another."""
    lines = []
    for name in names:
        try:
            with open(name, "rb") as f:
                lines += reports.lines_of(f.read())
        except OSError:
            raise SystemExit(f"no file {name}")
    return lines


def main(words):
    show = "--show" in words
    words = [word for word in words if word != "--show"]
    if len(words) < 2:
        raise SystemExit(__doc__)
    blocks = claims_of(asked_in(folder_of(words[0])))
    lines = read_reports(words[1:])
    failed = [claim.told(where, show) for where, claims in blocks for claim in missing(where, claims, lines)]
    for line in dict.fromkeys(failed):
        print(line)
    print(f"{len(failed)} missing" if failed else "passed")
    return 1 if failed else 0


if __name__ == "__main__":
    signal.signal(signal.SIGPIPE, signal.SIG_DFL)  # a reader such as `head` may close early
    sys.exit(main(sys.argv[1:]))

#!/usr/bin/env python3
"""Compares what the program says of its commands in four places: the table that it reads its command line by (crates/command_words/src/table.rt), the pages of
help (crates/help_text/src/texts.rt), the synopsis of docs/ntboot.1, and the table of commands in README.md. Each command has to be in all four, with the same
options in the first three; the flags of every command (--json, --verbose) are on the overview alone. Prints each difference, then 'N passed, M failed'."""
import os
import re
import sys

TOP = os.path.join(os.path.dirname(os.path.abspath(__file__)), "..")
COMMON = {"--json", "--verbose"}


def text(*path):
    with open(os.path.join(TOP, *path), encoding="utf-8") as f:
        return f.read()


def table():
    """Each command of the table, with its options."""
    code = text("crates", "command_words", "src", "table.rt")
    names = dict(re.findall(r'const (\w+): CommandOption = option!\("([^"]+)"', code))
    body = code[code.index("static COMMANDS") :]
    found = re.findall(r'command!\(\s*"(\w+)",\s*\w+,\s*\[([^\]]*)\]\s*\)', body)
    return {name: {names[it.strip()] for it in options.split(",") if it.strip()} for name, options in found}


def pages():
    """Each command with the options that its page of help lists, and the commands that the overview lists."""
    code = text("crates", "help_text", "src", "texts.rt")
    found = re.findall(r'pub const (\w+): &\[u8\] =\s*b"(.*?)(?<!\\)";', code, re.S)
    of = {name.lower(): page for name, page in found}
    overview = set(re.findall(r"^  (\w+) +\S", of["overview"], re.M))
    return of, overview


def on_page(page):
    """The options that a page lists, or names in its first line."""
    return set(re.findall(r"^  (--[a-z0-9-]+)", page, re.M)) | set(re.findall(r"--[a-z0-9-]+", page.split("\n")[0]))


def synopsis():
    """Each command of the man page, with its options."""
    page = text("docs", "ntboot.1").split(".SH DESCRIPTION")[0].replace("\\-", "-")
    return {block.split()[0]: set(re.findall(r"--[a-z0-9-]+", block)) for block in re.split(r"^\.B ntboot ", page, flags=re.M)[1:]}


def main():
    commands, (of, overview), man, readme = table(), pages(), synopsis(), text("README.md")
    passed, failed = 0, 0
    for name, options in commands.items():
        wanted = {it for it in options if it.startswith("--")} - COMMON
        tries = [
            ("its page of help", on_page(of.get(name, "\n")) - COMMON == wanted, sorted(wanted ^ (on_page(of.get(name, "\n")) - COMMON))),
            ("the overview", name in overview, [name]),
            ("the man page", man.get(name, set()) - COMMON == wanted, sorted(wanted ^ (man.get(name, set()) - COMMON))),
            ("--json on the man page", ("--json" in options) == ("--json" in man.get(name, set())), ["--json"]),
            ("README.md", f"| `{name}` |" in readme, [name]),
        ]
        for place, holds, differ in tries:
            passed, failed = passed + holds, failed + (not holds)
            if not holds:
                print(f"{name}: {place} differs: {' '.join(differ)}")
    for name in sorted(overview - set(commands) - {"help", "version"}):
        print(f"{name}: the overview has it, and the table doesn't")
        failed += 1
    print(f"{passed} passed, {failed} failed")
    return 1 if failed else 0


if __name__ == "__main__":
    sys.exit(main())

#!/usr/bin/env python3
"""Makes the completions of the words of ntboot and ntmend for bash, zsh and fish, in docs/completions, out of what the programs read their words by:
crates/command_words/src/table.rt and reading.rt, crates/ntmend/src/pages.rt. tests/completions.py checks that the files are those, and ends with
'N passed, M failed'; with --write it writes them.

From the table come the commands, their options, which options take a value, and the values that can be listed: those between backquotes in
the comment of a variant of `Takes`. An option that takes any text is completed by names of files, but for those in `TEXTS`."""
import os
import re
import sys

TOP = os.path.join(os.path.dirname(os.path.abspath(__file__)), "..")
TABLE = os.path.join(TOP, "crates", "command_words", "src", "table.rt")
READING = os.path.join(TOP, "crates", "command_words", "src", "reading.rt")
MEND_PAGES = os.path.join(TOP, "crates", "ntmend", "src", "pages.rt")
FOLDER = os.path.join(TOP, "docs", "completions")
# Options of any text that name no file.
TEXTS = ("--key", "--of", "--text")
HEAD = "Completions of ntboot's words for {}. Made by tests/completions.py from crates/command_words/src/table.rt; edit neither by hand."


class Option:
    """An option of a command: its name, and what it takes: nothing, names of files, listed words, or something that can't be listed."""

    def __init__(self, name, takes, words):
        self.name = name
        self.is_flag = takes == "Flag"
        self.is_file = takes == "Any" and name not in TEXTS
        self.words = words


def value_words(text, commands):
    """For each variant of Takes the values that its comment lists."""
    body = re.search(r"pub enum Takes \{(.*?)\n\}", text, re.S).group(1)
    found = {}
    for comment, name in re.findall(r"((?:\s*///[^\n]*\n)*)\s*(\w+),", body):
        found[name] = [word for word in re.findall(r"`([^`]+)`", comment) if word not in commands]
    return found


def table():
    """The commands in order, each with its options."""
    with open(TABLE) as f:
        text = f.read()
    rows = text[text.index("static COMMANDS"):]
    rows = rows[:rows.index("\n];")]
    found = re.findall(r'command!\(\s*"([\w-]+)",\s*\w+,\s*&?\[([^\]]*)\]', rows)
    if len(found) != rows.count("command!("):
        raise SystemExit(f"{TABLE}: a row of COMMANDS could not be read")
    words = value_words(text, [name for name, _ in found])
    options = {const: Option(name, takes, words[takes]) for const, name, takes in re.findall(r'const (\w+): CommandOption = option!\("([^"]+)",\s*(\w+)\);', text)}
    macro = re.search(r"macro_rules! command \{(.*?)\n\}", text, re.S).group(1)
    shared = re.findall(r"\b[A-Z][A-Z0-9_]+\b", macro[macro.index("options:"):])
    return [(name, [options[const] for const in re.findall(r"\w+", listed) + shared if options[const].name.startswith("--")]) for name, listed in found]


MEND_HEAD = "Completions of ntmend's words for {}. Made by tests/completions.py from crates/ntmend/src/pages.rt; edit neither by hand."
# What may be in place of a command; `help` is followed by the name of a page.
ABOUT = ["help", "version"]


def pages(commands):
    """The pages that `help` names: the topics, and the commands."""
    with open(READING) as f:
        body = re.search(r"^fn page_named\(.*?^\}", f.read(), re.S | re.M).group()
    return [name for name, _ in commands] + re.findall(r'name == "(\w+)"', body)


def lone_words():
    """The words of ntmend that ask for a page, where they stand alone."""
    with open(MEND_PAGES) as f:
        return re.findall(r'word == "(--\w+)"', f.read())


def bash(commands):
    """Which option the word before is, and which are there already, is found in the shell; the table is in `case`."""
    yield "# " + HEAD.format("bash")
    yield "# To use it: source this file, or put it into /usr/share/bash-completion/completions as ntboot."
    yield "_ntboot() {"
    yield "    local current=${COMP_WORDS[COMP_CWORD]} before=${COMP_WORDS[COMP_CWORD-1]} command=${COMP_WORDS[1]} options= word i"
    yield "    COMPREPLY=()"
    yield "    if [ \"$COMP_CWORD\" -eq 1 ]; then"
    yield f"        COMPREPLY=($(compgen -W \"{' '.join([name for name, _ in commands] + ABOUT)}\" -- \"$current\"))"
    yield "        return"
    yield "    fi"
    yield "    # --name=value comes as three words"
    yield "    if [ \"$before\" = = ]; then before=${COMP_WORDS[COMP_CWORD-2]}; elif [ \"$current\" = = ]; then before=${COMP_WORDS[COMP_CWORD-1]} current=; fi"
    yield "    case $command in"
    for name, options in commands:
        yield f"        {name}) options=\"{' '.join(option.name for option in options)}\" ;;"
    yield f"        help) [ \"$COMP_CWORD\" -eq 2 ] && COMPREPLY=($(compgen -W \"{' '.join(pages(commands))}\" -- \"$current\")); return ;;"
    yield "        *) return ;;"
    yield "    esac"
    yield "    case $before in"
    every = {option.name: option for _, options in commands for option in options}
    files = [name for name, option in every.items() if option.is_file]
    if files:
        yield f"        {'|'.join(files)})"
        yield "            compopt -o filenames 2> /dev/null"
        yield "            mapfile -t COMPREPLY < <(compgen -f -- \"$current\"); return ;;"
    for name, option in every.items():
        if option.words and not option.is_flag and not option.is_file:
            yield f"        {name}) COMPREPLY=($(compgen -W \"{' '.join(option.words)}\" -- \"$current\")); return ;;"
    bare = [name for name, option in every.items() if not (option.is_flag or option.is_file or option.words)]
    if bare:
        yield f"        {'|'.join(bare)}) return ;;"
    yield "    esac"
    yield "    # an option is given once"
    yield "    for word in $options; do"
    yield "        for ((i = 2; i < COMP_CWORD; i++)); do"
    yield "            [ \"${COMP_WORDS[i]}\" = \"$word\" ] && continue 2"
    yield "        done"
    yield "        COMPREPLY+=($(compgen -W \"$word\" -- \"$current\"))"
    yield "    done"
    yield "}"
    yield "complete -F _ntboot ntboot"


def zsh(commands):
    def said(option):
        if option.is_flag:
            return f"'{option.name}'"
        action = "_files" if option.is_file else "(" + " ".join(option.words) + ")" if option.words else " "
        return f"'{option.name}=:value:{action}'"

    yield "#compdef ntboot"
    yield "# " + HEAD.format("zsh")
    yield "# To use it: put it as _ntboot into a folder of $fpath, before compinit."
    yield "_ntboot() {"
    yield "    if (( CURRENT == 2 )); then"
    yield f"        compadd -- {' '.join([name for name, _ in commands] + ABOUT)}"
    yield "        return"
    yield "    fi"
    yield "    local command=$words[2]"
    yield "    shift words"
    yield "    (( CURRENT-- ))"
    yield "    case $command in"
    for name, options in commands:
        yield f"        ({name})"
        yield "            _arguments \\"
        for i, option in enumerate(options):
            yield f"                {said(option)}" + (" \\" if i + 1 < len(options) else " ;;")
    yield "        (help)"
    yield f"            (( CURRENT == 2 )) && compadd -- {' '.join(pages(commands))} ;;"
    yield "    esac"
    yield "}"
    yield "_ntboot \"$@\""


def fish(commands):
    yield "# " + HEAD.format("fish")
    yield "# To use it: put it as ntboot.fish into ~/.config/fish/completions."
    yield "# The words begin with this command, and the option was not given, but perhaps as the word just before."
    yield "function __ntboot_can"
    yield "    set -l words (commandline -opc)"
    yield "    test (count $words) -gt 1; and test $words[2] = $argv[1]; or return 1"
    yield "    not contains -- --$argv[2] $words[3..-2]"
    yield "end"
    yield "function __ntboot_asks_help"
    yield "    set -l words (commandline -opc)"
    yield "    test (count $words) -eq 2; and test $words[2] = help"
    yield "end"
    yield "complete -c ntboot -f"
    yield f"complete -c ntboot -n 'test (count (commandline -opc)) -eq 1' -a '{' '.join([name for name, _ in commands] + ABOUT)}'"
    yield f"complete -c ntboot -n '__ntboot_asks_help' -a '{' '.join(pages(commands))}'"
    for name, options in commands:
        for option in options:
            takes = "" if option.is_flag else " -r -F" if option.is_file else f" -x -a '{' '.join(option.words)}'" if option.words else " -x"
            yield f"complete -c ntboot -n '__ntboot_can {name} {option.name[2:]}' -l {option.name[2:]}{takes}"


def mend_bash():
    yield "# " + MEND_HEAD.format("bash")
    yield "# To use it: source this file, or put it into /usr/share/bash-completion/completions as ntmend."
    yield "_ntmend() {"
    yield "    local current=${COMP_WORDS[COMP_CWORD]}"
    yield "    COMPREPLY=()"
    yield "    if [ \"$COMP_CWORD\" -eq 1 ] && [[ $current == -* ]]; then"
    yield f"        COMPREPLY=($(compgen -W \"{' '.join(lone_words())}\" -- \"$current\"))"
    yield "    elif [ \"$COMP_CWORD\" -le 2 ]; then"
    yield "        compopt -o filenames 2> /dev/null"
    yield "        mapfile -t COMPREPLY < <(compgen -f -- \"$current\")"
    yield "    fi"
    yield "}"
    yield "complete -F _ntmend ntmend"


def mend_zsh():
    yield "#compdef ntmend"
    yield "# " + MEND_HEAD.format("zsh")
    yield "# To use it: put it as _ntmend into a folder of $fpath, before compinit."
    yield "_arguments " + " ".join(f"'(- :){word}'" for word in lone_words()) + " ':hive:_files' ':log:_files'"


def mend_fish():
    yield "# " + MEND_HEAD.format("fish")
    yield "# To use it: put it as ntmend.fish into ~/.config/fish/completions."
    yield "complete -c ntmend -f"
    yield "complete -c ntmend -n 'test (count (commandline -opc)) -lt 3' -F"
    for word in lone_words():
        yield f"complete -c ntmend -n 'test (count (commandline -opc)) -eq 1' -l {word[2:]}"


FILES = (
    ("ntboot.bash", bash), ("_ntboot", zsh), ("ntboot.fish", fish),
    ("ntmend.bash", mend_bash), ("_ntmend", mend_zsh), ("ntmend.fish", mend_fish),
)


def main(words):
    if words not in ([], ["--write"]):
        raise SystemExit(__doc__)
    commands, differing = table(), 0
    for name, make in FILES:
        lines = make() if name.lstrip("_").startswith("ntmend") else make(commands)
        path, text = os.path.join(FOLDER, name), "".join(line + "\n" for line in lines)
        if words:
            os.makedirs(FOLDER, exist_ok=True)
            with open(path, "w") as f:
                f.write(text)
        elif not os.path.isfile(path) or open(path).read() != text:
            differing += 1
            print(f"docs/completions/{name} differs: tests/completions.py --write")
    print(f"{len(FILES) - differing} passed, {differing} failed")
    return 1 if differing else 0


if __name__ == "__main__":
    sys.exit(main(sys.argv[1:]))

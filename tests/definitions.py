#!/usr/bin/env python3
"""docs/definitions.md, made from the comments of the two books: `tests/definitions.py` checks it, `tests/definitions.py --write` writes it.

Each public word of a book has a row in the section of its file: the word, its meaning and its source. The meaning is the comment above the
word, word for word. The source is the one that the comment ends with in parentheses, else the one that its row has already, else `own`.
The check prints each row that differs, then 'N passed, N failed'."""
import os
import re
import sys

TOP = os.path.join(os.path.dirname(os.path.abspath(__file__)), "..")
TABLE = os.path.join(TOP, "docs", "definitions.md")
BOOKS = ("hive_model", "start_model")
WORD = re.compile(r"( *)(?:abbrev |unfoldable )?pub (?:data |record )?([^\s:(]+)")
SECTION = re.compile(r"## `(\w+)`: (\w+)$")
ROW = re.compile(r"\| `([^`]+)` \| (.*) \| (.*) \|$")
SOURCE = re.compile(r"^(.*?)\.? \(((?:regf format|Windows Internals|Microsoft's documentation|this project's own|own)\b[^()]*)\)\.?$")
FIRST_SECTION = "\n## `"


def comment_of(lines):
    """The sentences of a comment's lines, as one line."""
    return " ".join(line.strip().removeprefix("--").strip() for line in lines)


def parted(comment):
    """A comment's meaning, and the source that it ends with, if it has one."""
    found = SOURCE.match(comment)
    if not found:
        return comment, None
    return found.group(1), found.group(2).replace("this project's own", "own")


def words_of(path):
    """The public words of a file and their comments, and the comment that the file begins with. Within a `mutual` block words are
    indented, as the fields of a record are."""
    head, words, comment, mutual, began = [], [], [], False, False
    with open(path, encoding="utf-8") as f:
        for line in f.read().split("\n"):
            if re.match(r"[^\s-]", line):
                mutual = line.split()[-1] == "mutual"
            found = WORD.match(line)
            if line.strip().startswith("--") and not line.strip().startswith("-- ----"):
                comment.append(line)
                continue
            if found and len(found.group(1)) == (2 if mutual else 0):
                words.append((found.group(2), comment_of(comment)))
            if not began:
                head, began = comment, True
            if not (line.startswith("infix") or line.split()[-1:] == ["mutual"]):
                comment = []
    about = []
    for line in head:
        if not line.removeprefix("--").strip():
            break
        about.append(line)
    return comment_of(about), words


def sections(order):
    """Each file of the books, in the order of the page and new ones last: book, file, what it is about, and its words with their comments."""
    for book in BOOKS:
        specs = os.path.join(TOP, "crates", book, "specs")
        with open(os.path.join(specs, "Lib.antt"), encoding="utf-8") as f:
            names = re.findall(r"pub mod (\w+)", f.read())
        listed = [name for which, name in order if which == book]
        for name in [n for n in listed if n in names] + [n for n in names if n not in listed]:
            yield (book, name, *words_of(os.path.join(specs, name + ".antt")))


def kept(text):
    """What stands before the first section, the sections in order, and the source of each row, by book, file and word, and by book and word."""
    top, _, rest = text.partition(FIRST_SECTION)
    order, sources, section = [], {}, None
    for line in (FIRST_SECTION.strip() + rest).split("\n"):
        head, row = SECTION.match(line), ROW.match(line)
        if head:
            section = head.groups()
            order.append(section)
        elif row and section:
            sources[(*section, row.group(1))] = sources[(section[0], row.group(1))] = row.group(3)
    return top, order, sources


def made(text):
    """The page as the comments make it, and the words that have no comment."""
    top, order, sources = kept(text)
    out, bare = [top.rstrip("\n"), ""], []
    for book, name, about, words in sections(order):
        out += ["", f"## `{book}`: {name}", "", about, "", "| Word | Meaning | Source |", "|---|---|---|"]
        for word, comment in words:
            meaning, source = parted(comment)
            if not meaning:
                bare.append(f"{book}, {name}: `{word}` has no comment")
            source = source or sources.get((book, name, word)) or sources.get((book, word)) or "own"
            out.append(f"| `{word}` | {meaning.replace('|', chr(92) + '|')} | {source} |")
    return "\n".join(out) + "\n", bare


def main(words):
    with open(TABLE, encoding="utf-8") as f:
        text = f.read()
    page, bare = made(text)
    if words == ["--write"]:
        with open(TABLE, "w", encoding="utf-8") as f:
            f.write(page)
        text = page
    have, want = text.split("\n"), page.split("\n")
    differ = [line for line in want if line not in set(have)] + [line for line in have if line not in set(want)]
    for line in bare + differ:
        print(f"docs/definitions.md: {line}")
    failed = len(bare) + len(differ)
    print(f"{len(want) - len(differ)} passed, {failed} failed")
    return 1 if failed else 0


if __name__ == "__main__":
    sys.exit(main(sys.argv[1:]))

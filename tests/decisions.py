#!/usr/bin/env python3
"""Checks the index of docs/DECISIONS.md: the decisions are numbered from 1 on, each number of the index is one of them, each decision is in the index, and the
index names crates of crates.txt, each in its layer and once, with rising numbers. Prints each fault, then 'N passed, M failed'."""
import os
import re
import sys

import layers

PAGE = os.path.join("docs", "DECISIONS.md")


def index_of(text):
    """The index: for each layer its name and the crates in it, each with its numbers. `all` stands for all crates."""
    part = text[text.index("## Index by crate\n"):].split("\n## ")[0]
    for layer, listed in re.findall(r"^- (.+?): (.+(?:\n  .+)*)", part, re.M):
        yield layer, [(crate, [int(number) for number in numbers.split(", ")]) for crate, numbers in re.findall(r"`?(\w+)`? ([\d, ]*\d)", listed)]


def faults(text):
    numbers = [int(number) for number in re.findall(r"^(\d+)\. ", text, re.M)]
    if numbers != list(range(1, len(numbers) + 1)):
        yield "the decisions are not numbered from 1 on"
    crates_of = {f"{number} {name}": list(crates) for number, name, _, crates in layers.layers()}
    named, indexed = [], set()
    for layer, listed in index_of(text):
        for crate, of_crate in listed:
            named.append(crate)
            indexed.update(of_crate)
            if crate != "all" and crate not in crates_of.get(layer, ()):
                yield f"the index has {crate} in {layer}, where crates.txt has it not"
            if of_crate != sorted(set(of_crate)):
                yield f"the numbers of {crate} do not rise"
            yield from (f"{crate}: there is no decision {number}" for number in of_crate if number not in numbers)
    yield from (f"{crate} is in the index twice" for crate in sorted(set(named)) if named.count(crate) > 1)
    yield from (f"decision {number} is not in the index" for number in numbers if number not in indexed)


def main():
    text = layers.read(PAGE)
    wrong = list(faults(text))
    count = len(re.findall(r"^\d+\. ", text, re.M))
    print("".join(f"{PAGE}: {line}\n" for line in wrong) + f"{max(0, count - len(wrong))} passed, {len(wrong)} failed")
    return 1 if wrong else 0


if __name__ == "__main__":
    sys.exit(main())

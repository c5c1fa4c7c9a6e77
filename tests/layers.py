#!/usr/bin/env python3
"""docs/crates.md, made from crates.txt, whose comments are the layers, and from the first sentence of each crate; and in README.md, in the row of each layer,
the names of its crates. `tests/layers.py` checks both, and that no crate but the laws of layer 2 uses one of a layer above; `tests/layers.py --write` writes
them. Prints each line that differs, then 'N passed, M failed'."""
import os
import re
import sys

TOP = os.path.join(os.path.dirname(os.path.abspath(__file__)), "..")
HEAD = """# The crates, by layer

A layer uses only those before it; of layer 2 the laws use others too. Each line is the first sentence of the crate's code; the page that it links has what
is proved and what is only tested. Made by `tests/layers.py --write` out of [crates.txt](../crates.txt) and the crates; not edited by hand.
"""


def read(*path):
    with open(os.path.join(TOP, *path), encoding="utf-8") as f:
        return f.read()


def layers():
    """Each layer: its number, its name, what it is, and its crates, each with the libraries that it uses."""
    found = []
    for line in read("crates.txt").split("\n"):
        head = re.match(r"# (\d+) ([^:]+): (.*)", line)
        if head:
            found.append([*head.groups(), {}])
        elif line.startswith("# ") and found and not found[-1][3]:
            found[-1][2] += " " + line[2:]
        elif re.match(r"\w+:", line):
            crate, uses = line.split(":")
            found[-1][3][crate] = uses.split()
    return found


def sentence(crate):
    """The first sentence of a crate's code."""
    folder = os.path.join("crates", crate, "src")
    text = read(folder, "lib.rt" if os.path.exists(os.path.join(TOP, folder, "lib.rt")) else "main.rt")
    first = re.match(r"(//! .*\n)+", text)
    words = " ".join(line[4:] for line in first.group().splitlines()) if first else ""
    return re.match(r".*?\.(?= [A-Z]|$)|.*", words).group()


def crossing():
    """Each use of a crate of a layer above."""
    layer_of = {crate: int(number) for number, _, _, crates in layers() for crate in crates}
    for number, _, _, crates in layers():
        for crate, uses in crates.items():
            for used in uses:
                if number != "2" and layer_of.get(used, 0) > int(number):
                    yield f"crates.txt: {crate} of layer {number} uses {used} of layer {layer_of[used]}"


def made():
    yield HEAD
    for number, name, about, crates in layers():
        yield f"\n## {number} {name}\n\n{about[0].upper()}{about[1:]}.\n\n"
        for crate in crates:
            yield f"- [{crate}](../crates/{crate}/README.md): {sentence(crate)}\n"


def listed(readme):
    """README.md with the names of its crates in the last column of each layer's row, and the layers that have no such row."""
    missing = []
    for number, name, _, crates in layers():
        row = re.compile(rf"^(\| {number} \| {name} \| [^|]* \|) [^|\n]*\|$", re.M)
        if not row.search(readme):
            missing.append(f"README.md has no row of layer {number} {name}")
        readme = row.sub(rf"\1 {' '.join(crates)} |", readme)
    return readme, missing


def main(words):
    wanted = {"docs/crates.md": "".join(made())}
    wanted["README.md"], wrong = listed(read("README.md"))
    wrong += crossing()
    for name, text in wanted.items():
        path = os.path.join(TOP, name)
        if words == ["--write"]:
            with open(path, "w", encoding="utf-8") as f:
                f.write(text)
        have, want = (read(name) if os.path.exists(path) else "").split("\n"), text.split("\n")
        differ = [line for line in want if line not in have] + [line for line in have if line not in want]
        wrong += [f"{name}: {line}" for line in differ or ["its lines are in another order"] * (have != want)]
    print("".join(line + "\n" for line in wrong), end="")
    print(f"{max(0, sum(len(crates) for _, _, _, crates in layers()) - len(wrong))} passed, {len(wrong)} failed")
    return 1 if wrong else 0


if __name__ == "__main__":
    sys.exit(main(sys.argv[1:]))

#!/usr/bin/env python3
"""Proof text that nothing cites. `tests/dead_text.py` prints each definition of an .antt file that no answer, invariant or clause needs, however far
below, each name that a `use` line brings in vain, and then 'N passed, N failed'.

A node is a definition at the left margin, or a whole `module` or `mutual` block with all its names. What needs no citation are the answers and the
invariants, which the prover asks for by name, and what a .rt file names in a clause or an attribute. Names count as cited wherever they are written
outside comments, so a definition may live that could go, but none is printed that is needed."""
import collections
import os
import re
import sys

TOP = os.path.join(os.path.dirname(os.path.abspath(__file__)), "..")
CRATES = os.path.join(TOP, "crates")
TOKEN = re.compile(r"[^\s(){}\[\],;.:]+")
USE = re.compile(r"^\s*(?:pub\s+)?(?:ghost\s+)?use\s+(.*?);?$")
WORDS = r"(?:(?:pub|unfoldable|abbrev|private)\s+)*"
BLOCK = re.compile(r"^(?:abbrev |unfoldable )?(?:module _|mutual\b)")
TYPE = re.compile(rf"^{WORDS}(?:record|data)\s+([^\s:({{}})]+)")
RULES = re.compile(rf"^{WORDS}ruleset\s+(\S+)\s*=")
VALUE = re.compile(rf"^{WORDS}([^\s:({{}})]+)\s*:")
INNER = re.compile(rf"^\s+{WORDS}(?:record\s+|data\s+|ruleset\s+)?([^\s:({{}})=]+)\s*(?::|\(|=)")
PATH = re.compile(r"((?:\w+::)+)([^\s(),;\[\]:]+)")


def files(ending):
    """The files with this ending, without what a build left."""
    for at, folders, names in os.walk(CRATES):
        folders[:] = sorted(it for it in folders if it != "out")
        for name in sorted(names):
            if name.endswith(ending):
                yield os.path.join(at, name)


def module_of(path):
    return "Rattle." + os.path.relpath(path, CRATES)[: -len(".antt")].replace("/", ".")


def imports_of(line):
    """What a `use` line brings: the module, the name there (None for the module itself) and the name here."""
    found = USE.match(line)
    if not found:
        return []
    group = re.match(r"^(\S+?)\.\{(.*)\}$", found[1])
    if not group:
        parts = found[1].split(" as ")
        return [(parts[0].strip(), None, (parts[1] if len(parts) > 1 else parts[0].split(".")[-1]).strip())]
    pairs = [it.split(" as ") for it in group[2].split(",") if it.strip()]
    return [(group[1], it[0].strip(), it[-1].strip()) for it in pairs]


def is_code(line):
    return not line.lstrip().startswith(("--", "//")) and not USE.match(line)


class File:
    """A file's lines, what it imports, and the tokens of what it says itself."""

    def __init__(self, path):
        with open(path, encoding="utf-8") as f:
            self.lines = f.read().split("\n")
        self.path, self.names, self.modules = path, {}, {}
        for number, line in enumerate(self.lines):
            for module, name, here in imports_of(line) if path.endswith(".antt") or "ghost use" in line else []:
                if name is None:
                    self.modules[here] = module
                else:
                    self.names[here] = (module, name, number)
        self.own = collections.defaultdict(list)

    def text(self, start=0, end=None):
        return "\n".join(line for line in self.lines[start:end] if is_code(line))

    def heads(self):
        """The line at which each node begins, with the name that it gives, if it is one."""
        for number, line in enumerate(self.lines):
            if not line.strip() or line.startswith((" ", "--")) or USE.match(line) or re.match(r"(pub )?mod\b", line):
                continue
            found = TYPE.match(line) or RULES.match(line) or VALUE.match(line)
            if BLOCK.match(line) or found:
                yield number, found and not BLOCK.match(line) and found[1]

    def nodes(self):
        """Each node: its first line, the one after it, and its names."""
        heads = list(self.heads())
        for (start, name), (end, _) in zip(heads, [*heads[1:], (len(self.lines), None)]):
            names = {name} if name else set()
            if not name or re.match(rf"^{WORDS}data\s", self.lines[start]):
                names |= {found[1] for found in map(INNER.match, self.lines[start + 1 : end]) if found}
            yield start, end, names


class House:
    def __init__(self):
        self.antt = {path: File(path) for path in files(".antt")}
        self.rt = [File(path) for path in files(".rt")]
        self.by_module = {module_of(path): file for path, file in self.antt.items()}
        self.nodes = {}
        for path, file in self.antt.items():
            for start, end, names in file.nodes():
                self.nodes[path, start] = (end, names)
                for name in names:
                    file.own[name].append((path, start))

    def named(self, module, name):
        """The nodes that a name of a module is of: its own, or that of the type in whose module it lies."""
        for parts in range(3):
            above, *inner = module.rsplit(".", parts) if parts else (module,)
            if above in self.by_module:
                return self.by_module[above].own.get(inner[0] if inner else name, [])
        return []

    def cited(self, file, text):
        """The nodes that this text of a file cites. An operator counts wherever it is imported."""
        tokens = set(TOKEN.findall(text))
        for token in tokens:
            yield from file.own.get(token, [])
        for here, (module, name, _) in file.names.items():
            if here in tokens or "◌" in here:
                yield from self.named(module, name)
        for here, module in file.modules.items():
            for found in re.finditer(rf"(?<![\w.-]){re.escape(here)}\.([^\s(){{}}\[\],;.:]+)", text):
                yield from self.named(module, found[1])

    def roots(self):
        for file in self.rt:
            text = file.text()
            yield from self.cited(file, text)
            crate = os.path.relpath(file.path, CRATES).split("/")[0]
            for found in PATH.finditer(text):
                parts = [crate if it == "crate" else it for it in found[1].split("::") if it]
                yield from self.named(".".join(["Rattle", *parts]), found[2])
        for (path, start), (end, _) in self.nodes.items():
            name = os.path.basename(path)
            if name == "Invariants.antt" or name in ("Answers.antt", "Proof.antt") and "goal" in TOKEN.findall(self.antt[path].text(start, end)):
                yield path, start

    def dead(self):
        """The nodes that no root leads to. Operators are left out, since an import alone cites them."""
        seen, left = set(), list(self.roots())
        while left:
            node = left.pop()
            if node not in seen:
                seen.add(node)
                left += self.cited(self.antt[node[0]], self.antt[node[0]].text(node[1], self.nodes[node][0]))
        return [(*node, names) for node, (_, names) in self.nodes.items() if node not in seen and not any("◌" in it for it in names)]

    def unused(self):
        """The names that `use` lines bring, in a proof and for clauses, and nothing there cites. What is passed on stays."""
        for file in [*self.antt.values(), *self.rt]:
            text = file.text()
            tokens = set(TOKEN.findall(text)) | set(re.findall(r"[\w']+", text))
            for here, (_, _, number) in file.names.items():
                # a block `do` has `x ← e` for `>>=`
                parts = ["←" if it == ">>=" and "←" in text else it for it in here.split("◌") if it]
                if not all(it in tokens or not it.isalnum() and it in text for it in parts) and not file.lines[number].startswith("pub "):
                    yield file.path, number, here


def main():
    house = House()
    dead = sorted((path, start, " ".join(sorted(names))) for path, start, names in house.dead())
    unused = sorted(house.unused())
    for what, found in (("nothing cites", dead), ("imports in vain", unused)):
        for path, line, name in found:
            print(f"{os.path.relpath(path, TOP)}:{line + 1}: {what} {name}")
    failed = len(dead) + len(unused)
    print(f"{len(house.nodes) - len(dead)} passed, {failed} failed")
    return 1 if failed else 0


if __name__ == "__main__":
    sys.exit(main())

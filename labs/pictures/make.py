#!/usr/bin/env python3
"""Draws the pictures of the labs out of what the program printed, the kept reports beside the task sheets: labs/pictures/make.py.

    timeline.svg         the starts of examples/fallback: phases, attempts in order, the fallback
    timeline_answer.svg  the same of lab 4
    select.svg           Select over the starts of lab 5 that its starting script makes
    select_answer.svg    over those of the solution
    commit.svg           the four stages of a commit: the calls in the table of lab 6
    commit_answer.svg    with what that table says of each
    needs.svg            who needs whom in lab 3, from the tree that `show` prints
    needs_answer.svg     with who started and who is in a cycle
    cells_answer.svg     the cells of the hive of lab 12, sector by sector, from its bytes and those of its log

Each picture has a light and a dark form by the reader's own setting, and a text for those who can't see it."""
import os
import sys
from xml.sax.saxutils import escape

HERE = os.path.dirname(os.path.abspath(__file__))
LABS = os.path.join(HERE, "..")
sys.path.insert(0, LABS)
import reports

STYLE = """
  .page { fill: #ffffff; } text { fill: #1b1f24; font: 14px system-ui, "DejaVu Sans", sans-serif; } .soft { fill: #59636e; } .small { font-size: 12px; } .big { font-size: 16px; font-weight: 600; }
  .line { stroke: #59636e; stroke-width: 1.5; fill: none; } .thin { stroke: #c9d1d9; fill: none; } .box { stroke: #59636e; fill: #eaeef2; }
  .ok { stroke: #116329; fill: #dafbe1; } .warn { stroke: #7a4f01; fill: #fff3c4; } .bad { stroke: #a40e26; fill: #ffe3e6; } .fall { stroke: #6639ba; fill: #f3e8ff; }
  .before { stroke: #0a3069; fill: #cfe2ff; } .after { stroke: #0b4a1f; fill: #c8f3d2; } .waits { stroke: #59636e; fill: none; stroke-dasharray: 5 3; }
  .head { fill: #59636e; } .point { stroke: #6639ba; stroke-width: 3; fill: none; }
  @media (prefers-color-scheme: dark) {
    .page { fill: #0d1117; } text { fill: #e6edf3; } .soft { fill: #9da7b3; } .line { stroke: #9da7b3; } .thin { stroke: #3d444d; } .box { stroke: #9da7b3; fill: #2a313a; }
    .ok { stroke: #7ee787; fill: #12361f; } .warn { stroke: #f2cc60; fill: #3b2e04; } .bad { stroke: #ff9da4; fill: #4b1113; } .fall { stroke: #d2b4ff; fill: #33205a; }
    .before { stroke: #cfe2ff; fill: #12305f; } .after { stroke: #c8f3d2; fill: #0f4220; } .waits { stroke: #9da7b3; } .head { fill: #9da7b3; } .point { stroke: #d2b4ff; }
  }
"""
SIGNS = {"ok": ("ok", "✓"), "ignored": ("box", "–"), "logged": ("warn", "!"), "fall-back": ("fall", "↩"), "stop": ("bad", "■")}


class Picture:
    """A picture that grows by its parts."""

    def __init__(self, title, text):
        self.title, self.text, self.parts, self.width, self.height = title, text, [], 0, 0

    def reach(self, x, y):
        self.width, self.height = max(self.width, x), max(self.height, y)

    def say(self, x, y, text, kind="", anchor="start"):
        self.parts.append(f'<text x="{x:g}" y="{y:g}" class="{kind}" text-anchor="{anchor}">{escape(text)}</text>')
        size = len(text) * (6.6 if "small" in kind else 9.6 if "big" in kind else 8)
        self.reach(x + (size if anchor == "start" else size / 2 if anchor == "middle" else 0), y + 8)

    def box(self, x, y, width, height, kind="box", round=5):
        self.parts.append(f'<rect x="{x:g}" y="{y:g}" width="{width:g}" height="{height:g}" rx="{round}" class="{kind}"/>')
        self.reach(x + width, y + height)

    def line(self, points, kind="line", arrow=False):
        end = ' marker-end="url(#head)"' if arrow else ""
        self.parts.append(f'<polyline points="{" ".join(f"{x:g},{y:g}" for x, y in points)}" class="{kind}"{end}/>')
        for x, y in points:
            self.reach(x, y)

    def curve(self, path, kind="line"):
        self.parts.append(f'<path d="{path}" class="{kind}" marker-end="url(#head)"/>')

    def write(self, name):
        width, height = self.width + 20, self.height + 20
        head = (f'<svg xmlns="http://www.w3.org/2000/svg" viewBox="0 0 {width:.0f} {height:.0f}" width="{width:.0f}" height="{height:.0f}" role="img" aria-labelledby="title text">\n'
                f'<title id="title">{escape(self.title)}</title>\n<desc id="text">{escape(self.text)}</desc>\n<style>{STYLE}</style>\n'
                '<defs><marker id="head" viewBox="0 0 10 10" refX="9" refY="5" markerWidth="8" markerHeight="8" orient="auto-start-reverse"><path d="M0 0L10 5L0 10z" class="head"/></marker></defs>\n'
                f'<rect width="{width:.0f}" height="{height:.0f}" class="page"/>\n')
        with open(os.path.join(HERE, name), "w") as f:
            f.write(head + "\n".join(self.parts) + "\n</svg>\n")


def kept(lab, name="report.txt"):
    with open(os.path.join(LABS, lab, name), "rb") as f:
        return reports.lines_of(f.read())


def field(part, word):
    """The fields of the first line of this word in a part."""
    return next((line.split(" ")[1:] for line in part if line.startswith(word + " ")), None)


def starts_of(lines):
    return [part for part in reports.parts_of(lines) if part[0].startswith("start ")]


def columns_of(starts):
    """Where each phase begins, so that the attempts of every start have room."""
    widest = {}
    for start in starts:
        phase = None
        for line in start:
            if line.startswith("phase "):
                phase = line.split(" ")[1]
                widest.setdefault(phase, 0)
            elif line.startswith(("try ", "unmet ")):
                widest[phase] = max(widest[phase], sum(1 for l in inside(start, phase)))
    x, columns = 220, {}
    for phase in ("boot", "system", "automatic", "done"):
        if phase in widest:
            columns[phase] = x
            x += max(80, 36 + 70 * widest[phase])
    return columns, x


def inside(start, phase):
    """The attempts and unmet entries of a phase."""
    now = None
    for line in start:
        if line.startswith("phase "):
            now = line.split(" ")[1]
        elif now == phase and line.startswith(("try ", "unmet ")):
            yield line


def timeline(lines, title, name):
    """Each start is a row: the set, the phases as far as it came, each attempt a mark, then the verdict."""
    starts = starts_of(lines)
    picture = Picture(title, " ".join(f"Start {i + 1} on set {' by '.join(field(s, 'set'))} ends as {field(s, 'verdict')[0]}." for i, s in enumerate(starts)))
    picture.say(20, 30, title, "big")
    columns, right = columns_of(starts)
    for phase, x in columns.items():
        picture.say(x, 58, phase, "soft small")
    y = 72
    for number, start in enumerate(starts, 1):
        set_number, by = field(start, "set")
        lkg = by != "default"
        picture.say(20, y + 24, f"start {number}")
        picture.box(80, y + 6, 122, 26, "fall" if lkg else "box")
        picture.say(141, y + 24, f"{set_number}, {'LastKnownGood' if lkg else 'Default'}", "small", "middle")
        x = columns["boot"]
        for line in start:
            if line.startswith("phase "):
                x = columns[line.split(" ")[1]]
                picture.box(x, y + 8, 14, 22, "box", 3)
                x += 22
            elif line.startswith("try "):
                words = line.split(" ")
                kind, sign = SIGNS[words[-1]]
                picture.box(x, y + 6, 64, 26, kind)
                picture.say(x + 32, y + 24, f"{sign} {words[1]}", "small", "middle")
                x += 70
            elif line == "logon":
                picture.say(x, y + 24, "logon", "small")
        verdict = field(start, "verdict")[0]
        if verdict in ("fall-back", "stopped"):
            picture.line([(x - 4, y + 19), (right, y + 19)], "waits")
        picture.say(right + 10, y + 24, verdict)
        if verdict == "fall-back":
            picture.curve(f"M {right + 85} {y + 20} C {right + 140} {y + 20} {right + 140} {y + 44} {right} {y + 44} L 60 {y + 44} L 60 {y + 56}", "line")
        y += 56
    marks = (("ok", "✓ started"), ("box", "– failed, ignored"), ("warn", "! failed, logged"), ("fall", "↩ failed, falls back"), ("bad", "■ failed, stops"))
    for i, (kind, text) in enumerate(marks):
        picture.box(20 + 150 * i, y + 10, 16, 16, kind, 3)
        picture.say(42 + 150 * i, y + 23, text, "small")
    picture.reach(right + 130, y + 30)
    picture.write(name)


def select(lines, count, said, name):
    """The four numbers after each begin and each save of the first starts, as steps."""
    moments = []
    for part in starts_of(lines)[:count]:
        rows = [line.split(" ")[1:] for line in part if line.startswith("select ")]
        moments += [(part[0].split(" ")[1], "begin" if i == 0 else "save", row) for i, row in enumerate(rows)]
    names = ("Current", "Default", "Failed", "LastKnownGood")
    picture = Picture("Select over the starts of lab 5", " ".join(f"Start {n}, {what}: " + ", ".join(f"{value} {v}" for value, v in zip(names, row)) + "." for n, what, row in moments))
    picture.say(20, 30, "Select over the starts: which control set each value names", "big")
    for i, (number, what, _) in enumerate(moments):
        picture.say(190 + 78 * i, 58, f"start {number}", "small", "middle")
        picture.say(190 + 78 * i, 74, what, "soft small", "middle")
    for row, value in enumerate(names):
        y = 92 + 46 * row
        picture.say(20, y + 21, value)
        for i, (_, _, values) in enumerate(moments):
            moved = i > 0 and moments[i - 1][2][row] != values[row]
            if i:
                picture.line([(190 + 78 * (i - 1) + 17, y + 16), (190 + 78 * i - 17, y + 16)], "line" if moved else "thin", moved)
            picture.box(190 + 78 * i - 17, y, 34, 32, "warn" if moved else "box")
            picture.say(190 + 78 * i, y + 21, values[row], "big" if moved else "", "middle")
    y = 92 + 46 * 4
    picture.say(20, y + 16, "Arrows lead to numbers that changed. 0 names no set." + said, "soft small")
    picture.write(name)


def commit(lines, told, name):
    """Each write is a square in its stage, each sync the bar that ends it; with the answer, colours say what the next start finds."""
    found = (" Where the power is cut in a call before the sync of open, the next start finds the hive of before the change; in that sync it finds either; after it, "
             "the hive of after the change.")
    picture = Picture("The four stages of a commit", "The stages log, open, sectors and close, each with its writes and one sync." + (found if told else ""))
    picture.say(20, 30, "A commit in four stages" + (": what the next start finds where the power is cut in this call" if told else ""), "big")
    meaning = {"log": "the change goes into the log", "open": "the base block says: under way", "sectors": "the change goes into the hive", "close": "the base block says: done"}
    x, at_log, at_hive, begin = 20, 120, 170, None
    rows = {"log": at_log, "hive": at_hive}
    picture.say(20, at_log + 21, "log", "soft")
    picture.say(20, at_hive + 21, "hive", "soft")
    x = 70
    for line in lines:
        words = line.split(" ")
        if words[0] == "stage":
            begin = x
            stage = words[1]
            picture.say(x, 66, stage, "big")
            picture.say(x, 84, meaning[stage], "soft small")
        elif words[0] == "write":
            kinds = set(words[4:]) if told else {"box"}
            picture.box(x, rows[words[2]], 40, 32, kinds.pop() if len(kinds) == 1 else "fall")
            picture.say(x + 20, rows[words[2]] + 21, words[3], "", "middle")
            x += 46
        elif words[0] == "sync":
            kinds = sorted(set(words[2:])) if told else ["box"]
            point = len(kinds) > 1
            picture.box(x, at_log - 12, 16, at_hive + 44 - at_log + 12, "fall" if point else kinds[0], 3)
            picture.say(x + 8, at_hive + 66, f"sync {words[1]}", "small", "middle")
            if point:
                picture.say(x + 8, at_hive + 86, "commit point", "big", "middle")
            x = max(x + 40, begin + 8.0 * len(meaning[stage]) - 10)
            picture.line([(x - 10, 52), (x - 10, at_hive + 50)], "thin")
    y = at_hive + 112 if told else at_hive + 60
    legend = (("before", "the hive of before the change"), ("fall", "either, by what of the writes in flight reached the disk"), ("after", "the hive of after the change"))
    for i, (kind, text) in enumerate(legend if told else ()):
        picture.box(20 + (0, 230, 610)[i], y, 16, 16, kind, 3)
        picture.say(42 + (0, 230, 610)[i], y + 13, text, "small")
    picture.say(20, y + 40, "A square is a write, with the number of its sector of 512 bytes; a tall bar is a sync, which waits until all writes before it are on the disk.", "soft small")
    picture.write(name)


def strings(data):
    """The strings of a list of type 7, from the hexadecimal text of `show`."""
    return [part for part in bytes.fromhex(data).decode("utf-16-le").split("\0") if part]


def services(lines):
    """The services of the first control set of a tree that `show` printed: name, needed services, own group, needed groups."""
    out, depth = [], None
    for line in lines:
        level = (len(line) - len(line.lstrip(" "))) // 2
        word = line.strip()
        if word == "Services" and depth is None:
            depth = level
        elif depth is not None and level <= depth:
            break
        elif depth is not None and level == depth + 1 and not word.startswith("= "):
            out.append({"name": word, "DependOnService": [], "DependOnGroup": [], "Group": None})
        elif depth is not None and word.startswith("= "):
            fields = word.split(" ")
            if fields[1] in ("DependOnService", "DependOnGroup") and len(fields) > 4:
                out[-1][fields[1]] = strings(fields[4])
            if fields[1] == "Group" and len(fields) > 4:
                out[-1]["Group"] = strings(fields[4])[0]
    return out


def needs(told, name):
    """Who needs whom: services as boxes, groups as round ones; with the answer, those of a cycle are red."""
    with open(os.path.join(LABS, "03_cycle", "tree.txt")) as f:
        found = services(f.read().splitlines())
    unmet = {line.split(" ")[1] for line in reports.parts_of(kept("03_cycle"))[0] if line.startswith("unmet ")}
    edges = {s["name"]: [*s["DependOnService"], *("group " + g for g in s["DependOnGroup"])] for s in found}
    for s in found:
        if s["Group"]:
            edges.setdefault("group " + s["Group"], []).append(s["name"])

    def reached(node):
        seen, rest = set(), list(edges.get(node, []))
        while rest:
            now = rest.pop()
            if now not in seen:
                seen.add(now)
                rest += edges.get(now, [])
        return seen

    def layer(node, seen=()):
        below = [layer(to, (*seen, node)) for to in edges.get(node, []) if to not in seen and to != node]
        return 1 + max(below, default=-1)

    cyclic = {node for node in edges if node in reached(node)}
    layers, places = {}, {}
    for node in edges:
        layers.setdefault(layer(node), []).append(node)
    for i, level in enumerate(sorted(layers)):
        for k, node in enumerate(sorted(layers[level])):
            places[node] = (60 + 215 * k + (i % 2) * 40, 84 + 100 * (len(layers) - 1 - i))
    picture = Picture("Who needs whom in lab 3", " ".join(f"{node} needs {', '.join(to)}." for node, to in edges.items() if to))
    picture.say(20, 30, "Who needs whom: an arrow leads to what is needed", "big")
    for node, targets in edges.items():
        x, y = places[node]
        for target in targets:
            if target not in places:
                continue
            to_x, to_y = places[target]
            if to_y == y:
                right = to_x > x
                picture.line([(x + 140 if right else x, y + (12 if right else 24)), (to_x if right else to_x + 140, y + (12 if right else 24))], "line", True)
                continue
            middle = 50 if node in reached(target) and node < target else 80
            down = to_y > y
            picture.line([(x + middle, y + 36 if down else y), (to_x + middle, to_y if down else to_y + 36)], "line", True)
    for node, (x, y) in places.items():
        kind = "box" if not told else "bad" if node in cyclic else "waits" if node in unmet else "ok"
        picture.box(x, y, 140, 36, kind, 18 if node.startswith("group ") else 5)
        picture.say(x + 70, y + 23, node, "", "middle")
    y = max(y for _, y in places.values()) + 66
    for i, (kind, text) in enumerate((("ok", "started"), ("waits", "unmet: it waits for one that is"), ("bad", "unmet: in a cycle")) if told else ()):
        picture.box(20 + (0, 110, 360)[i], y, 16, 16, kind, 3)
        picture.say(42 + (0, 110, 360)[i], y + 13, text, "small")
    picture.say(20, y + (40 if told else 10), "A round box is a group: an arrow leads from it to its members, of which one started is enough.", "soft small")
    picture.write(name)


def cells_of(bins):
    """The cells of one bin until one has no size that can be: their places, sizes and signatures."""
    at, out = 32, []
    while at + 4 <= len(bins):
        size = int.from_bytes(bins[at:at + 4], "little", signed=True)
        if abs(size) < 8 or abs(size) % 8 or at + abs(size) > len(bins):
            break
        mark = bins[at + 4:at + 6]
        out.append((at, size, mark.decode("latin-1") if mark.isalpha() else ""))
        at += abs(size)
    return out


def cells():
    """The bins of the hive of lab 12 and of the recovered one, sector by sector."""
    with open(os.path.join(LABS, "12_bytes", "SYSTEM"), "rb") as f:
        torn = bytearray(f.read()[4096:])
    with open(os.path.join(LABS, "12_bytes", "SYSTEM.LOG"), "rb") as f:
        log = f.read()
    bits = int.from_bytes(log[516:516 + len(torn) // 4096], "little")
    whole, taken = bytearray(torn), [i for i in range(len(torn) // 512) if bits >> i & 1]
    for n, i in enumerate(taken):
        whole[512 * i:512 * i + 512] = log[1024 + 512 * n:1536 + 512 * n]
    found = cells_of(whole)
    picture = Picture("The bins of the hive of lab 12", f"Eight sectors, numbered 8 to 15 in the file. Sector {8 + taken[0]} is junk in the hive and comes from the log. The bin's header is followed by {len(found)} cells.")
    picture.say(20, 30, "The bins of the hive: sectors of 512 bytes, and the cells in them", "big")
    scale, left = 1.75, 130
    for i in range(len(torn) // 512):
        y = 56 + 44 * i
        picture.say(20, y + 20, f"sector {8 + i}", "small")
        picture.box(left, y, 512 * scale, 30, "bad" if i in taken else "thin", 0)
    kinds = {"nk": "before", "vk": "after", "lf": "fall", "lh": "fall"}
    for at, size, mark in [(0, 32, "hbin"), *found]:
        end, first = at + abs(size), True
        while at < end:
            i, stop = at // 512, min(end, (at // 512 + 1) * 512)
            x, y = left + (at % 512) * scale, 56 + 44 * i
            free = size > 0 and mark != "hbin"
            kind = "box" if mark == "hbin" else "waits" if free else kinds.get(mark, "warn")
            picture.box(x + 1, y + 3, (stop - at) * scale - 2, 24, kind, 2)
            label = "free" if free else mark
            if first and (stop - at) * scale >= 8.4 * len(label):
                picture.say(x + (stop - at) * scale / 2, y + 20, label, "small", "middle")
            at, first = stop, False
    y = 56 + 44 * (len(torn) // 512) + 8
    legend = (("before", "nk: a key"), ("after", "vk: a value"), ("fall", "lf: a list of keys"), ("warn", "a list of values, or data"), ("waits", "free"), ("box", "hbin: the bin's header"), ("bad", "the sector that is junk in the hive and whole in the log"))
    x = 20
    for kind, text in legend:
        picture.box(x, y, 16, 16, kind, 3)
        picture.say(x + 22, y + 13, text, "small")
        x += 44 + 6.4 * len(text)
    picture.write("cells_answer.svg")


def main():
    with open(os.path.join(LABS, "..", "examples", "fallback", "report.txt"), "rb") as f:
        timeline(reports.lines_of(f.read()), "A start that falls back, and the next one", "timeline.svg")
    timeline(kept("04_error_control"), "Phases and attempts of eight starts; in each, one driver fails", "timeline_answer.svg")
    select(kept("05_last_known_good"), 4, "", "select.svg")
    select(kept("05_last_known_good"), None, " The logon on a machine without network (start 6, save) is what spoils LastKnownGood.", "select_answer.svg")
    for told, end in ((False, ""), (True, "_answer")):
        needs(told, f"needs{end}.svg")
        commit(kept("06_commit_point", "table.txt"), told, f"commit{end}.svg")
    cells()


if __name__ == "__main__":
    main()

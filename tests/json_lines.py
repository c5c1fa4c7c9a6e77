#!/usr/bin/env python3
"""The report of each run of tests/runs as JSON lines: tests/json_lines.py [--with NTBOOT NTMEND]. Each line of the wanted text is made an object by the
tables of docs/texts.md, and with --json the run must print these. Of `graph`, `show`, `key`, `diff` with all that differs, and a report whose text cuts bytes
off, it is asked only that docs/lines.schema.json takes each line, as it takes each other one."""
import json
import re
import sys

from programs import fresh, judged, main, said
from schema import misfit

# A field `{name}` is a word, and `{name:X}` is: N a number, W a number or a word, I a word or nothing, S a name as a report writes it, Q a text in quotes,
# P a path, T a text in quotes or as it is, V what one side of `diff` has, X a number by its eight hexadecimal digits; of the data that `find` has D a number, L a
# list, E whether a text is ended, H bytes; F what `services` says of a value, O its overrides, M its marks. `{name=word}` is that word, which the line has;
# `{name!word}` is one that it doesn't have, and `null` nothing. An object's line is the text's first word, if no field has that name.
STARTS = ["start {number:N}", "set {number:N} {by}", "verdict {word}", "vital {name:S} missing"]
REPORT = [
    *STARTS, "entry {number:N} {path:S}", "load {sequence:N} {state}", "commit {what} {sequence:N}",
    "select {current:N} {default:N} {failed:N} {good:N}", "phase {name}", "try {name:S} failed {outcome}", "try {name:S} {outcome=ok}", "unmet {name:S}",
    "save refused {refused}", "refused {event} {word}", "logon", "edit ok", "flush nothing", "end",
]
# A driver with the number of its state, where that has one.
DRIVER = ["{name:Q} {state=ok} {start:N}", "{name:Q} {state=beyond} {start:N}", "{name:Q} {state=kind} {type:N}", "{name:Q} {state}"]
ENTRY = (
    "entry {kind} {name:Q} start {start:F} type {type:F} control {control:F} group {group:F} tag {tag:F} account {account:F} image {image:F} dll {dll:F} "
    "order PLACE written {written}OWN{override:O}{marks:M}"
)
FORMS = {
    "run": REPORT,
    "make": ["made {services:N} started {started:N} failed {failed:N} unmet {unmet:N} verdict {verdict} sequence {sequence:N}"],
    "safe": [*REPORT, "mode {word}"],
    "control": [
        "started {name:S}", "stopped {name:S}", "running {name:S}", "verdict {word}", "end",
        *(f"refused {{command}} {{name:S}} {{word={word}}} {{other:S}}" for word in ("missing", "need-disabled", "in-use")),
        "refused {command} {name:S} {word}",
    ],
    "twin": ["load {sequence:N} {state}", "commit {what} {sequence:N}", "default nothing", "refused default {command!twin}{word}", "end"],
    "export": ["exported {keys:N} keys {values:N} values", "{line!refused}{command=export} refused {word}"],
    "import": [
        "current {number:N}", "passed {count:N}", "commit {what} {sequence:N}", "import nothing", "{line!refused}{command=import} refused {word}",
    ],
    "replay": [
        "sequence {first:N} {second:N} {state}", "log {log} {form=empty}", "log {log} {form=new} {entries:N} {from:N} {to:N}",
        "log {log} {form=new} {entries:N}", "log {log} {form=old} {number:N} sectors {sectors:N}", "log {log} {form=old} {number:N} other {other}",
        "fault {kind} {log} {at:N}", "apply {log} {number:N} bytes {bytes:N}", "replayed {applied:N} sequence {first:N} {second:N}",
        "saved {sequence:N} {bytes:N}", "save refused {refused}", "end",
    ],
    "check": [
        "select {value} {number:N}", "current-set-key", "set {number:N}", "no-set {number:N}", "no-services", "no-list", "no-start {name:S}",
        "no-type {name:S}", "malformed {field} {name:S}", "beyond {start:N} {name:S}", "kind {type:N} {name:S}", "too-early {start:N} {name:S}",
        "no-control {name:S}", "control-beyond {control:N} {name:S}", "no-image {name:S}", "no-service {need:Q} {name:S}", "never {start:N} {need:Q} {name:S}",
        "later {start:N} {need:Q} {name:S}", "no-member {group:Q} {name:S}", "tag-unlisted {tag:N} {group:Q} {name:S}", "group-unlisted {count:N} {group:S}",
        "cycle {number:N} {name:S}", "found {count:N}", "end",
    ],
    "devices": [
        "set {number:N}", "no-set {number:N}", *(f"of {driver}" for driver in DRIVER), "no-database", "no-enum", "device {state} none {path:P}",
        "device {state} {class:Q} {path:P}", "description {text:Q}", "flags {flags:X}", "malformed {field}", *(f"load {{role}} {driver}" for driver in DRIVER),
        "no-service", *(f"bound {{entry:Q}} {driver}" for driver in DRIVER), "unbound", "class-malformed {field} {class:Q} {key:Q}",
        *(f"class-filter {{role}} {{class:Q}} {{key:Q}} {driver}" for driver in DRIVER), *(f"critical {{entry:Q}} {driver}" for driver in DRIVER),
        "devices {count:N} of {of:N}", "found {count:N}", "end",
    ],
    "find": [
        "root {name:T}", "key {path:P}", "value {name:Q} in {path:P}", "data {name:Q} {type} {number:D} in {path:P}",
        "data {name:Q} {type} {list:L} in {path:P}", "data {name:Q} {type} {text:Q}{ended:E} in {path:P}",
        "data {name:Q} {type} hex {length:N}{hex:H} in {path:P}", "refused {command} {word}", "found {count:N}", "end",
    ],
    "diff": [
        "no-set {side} {number:N}", "sets {first:N} {second:N}",
        "only {side} start {start:N} type {type:N} control {control:N} image {image:I} {name:S}", "differs {field} {first:V} {second:V} {name:S}",
        "registry {place:N} {first:V} {second:V}", "group-only {side} {group:S}", "groups {place:N} {first:V} {second:V}", "tags {first:V} {second:V} {group:S}",
        "start-only {side} {name:S}", "unmet-only {side} {name:S}", "start-phase {first} {second} {name:S}", "start-order {place:N} {first:V} {second:V}",
        "starts {word=same}", "key-differs {field} {path:P}", "value-differs {name:Q} {path:P}", "value-only {side} {name:Q} {path:P}",
        "key-only {side} {keys:N} {path:P}", "stamps {count:N}", "flags {count:N}", "same", "differ {count:N}", "end",
    ],
    "why": [
        *STARTS, "no-boot", "ended-by {name:S}", "name {name:S}", "entry {kind} start {start:N} type {type:N} control {control:N}",
        "place {phase} {place:N} of {of:N}", "group {place=none}", "group {place:W} {name:S}", "tag {tag=none}", "tag {tag:N} {place:W}", "registry {place:N}",
        "after {by} {name:S}", "before {by} {name:S}", "pulled {name:S}", "ready {moment=at-once}", "ready {moment=after} {name:S}",
        "state {word=started} {number:N}", "state {word=failed} {number:N} {judgement}", "state {word=not-reached} {phase}", "state {word=not-taken} {reason}",
        "state {word}", "unmet {phase} {name:S}", "lack {of} {state} {name:S}", "member {state} {name:S}", "cycle {name:S}", "end",
    ],
    "whatif": [
        *STARTS, "of {state} {name:S}", "fail {judgement} {lost:N} {name:S}", "off {lost:N} {name:S}", "unmet {name:S}", "untaken {name:S}",
        "leans {steps:N} {by} {state} {name:S}", "end",
    ],
    "sweep": [
        "sweep {event}", "keeps none all odd torn", "stage {name}", "write {number:N} {file} {sector:N} {none} {all} {odd} {torn}",
        "sync {number:N} {none} {all} {odd} {torn}", "calls {count:N} before {before:N} after {after:N} neither {neither:N}", *REPORT,
    ],
    "salvage": [
        "sequence {first:N} {second:N} {state}", "version {minor:N}", "fault {kind} {log=log} {at:N}", "fault {kind} file {file:N} {part=bytes} {bytes:N}",
        "fault {kind} file {file:N} {part=value} {name:Q} {path:P}", "fault {kind} file {file:N} {part=value-at} {number:N} {path:P}",
        "fault {kind} file {file:N} {part=key-at} {number:N} {path:P}", "fault {kind} file {file:N} {part=base}", "fault {kind} file {file:N} {part=root}",
        "fault {kind} file {file:N} {part} {path:P}", "root none", "root file {file:N}", "found {keys:N} {path:P}",
        "salvaged {keys:N} keys {values:N} values lost {lost:N}", "saved {sequence:N} {bytes:N}", "save refused {refused}", "end",
    ],
    "services": [
        "no-set {number:N}", "set {number:N}", "no-services",
        *(ENTRY.replace("PLACE", place).replace("OWN", own)
          for place in ("{phase} {number:N}", "{phase} unmet{number!null}", "-{phase!null}{number!null}") for own in (" own-dll {own:F}", "{own!null}")),
        "listed {count:N} of {of:N} driver {driver:N} service {service:N} other {other:N} boot {boot:N} system {system:N} automatic {automatic:N} "
        "demand {demand:N} disabled {disabled:N} beyond {beyond:N} none {none:N}", "end",
    ],
}
# The objects whose text is not parted here, by the object alone, each field with its type in line_schema.py.
VALUES = ["{number:number}", "{list:list}", "{text:name} {ended:flag}", "{length:number} {hex:hex}"]
OBJECTS = {
    "show": [
        "tree {sequence:number} {bulk:number}", "key {level:number} {name:name}",
        "value {level:number} {name:name} {type:number} {length:number} {data:hex}",
    ],
    "key": [
        "{line!refused}{command!key}{word!no-key}", "root {name:name}", "key {path:path}", "stamp {stamp:stamp}", "flags {flags:number}", "class {text:name}",
        "class {length:number} {hex:hex}", "security {length:number} {hex:hex}", *(f"value {{name:name}} {{type:type}} {value}" for value in VALUES),
        "subkey {name:name}", "end",
    ],
    "diff": [f"{side} {{type:type}} {value}" for side in ("first", "second") for value in VALUES],
    "graph": [
        *STARTS, "no-boot", "ended-by {name:S}", "node {node:number} {kind} {phase} {state} {number:number} {name:name}", "edge {from:number} {to:number}", "end",
    ],
}
FIELD = re.compile(r"\{(\w+)(?:([:=!])([\w-]+))?\}")
QUOTED = r'"(?:[^"\\]|\\.)*"'
DATA = rf"hex 0|hex \d+ [0-9a-f]+|\d+ 0x[0-9a-f]+|\d+(?: {QUOTED})*|{QUOTED}(?: unended)?"
VALUE = rf"-|\d+|{QUOTED}|\((?:\w+) (?:{DATA})\)"
MARKS = "no-image|image-outside|no-dll|dll-outside"
# What a field of each type looks like.
TYPES = {
    "N": r"\d+", "W": r"\d+|none|unlisted|idle", "I": r"[^ \"]+", "S": ".+", "Q": QUOTED, "P": f"{QUOTED}|[^\"].*",
    "T": f"{QUOTED}|[^\"].*", "V": rf"-|\d+(?:,\d+)*|{QUOTED}(?:,{QUOTED})*", "D": r"\d+ 0x[0-9a-f]+", "L": rf"\d+(?: {QUOTED})*",
    "E": "(?: unended)?", "H": "(?: [0-9a-f]+)?", "X": "0x[0-9a-f]{8}", None: r"[^ \"]+",
    "F": VALUE, "O": rf"(?: override \d+ (?:{VALUE}))*", "M": f"(?: (?:{MARKS}))*",
}
LISTS = ("DependOnService", "DependOnGroup")


def name_of(text):
    """A name as a report writes it: other units than those from 0x20 to 0x7E have four digits."""
    return re.sub(r"\\u([0-9a-f]{4})", lambda found: chr(int(found[1], 16)), text)


def path_of(text):
    """The components of a path; a text in quotes where it is no plain one."""
    whole = json.loads(text) if text.startswith('"') else text
    return whole.split("\\") if whole else []


def written_of(text):
    """A text, in quotes where it is no plain one."""
    return json.loads(text) if text.startswith('"') else text


def list_of(text):
    """The items of a list, after their count."""
    items = [json.loads(item) for item in re.findall(QUOTED, text)]
    return items if text.split(" ")[0] == str(len(items)) else None


def side_of(text, is_list):
    """What one side of `diff` has: nothing, a number, a text or a list of them."""
    if text == "-":
        return [] if is_list else None
    items = json.loads(f"[{text}]")
    return items if is_list else items[0]


def data_of(kind, text):
    """The object of a value's data after its type, as `key` prints them."""
    texts = [json.loads(part) for part in re.findall(QUOTED, text)]
    if text.startswith("hex"):
        length, digits = [*text.split(" ")[1:], ""][:2]
        return {"type": kind, "length": int(length), "hex": digits}
    if text.startswith('"'):
        return {"type": kind, "text": texts[0], "ended": not text.endswith(" unended")}
    return {"type": kind, "number": int(text.split(" ")[0])} if " 0x" in text else {"type": kind, "list": texts}


def field_of(text):
    """What `services` says of a value: nothing, a number, a text, or its type and data."""
    if text.startswith("("):
        return data_of(*text[1:-1].split(" ", 1))
    return None if text == "-" else json.loads(text)


def overrides_of(text):
    """The overrides of an entry of `services`."""
    return [{"name": name, "value": field_of(value)} for name, value in re.findall(rf" override (\d+) ({VALUE})", text)]


def value_of(kind, text, is_list):
    """The value of a field of this type."""
    if kind == "N" or kind == "W" and text.isdigit():
        return int(text)
    if kind == "V":
        return side_of(text, is_list)
    if kind == "I" and text == "-":
        return None
    return READERS.get(kind, str)(text)


READERS = {
    "S": name_of, "Q": json.loads, "P": path_of, "T": written_of, "L": list_of, "D": lambda text: int(text.split(" ")[0]), "E": lambda text: text == "",
    "H": str.strip, "X": lambda digits: int(digits, 16), "F": field_of, "O": overrides_of, "M": str.split,
}


def pattern_of(form):
    """What matches the lines of a form."""
    def one(found):
        name, mark, what = found.groups()
        return "" if mark == "!" else f"(?P<{name}>{re.escape(what) if mark == '=' else TYPES[what]})"

    out, at = "", 0
    for found in FIELD.finditer(form):
        out += re.escape(form[at:found.start()]) + one(found)
        at = found.end()
    return re.compile(out + re.escape(form[at:]))


PATTERNS = {command: [(form, pattern_of(form)) for form in forms] for command, forms in FORMS.items()}


def object_of(command, line):
    """The object of a line, by the first form that it has; nothing where it has none."""
    for form, pattern in PATTERNS[command]:
        found = pattern.fullmatch(line)
        if found:
            fields = {name: (mark, what) for name, mark, what in FIELD.findall(form)}
            is_list = line.startswith("tags ") or found.groupdict().get("field") in LISTS
            told = {
                name: (what if what != "null" else None) if mark == "!" else value_of(what if mark == ":" else None, found[name], is_list)
                for name, (mark, what) in fields.items()
            }
            return {"line": line.split(" ")[0], **told}
    return None


def spelled(value):
    """A value of JSON as the program writes it: units outside of 0x20 to 0x7E have four digits."""
    if isinstance(value, str):
        return '"' + "".join(f"\\u{ord(unit):04x}" if not " " <= unit <= "~" else "\\" + unit if unit in '"\\' else unit for unit in value) + '"'
    if isinstance(value, list):
        return "[" + ",".join(map(spelled, value)) + "]"
    if isinstance(value, dict):
        return "{" + ",".join(f"{spelled(name)}:{spelled(part)}" for name, part in value.items()) + "}"
    if value is None or isinstance(value, bool):
        return {None: "null", True: "true", False: "false"}[value]
    return str(value)


def shown(told):
    """An object without what the text of boot.ini has beyond the text of the line, which has `?` there."""
    return {**told, "path": re.sub("[^ -~]", "?", told["path"])} if told["line"] == "entry" and "path" in told else told


def wrong_objects(programs, run):
    """The first line of a run with --json that is not the object of the text's line."""
    texts = run.wanted.out.decode().splitlines()
    with fresh(run.inputs) as room:
        found = said(run.program(programs), [*run.words, "--json"], room)
    lines = found.out.decode().splitlines()
    if found.status != run.wanted.status or len(lines) != len(texts):
        return f"exit {found.status}, {len(lines)} lines, wanted {run.wanted.status}, {len(texts)} lines"
    for text, line in zip(texts, lines):
        told = object_of(run.words[0], text)
        if told is None:
            return f"no form of {text!r}"
        if told != shown(json.loads(line)) or spelled(json.loads(line)) != line:
            return f"{line}, wanted {spelled(told)}"
    return misfits(run.words[0], lines)


def misfits(command, lines):
    """The first of these lines that the schema does not take."""
    return next(filter(None, (misfit(command, json.loads(line)) for line in lines)), "")


def wrong_lines(programs, run):
    """The first line of a run with --json that the schema does not take, for a run whose text is not parted here."""
    with fresh(run.inputs) as room:
        found = said(run.program(programs), [*run.words, "--json"], room)
    if found.status != run.wanted.status or not found.out:
        return f"exit {found.status}, wanted {run.wanted.status}; said {found.out[:400]!r}"
    return misfits(run.words[0], found.out.decode().splitlines())


def has_json(run):
    """A run with an answer in lines: of one that asks for them already run_all.py judges whether they are printed."""
    return run.is_done() and not run.is_of_ntmend() and "--help" not in run.words


def has_forms(run):
    """A run with an answer in text, all of which the tables have."""
    is_cut = any(cut in run.wanted.out for cut in (b".. in ", b"..)"))
    return has_json(run) and run.words[0] in FORMS and not {"--json", "--all"} & set(run.words) and not is_cut


def objects_of(run):
    """The objects that a run wants, as far as it has them or the tables make them of its text."""
    lines = run.wanted.out.decode().splitlines()
    if "--json" in run.words:
        return [json.loads(line) for line in lines]
    return [object_of(run.words[0], line) for line in lines] if has_forms(run) else []


def row_of(programs, run):
    """What is judged of a run that has lines."""
    if "--json" in run.words:
        return f"{run.name}: its lines in the schema", misfits, run.words[0], run.wanted.out.decode().splitlines()
    if has_forms(run):
        return run.name, wrong_objects, programs, run
    return f"{run.name} --json in the schema", wrong_lines, programs, run


def check(programs):
    return judged(row_of(programs, run) for run in programs.runs() if has_json(run))


if __name__ == "__main__":
    sys.exit(main(check))

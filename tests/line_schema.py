#!/usr/bin/env python3
"""Makes docs/lines.schema.json, a JSON Schema (draft 2020-12) of each line that a command prints with --json, out of the tables of json_lines.py and the words
below. tests/line_schema.py checks that the file is that one, that it takes each object of the stored runs, and that it refuses the same with a field too many,
a field too few, another word or a value of another type. Where Python's `jsonschema` is there, it has to judge the same. Ends with 'N passed, M failed';
with --write the file is written.

json_lines.py judges by it what the program prints."""
import json
import os
import sys

from programs import runs
from schema import FILE, fits
import json_lines

ABOUT = (
    "Each line that ntboot prints with --json, in this version: an object of ASCII, its fields in the order of `properties`. $defs has a definition for the "
    "lines of each command, as command-run. Made by tests/line_schema.py out of tests/json_lines.py, and not edited by hand. docs/texts.md says what a later "
    "version may add."
)
PHASES = "boot system automatic"
JUDGED = "ignored logged fall-back stop"
EDIT = "protected no-key no-value bad-name name-too-long too-deep data-too-long full"
VERDICTS = "good good-unsaved running fall-back stopped cut device full no-number no-entry other-loader no-system no-control-set no-last-known-good"
LEFT_OUT = "no-key no-start no-type kind disabled beyond too-early demand"
# The words that a field of a line may have: of a line of one command, or of the line in each command. Other words are any.
WORDS = {
    "load state": "clean recovered",
    "set by": "default last-known-good",
    "commit what": "begin save flush off default import",
    "phase name": PHASES + " done",
    "try outcome": "ok " + JUDGED,
    "save refused": "full no-number no-root dirty",
    "verdict word": VERDICTS,
    "made verdict": VERDICTS + " none",
    "mode word": "minimal network none",
    "refused event": "boot go fail vital set delete make remove flush logon off cut fault",
    "refused word": "off running early again idle " + EDIT,
    "control refused command": "start stop stopall",
    "control refused word": "no-service disabled running missing need-disabled unmet not-started in-use",
    "twin refused word": "no-key full",
    "export refused word": "no-key",
    "import refused word": EDIT + " exists no-control-set",
    "replay sequence state": "clean dirty",
    "salvage sequence state": "clean recovered as-is",
    "log log": "log log1 log2",
    "log other": "stamp number",
    "apply log": "log log1 log2",
    "replay fault log": "log log1 log2",
    "check select value": "Current Default Failed LastKnownGood",
    "check malformed field": "Start Type ErrorControl Group Tag DependOnService DependOnGroup",
    "differs field": "Start Type ErrorControl Group Tag DependOnService DependOnGroup ImagePath ObjectName",
    "key-differs field": "name class security values keys",
    "start-phase first": PHASES,
    "start-phase second": PHASES,
    **{f"{line} side": "first second" for line in ("no-set", "only", "group-only", "start-only", "unmet-only", "value-only", "key-only")},
    "why entry kind": "driver service other",
    "place phase": PHASES,
    "after by": "group tag registry",
    "before by": "group tag registry",
    "why state judgement": JUDGED,
    "why state phase": PHASES,
    "why state reason": LEFT_OUT + " late",
    "why unmet phase": PHASES,
    "lack of": "service group",
    "whatif of state": "started unmet untaken no-entry",
    "fail judgement": JUDGED,
    "leans by": "service group",
    "stage name": "recover-sectors recover-close log open sectors close",
    "write file": "log hive",
    **{f"{line} {kept}": "before after" for line in ("write", "sync") for kept in ("none", "all", "odd", "torn")},
    "node kind": "entry missing group",
    "node phase": PHASES + " none",
    "node state": "started failed unmet not-reached untaken no-entry",
    "device state": "enabled disabled legacy",
    "load role": "lower class-lower function upper class-upper",
    "class-filter role": "lower upper",
    "devices malformed field": "Service ClassGUID ConfigFlags LowerFilters UpperFilters",
    "class-malformed field": "LowerFilters UpperFilters",
    **{f"devices {line} state": "built-in no-key no-start disabled no-type" for line in ("of", "load", "bound", "class-filter", "critical")},
    "services entry kind": "driver service other",
    "services entry phase": PHASES,
    "find refused command": "find",
    "find refused word": "no-key",
}
NUMBER = {"type": "integer", "minimum": 0, "maximum": 2 ** 64 - 1}
NAME = {"type": "string"}
# The fields that a value's data have, whatever the value is of.
DATA = ({"number": "number"}, {"list": "list"}, {"text": "name", "ended": "flag"}, {"length": "number", "hex": "hex"})


def ref(name):
    return {"$ref": f"#/$defs/{name}"}


def fields(told):
    """The schema of an object with these fields and no others."""
    return {"type": "object", "properties": told, "required": list(told), "additionalProperties": False}


# What stands for the values of each type of json_lines.py; of a word it is `WORDS` or any.
VALUES = {
    "number": {**NUMBER, "description": "a whole number of 64 bits"},
    "name": {**NAME, "description": "UTF-16 units as in the hive; a half of a surrogate pair may occur alone, as \\ud83d"},
    "word": {"type": "string", "pattern": "^[!-~]+$"},
    "path": {"type": "array", "items": ref("name"), "description": "the names of the keys on the way"},
    "place": {"anyOf": [ref("number"), {"enum": ["none", "unlisted", "idle"]}]},
    "image": {"anyOf": [ref("name"), {"type": "null"}]},
    "side": {"anyOf": [ref("number"), ref("name"), {"type": "null"}, {"type": "array", "items": {"type": ["integer", "string"]}}]},
    "hex": {"type": "string", "pattern": "^([0-9a-f]{2})*$", "description": "bytes"},
    "stamp": {"type": "string", "pattern": r"^(\d{4}|\+\d{5})-\d\d-\d\dT\d\d:\d\d:\d\d\.\d{7}Z$", "description": "a moment in UTC"},
    "type": {"type": "string", "pattern": "^(REG_[A-Z_]+|0x[0-9a-f]{8})$", "description": "the type of a value"},
    "list": {"type": "array", "items": ref("name")},
    "flag": {"type": "boolean"},
    "value": {"anyOf": [{"type": "null"}, ref("number"), ref("name"), *(fields({it: ref(of) for it, of in {"type": "type", **data}.items()}) for data in DATA)]},
    "overrides": {"type": "array", "items": fields({"name": ref("name"), "value": ref("value")})},
    "marks": {"type": "array", "items": {"enum": ["no-image", "image-outside", "no-dll", "dll-outside"]}},
}
OF_TYPE = {
    "N": "number", "X": "number", "D": "number", "S": "name", "Q": "name", "T": "name", "P": "path", "W": "place", "I": "image", "V": "side", "L": "list",
    "E": "flag", "H": "hex", "F": "value", "O": "overrides", "M": "marks", **{name: name for name in VALUES},
}


def words_of(command, line, field):
    """The words that a field may have, or nothing where they are not told."""
    return WORDS.get(f"{command} {line} {field}", WORDS.get(f"{line} {field}", "")).split()


def of_field(command, line, name, mark, what):
    """The schema of a field of a form."""
    if mark in ("=", "!"):
        return {"type": "null"} if what == "null" else {"const": what}
    if mark == ":":
        if what not in OF_TYPE:
            raise SystemExit(f"tests/line_schema.py: {command} has a field {name} of the type {what}, for which no schema is told")
        return ref(OF_TYPE[what])
    words = words_of(command, line, name)
    return {"enum": words} if words else ref("word")


def of_form(command, form):
    """The schema of the objects of a form: `line`, the text's first word if no field has that name, and then its fields. It is described by the text."""
    found = json_lines.FIELD.findall(form)
    line = {name: what for name, _, what in found}.get("line", form.split(" ")[0])
    told = {"line": {"const": line}, **{name: of_field(command, line, name, mark, what) for name, mark, what in found if name != "line"}}
    text = json_lines.FIELD.sub(lambda found: {"=": found[3], "!": ""}.get(found[2], found[1].upper()), form)
    about = {"description": text} if form in json_lines.FORMS.get(command, ()) else {}
    return {**about, **fields(told)}


def used(values, lines):
    """Those of these values that a line has, or another value."""
    texts = {name: json.dumps(one) for name, one in {**values, **lines}.items()}
    kept = set(lines)
    while more := {name for name in values if name not in kept and any(f'/{name}"' in texts[other] for other in kept)}:
        kept |= more
    return {name: one for name, one in values.items() if name in kept}


def made():
    """The whole schema."""
    lines, commands = {}, {}
    for command in sorted({*json_lines.FORMS, *json_lines.OBJECTS}):
        names = []
        for form in [*json_lines.FORMS.get(command, ()), *json_lines.OBJECTS.get(command, ())]:
            schema = of_form(command, form)
            first = "line-" + schema["properties"]["line"]["const"]
            name, number = first, 1
            while lines.setdefault(name, schema) != schema:
                number += 1
                name = f"{first}-{number}"
            names += [name] * (name not in names)
        commands["command-" + command] = {"anyOf": [ref(name) for name in names]}
    return {
        "$schema": "https://json-schema.org/draft/2020-12/schema", "title": "lines of ntboot --json", "description": ABOUT,
        "anyOf": [ref(name) for name in commands], "$defs": {**used(VALUES, lines), **commands, **lines},
    }


def written(schema):
    """The schema as text, each definition on a line."""
    rows = [f"    {json.dumps(name)}: {json.dumps(one)}" for name, one in schema["$defs"].items()]
    parts = [f"  {json.dumps(name)}: {json.dumps(one)}" for name, one in schema.items() if name != "$defs"]
    return "{\n" + ",\n".join(parts) + ',\n  "$defs": {\n' + ",\n".join(rows) + "\n  }\n}\n"


def schema_of(whole, command):
    """The schema of the lines of a command, which stands by itself."""
    return {**ref("command-" + command), "$defs": whole["$defs"]}


WHOLE = made()


def taken(command, told):
    """Whether the schema takes an object of a command; not where no table has its lines."""
    return f"command-{command}" in WHOLE["$defs"] and fits(WHOLE, WHOLE["$defs"][f"command-{command}"], told)


def samples():
    """An object of each kind that the stored runs print: the command and the object, by the words of its line and the names and types of its fields."""
    found = {}
    for run in runs():
        if run.is_done() and not run.is_of_ntmend():
            for told in json_lines.objects_of(run):
                found.setdefault((run.words[0], *(f"{name} {type(value).__name__} {value if name == 'line' else ''}" for name, value in told.items())), told)
    return [(key[0], told) for key, told in found.items()]


def spoiled(told):
    """The same object with a field too many, one too few, another word of its line, and each value of a type that no field has."""
    yield {**told, "more": 1}
    yield {name: value for name, value in told.items() if name != "line"}
    yield {**told, "line": "none-such"}
    yield from ({**told, name: {"no": "value"}} for name in told)


def judged_by(fit):
    """The lines on each sample that is refused, and each spoiled one that is taken, by a function that judges an object of a command."""
    tried, wrong = 0, []
    for command, told in samples():
        for wanted, one in [(True, told), *((False, other) for other in spoiled(told))]:
            tried += 1
            if fit(command, one) != wanted:
                wrong.append(f"{command}: {json.dumps(one)} is {'refused' if wanted else 'taken'}")
    return tried, wrong


def by_library():
    """The same by Python's `jsonschema`, which also judges the schema; nothing where it is not there."""
    try:
        from jsonschema import Draft202012Validator as Validator
    except ImportError:
        print("skipped: the same by Python's jsonschema, which is not here (Debian: python3-jsonschema)")
        return 0, []
    Validator.check_schema(WHOLE)
    validators = {name: Validator(schema_of(WHOLE, name)) for name in {*json_lines.FORMS, *json_lines.OBJECTS}}
    tried, wrong = judged_by(lambda command, told: command in validators and validators[command].is_valid(told))
    return tried, [f"jsonschema: {line}" for line in wrong]


def main(words):
    text = written(WHOLE)
    if words == ["--write"]:
        with open(FILE, "w") as f:
            f.write(text)
    there = open(FILE).read() if os.path.exists(FILE) else ""
    wrong = [] if there == text else ["docs/lines.schema.json is not what tests/line_schema.py --write makes"]
    (ours, refused), (theirs, others) = judged_by(taken), by_library()
    wrong += refused + others
    print("".join(line + "\n" for line in wrong) + f"{1 + ours + theirs - len(wrong)} passed, {len(wrong)} failed")
    return 1 if wrong else 0


if __name__ == "__main__":
    sys.exit(main(sys.argv[1:]))

"""Reads reports of ntboot: as text, or as the JSON lines of `--json`, which become lines of text again."""
import json

# The text of each JSON line. A field that is no number or word of its own stands last.
FORMS = {
    "start": "start {number}",
    "entry": "entry {number} {path}",
    "load": "load {sequence} {state}",
    "set": "set {number} {by}",
    "commit": "commit {what} {sequence}",
    "select": "select {current} {default} {failed} {good}",
    "phase": "phase {name}",
    "unmet": "unmet {name}",
    "vital": "vital {name} missing",
    "save": "save refused {refused}",
    "edit": "edit ok",
    "flush": "flush nothing",
    "verdict": "verdict {word}",
    "mode": "mode {word}",
    "started": "started {name}",
    "stopped": "stopped {name}",
    "running": "running {name}",
    "default": "default nothing",
    "import": "import nothing",
    "current": "current {number}",
    "passed": "passed {count}",
    "exported": "exported {keys} keys {values} values",
    "sweep": "sweep {event}",
    "keeps": "keeps none all odd torn",
    "stage": "stage {name}",
    "write": "write {number} {file} {sector} {none} {all} {odd} {torn}",
    "sync": "sync {number} {none} {all} {odd} {torn}",
    "calls": "calls {count} before {before} after {after} neither {neither}",
    "devices": "devices {count} of {of}",
    "listed": "listed {count} of {of} driver {driver} service {service} other {other} boot {boot} system {system} automatic {automatic} demand {demand} "
              "disabled {disabled} beyond {beyond} none {none}",
}
# A report that is one line, after which nothing comes.
REFUSALS = ("bad usage", "no file ", "script fault ", "boot.ini fault ", "hive fault ", "reg fault ")


def shown(value):
    """A value as a report shows it: a name unit by unit, what is not printable in ASCII as an escape."""
    if not isinstance(value, str):
        return str(value)
    units = value.encode("utf-16-le", "surrogatepass")
    return "".join(chr(u) if 0x20 <= u <= 0x7E else f"\\u{u:04x}" for u in (units[i] + 256 * units[i + 1] for i in range(0, len(units), 2)))


def quoted(value):
    """A text in quotes, as `devices` and `services` print it."""
    return '"' + shown(value.replace("\\", "\\\\").replace('"', '\\"')) + '"'


def driver_of(fields):
    """A driver with its state, and the state's number where it has one."""
    return " ".join([quoted(fields["name"]), fields["state"], *(str(fields[name]) for name in ("start", "type") if name in fields)])


def field_of(value):
    """What `services` prints of a value: a hyphen, a number, a text in quotes; of a value of another type the type alone."""
    return "-" if value is None else f"({value['type']} ..)" if isinstance(value, dict) else quoted(value) if isinstance(value, str) else str(value)


def entry_of(fields):
    """A line of `services`, without a DLL of its own and overrides."""
    names = ("start", "type", "control", "group", "tag", "account", "image", "dll")
    place = "-" if fields["phase"] is None else f"{fields['phase']} {'unmet' if fields['number'] is None else fields['number']}"
    return " ".join(["entry", fields["kind"], quoted(fields["name"]), *(f"{name} {field_of(fields[name])}" for name in names), "order", place,
                     "written", fields["written"], *fields["marks"]])


def path_of(components):
    """A path whose components need no quotes, as those of the labs."""
    return "\\".join(map(shown, components))


def long_text_of(fields):
    """The text of a line that has texts in quotes; nothing for other lines."""
    line = fields["line"]
    if line == "load" and "role" in fields:
        return f"load {fields['role']} {driver_of(fields)}"
    if line == "class-filter":
        return f"class-filter {fields['role']} {quoted(fields['class'])} {quoted(fields['key'])} {driver_of(fields)}"
    if line == "device":
        return f"device {fields['state']} {quoted(fields['class']) if 'class' in fields else 'none'} {path_of(fields['path'])}"
    if line == "entry" and "kind" in fields and "written" in fields:
        return entry_of(fields)
    return None


def text_of(fields):
    """The line of text of a JSON object."""
    text = long_text_of(fields)
    if text is not None:
        return text
    fields = {name: shown(value) for name, value in fields.items()}
    line = fields.pop("line")
    if line == "try":
        outcome = fields["outcome"]
        return f"try {fields['name']} " + (outcome if outcome == "ok" else f"failed {outcome}")
    if line == "refused":
        return " ".join(["refused", *(fields[name] for name in ("event", "command", "name", "word", "other") if name in fields)])
    form = FORMS.get(line)
    if form is None:
        return " ".join([line, *fields.values()])
    return form.format_map(fields)


def lines_of(data):
    """The lines of a report, which may be text or JSON."""
    text = data.decode("utf-16", "replace") if data[:2] in (b"\xff\xfe", b"\xfe\xff") else data.decode("latin-1")
    lines = [line.strip() for line in text.splitlines()]
    return [text_or_line(line) for line in lines if line]


def text_or_line(line):
    """The text of a line, which may be a JSON object; what can't be read stays as it is."""
    if not line.startswith("{"):
        return line
    try:
        return text_of(json.loads(line))
    except (ValueError, KeyError, AttributeError, TypeError, RecursionError):
        return line


def parts_of(lines):
    """The parts of a report: each start of a run, each report of another command, and each refusal. What comes before the first start is a part too."""
    parts, now = [], []
    for line in lines:
        refusal = line.startswith(REFUSALS)
        if now and (refusal or line.startswith("start ")):
            parts.append(now)
            now = []
        now.append(line)
        if refusal or line == "end":
            parts.append(now)
            now = []
    return parts + [now] if now else parts

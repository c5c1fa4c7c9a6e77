"""Reports for view_page.py: every known one, and long ones that are made here."""
import os

import json_lines
import programs

TOP = programs.TOP
LABS = os.path.abspath(os.path.join(TOP, "labs"))
LINES = os.path.join(TOP, "tests", "view_lines")
HELP = {"help", "version", "-h", "--help", "--version"}
# Tables that labs/sweep.py prints.
SWEEPS = ("06_commit_point/table.txt", "07_why_the_log_is_synced/loads.txt")


def command_of(run):
    """The command whose report a run of tests/runs prints; `report` if it is refused."""
    if run.wanted.status not in (0, 8):
        return "report"
    return "help" if HELP & set(run.words) else "ntmend" if run.is_of_ntmend() else run.words[0]


def stored_reports(folder):
    """The reports of examples or labs: what each line of a file `command` prints."""
    for name in sorted(os.listdir(folder)):
        path = os.path.join(folder, name, "command")
        for line in programs.read(path).decode().splitlines() if os.path.isfile(path) else ():
            command, _, report = line.partition(" > ")
            yield f"{name}/{report}", command.split()[1], programs.read(folder, name, report or "report.txt").decode("latin-1")


def lines_of_no_run():
    """The reports of tests/view_lines, separated by empty lines; a file is named for its command."""
    for name in sorted(os.listdir(LINES)):
        for i, text in enumerate(programs.read(LINES, name).decode().split("\n\n"), 1):
            yield f"{name} {i}", name.partition(".")[0], text


def alike_reports():
    """The pairs of tests/view_lines: reports whose text and JSON lines are by hand, for lines that json_lines.py does not have."""
    for name in sorted(os.listdir(LINES)):
        if name.endswith(".alike.txt"):
            texts, objects = (programs.read(LINES, name[:-3] + form).decode().split("\n\n") for form in ("txt", "json"))
            yield from ((f"{name} {i}", name.partition(".")[0], *pair) for i, pair in enumerate(zip(texts, objects, strict=True), 1))


def known_reports():
    """Every known report: its name, its command, and its text."""
    runs = [(run.name, command_of(run), run.wanted.out.decode("latin-1")) for run in programs.runs()]
    sweeps = [(name, "sweep", programs.read(LABS, name).decode()) for name in SWEEPS]
    stored = [*stored_reports(os.path.join(TOP, "examples")), *stored_reports(LABS)]
    return [report for report in (*runs, *stored, *sweeps, *lines_of_no_run()) if report[2].strip()]


def as_objects(command, text):
    """A report as JSON lines, by the tables of json_lines.py; nothing if these lack a line."""
    if command not in json_lines.FORMS or text.startswith("{"):
        return None
    objects = [json_lines.object_of(command, line) for line in text.splitlines()]
    return "\n".join(map(json_lines.spelled, objects)) if all(objects) else None


def long_run(count):
    """A start with this number of attempts, in three phases."""
    lines = ["start 1", "set 1 default"]
    for part, phase in enumerate(("boot", "system", "automatic")):
        lines += [f"phase {phase}", *(f"try Service{i} ok" for i in range(part * count // 3, (part + 1) * count // 3))]
    return "\n".join([*lines, "phase done", "verdict running", "end", ""])


def long_services(count):
    """A set with this number of drivers and services; each ninth has a mark."""
    def entry(i):
        kind, number = ("service", 32) if i % 4 else ("driver", 1)
        mark = "" if i % 9 else " no-dll"
        return (f'entry {kind} "Service{i}" start {i % 5} type {number} control 1 group "Group {i % 7}" tag - account - image "a{i}.exe" dll - order - '
                f"written 2012-04-04T11:47:06.7343750Z{mark}")

    total = f"listed {count} of {count} driver 0 service {count} other 0 boot 0 system 0 automatic 0 demand 0 disabled 0 beyond 0 none 0"
    return "\n".join(["set 1", *map(entry, range(count)), total, "end", ""])


def long_whatif(count):
    """This number of entries, each of which takes the next one down."""
    lines = [line for i in range(count) for line in (f"fail logged 1 Service{i}", f"unmet Service{i + 1}", f"off 1 Service{i}", f"unmet Service{i + 1}")]
    return "\n".join(["start 1", "set 1 default", "verdict running", *lines, "end", ""])


def long_key(count):
    """This number of keys, each with its stamp and a value."""
    def lines(i):
        return f"key Services\\Service{i}", "stamp 1601-01-01T00:00:00.0000000Z", f'value "Start" REG_DWORD {i % 5} 0x0000000{i % 5}'

    return "\n".join([line for i in range(count) for line in lines(i)] + ["end", ""])


LONG = {"run": long_run, "services": long_services, "whatif": long_whatif, "key": long_key}

#!/usr/bin/env python3
"""Tries labs/view.html in a real browser, a headless Chromium (Debian's package `chromium`): tests/view_page.py [FOLDER].

It shows every known report, as text and as JSON lines: those of tests/runs, of examples and labs, and those of tests/view_lines. Each line has to be read,
and each of its fields has to be visible. Then come long reports, the filter, the start page, each sample in both colours, a narrow window, paper, the
keyboard, the names for a screen reader, each way to bring a report in, hostile names, and that nothing asks a network. Screenshots go into FOLDER, if one
is named. Prints what failed, then 'N passed, M failed'; without a browser it says that all is skipped."""
import os
import sys
import tempfile

import browser
import programs
import view_reports
from view_reports import LABS, TOP
from view_trial import PAGE, Trial

# ---- Lines


def alike(trial):
    """The pairs of reports by hand: the name, the command, the JSON lines, and the text as it is shown."""
    pairs = list(view_reports.alike_reports())
    shown = trial.judged([(command, text) for _, command, text, _ in pairs])
    return [(name, command, objects, found["text"]) for (name, command, _, objects), found in zip(pairs, shown)]


def each_known_line(trial):
    """Each line of each known report is read and visible, as text and as JSON, and each form of the page has such a line."""
    trial.fresh()
    known = view_reports.known_reports()
    texts = trial.judged([(command, text) for _, command, text in known])
    for (name, _, _), found in zip(known, texts):
        trial.check(not found["problems"], f"{name}: {found['problems'][:3]}")
    pairs = [(name, command, view_reports.as_objects(command, text), found["text"]) for (name, command, text), found in zip(known, texts)]
    pairs = [pair for pair in pairs if pair[2]] + alike(trial)
    objects = trial.judged([(command, text) for _, command, text, _ in pairs])
    for (name, _, _, shown), found in zip(pairs, objects):
        trial.check(not found["problems"] and found["text"] == shown, f"{name} as JSON lines: {found['problems'][:3] or 'is shown in another way'}")
    met = {form for found in (*texts, *objects) for form in found["forms"]}
    for form in trial.call("forms"):
        trial.check(form in met, f"no known line has the form {form}")


RUN = "start 1\nset 1 default\nphase boot\ntry Disk ok\nverdict running\nend\n"
WHY = programs.read(TOP, "examples", "unmet_dependencies", "why.txt").decode()
# Reports with a fault, and the problem that has to be reported.
PLANTED = [
    ("run", RUN.replace("verdict", "try Disk perhaps\nverdict"), "unread: try Disk perhaps"),
    ("run", RUN.replace("start 1", "start one"), "unread: start one"),
    ("why", WHY.replace("place automatic 3", "place automatic third"), "unread: place automatic third of 6"),
    ("why", WHY.replace("end\n", ""), "is cut off"),
    ("check", WHY, "is taken for why"),
    ("services", 'set 1\nentry driver "A" start 1\nend\n', 'unread: entry driver "A" start 1'),
    ("devices", '{"line":"devices","count":1,"of":1}\n{"line":"load","role":"upper"}\n{"line":"end"}\n', 'unread: {"line":"load","role":"upper"}'),
]


def planted(trial):
    """A wrong line is reported, and so is a page that leaves out a field."""
    trial.fresh()
    for (_, _, problem), found in zip(PLANTED, trial.judged([(command, text) for command, text, _ in PLANTED])):
        trial.check(problem in found["problems"], f"{problem!r} is reported: {found['problems']}")
    trial.call("leaveOut")
    found = trial.judged([("why", WHY.replace("registry 3", "registry 77"))])[0]
    trial.check("not seen: registry.place 77" in found["problems"], f"a field that is left out is reported: {found['problems']}")
    trial.fresh()
    trial.take(PLANTED[0][1])
    trial.says("of which 1 can't be read", "Lines that this page does not know", "try Disk perhaps")


# ---- Long reports


def of_136_entries(trial):
    """Reports of the size of a real machine's: each row is drawn, and no place is broken into two lines, at any width."""
    for command, make in view_reports.LONG.items():
        trial.fresh()
        trial.take(make(136))
        problems = trial.judged([(command, make(136))])[0]["problems"]
        trial.check(not problems, f"{command} of 136 entries: {problems[:3]}")
        trial.shot(f"{command}_136")
    for count, width in ((136, 1280), (136, 380), (1100, 1280), (1100, 380)):
        trial.fresh(width=width)
        trial.take(view_reports.long_run(count))
        places, broken = trial.page.value("document.querySelectorAll('.place').length"), trial.call("brokenPlaces")
        trial.check(places == count and not broken, f"{count} places in a window of {width}: {places}, broken {broken[:5]}")
        trial.check(trial.call("excess") <= 0, f"a window of {width} with {count} places does not scroll sideways")
        trial.shot(f"places_{count}_{width}")


def filtered(trial, text, count, rows):
    """Types a text into the filter, in place of the one before, and looks at what is shown."""
    trial.page.value("(() => { const search = document.querySelector('input[type=search]'); search.focus(); search.select(); })()")
    trial.page.key("Backspace", 8)
    trial.page.typed(text)
    trial.settled()
    found = trial.call("count"), trial.call("rows")
    trial.check(found == (count, rows), f"filter {text!r}: {found}, wanted {(count, rows)}")


def a_filter_over_10000_rows(trial):
    """The filter hides and shows rows; it makes no row twice, and never more than are shown at once."""
    trial.fresh()
    trial.take(view_reports.long_services(10000))
    first = "10000 lines, of which the first 500 are shown"
    trial.check(trial.call("count") == first, trial.call("count"))
    trial.call("watch")
    filtered(trial, "service99", "111 of 10000 lines", 111)
    made = trial.page.value("trial.made")
    filtered(trial, "service999", "11 of 10000 lines", 11)
    filtered(trial, "SERVICE99", "111 of 10000 lines", 111)
    filtered(trial, "nowhere", "0 of 10000 lines", 0)
    filtered(trial, "", first, 500)
    again = trial.page.value("trial.made")
    trial.check(0 < made <= 111 and again == made, f"rows made while typing: {made}, then {again - made}")
    trial.call("only", "no-dll")
    trial.check(trial.call("count") == "1112 of 10000 lines, of which the first 500 are shown", trial.call("count"))


def more_on_request(trial):
    """A button shows more rows, four times as many each time."""
    trial.fresh()
    trial.take(view_reports.long_key(700))
    for rows, button in ((500, "Show 2000"), (2000, "Show 2100")):
        count = f"2100 lines, of which the first {rows} are shown"
        found = trial.call("count"), trial.call("rows")
        trial.check(found == (count, rows), f"{found}, wanted {(count, rows)}")
        trial.call("press", button)
    trial.check((trial.call("count"), trial.call("rows")) == ("2100 lines", 2100), f"all are shown in the end: {trial.call('count')}")


def a_filter_over_groups(trial):
    """The head of a row that matches is shown too, and all rows of a head that matches; a phase without a match is hidden."""
    trial.fresh()
    trial.take(view_reports.long_key(40))
    filtered(trial, "service17", "3 of 120 lines", 3)
    filtered(trial, "reg", "80 of 120 lines", 80)
    trial.fresh()
    trial.take(view_reports.long_run(136))
    filtered(trial, "service130", "1 of 137 lines", 0)
    phases = trial.page.value("[...document.querySelectorAll('.phase:not([hidden]) h4')].map(head => head.textContent)")
    trial.check(phases == ["Automatic phase"], f"phases with a match: {phases}")
    trial.fresh()
    trial.take(view_reports.long_services(20))
    filtered(trial, "2 automatic", "4 of 20 lines", 4)


THREE = ["fail logged 0 A", "off 0 A", "fail stop 1 B", "off 0 B", "fail logged 2 C", "unmet A", "unmet B", "off 1 C", "unmet A"]


def worst_first(trial):
    """A button of whatif sorts the entries, and restores their order."""
    trial.fresh()
    trial.take("\n".join(["start 1", "set 1 default", "verdict running", *THREE, "end", ""]))
    for wanted in (["B", "C", "A"], ["A", "B", "C"]):
        trial.call("press", "Worst first")
        names = trial.page.value("[...document.querySelectorAll('tbody th')].map(head => head.textContent)")
        trial.check(names == wanted, f"sorted {names}, wanted {wanted}")


# ---- The page itself

# What each sample has to show.
SAID = {
    "run": ["Select over the starts", "Start 3, begin", "the script calls it vital", "unmet", "Ntfs", "Automatic phase"],
    "unmet": ["its members wait for each other", "needs the group “Tape”", "it needs something that was not started", "cycle 1"],
    "safe": ["Safe mode", "minimal", "Null", "unmet"],
    "control": ["need-disabled: X", "refused", "stopall"],
    "why": ["Dhcp", "3 of 6 in the automatic phase", "Backup, by their places in the registry", "is unmet in the automatic phase", "has no started member"],
    "whatif": ["Tcpip", "Who leans on it", "Share", "logged"],
    "graph": ["System phase", "Needed by", "Tape", "group"],
    "show": ["ControlSet001\\Services\\Disk", "REG_DWORD", "LastKnownGood"],
    "key": ["ControlSet001\\Services\\Disk", "2012-04-02T11:47:06.6718750Z", "REG_EXPAND_SZ", "system32\\drivers\\disk.sys", "subkey"],
    "find": ["3 places", "Partmgr, Disk0", "In the key"],
    "services": ["dll-outside", "%SystemRoot%\\System32\\svchost.exe -k netsvcs", "In the start", "REG_SZ 5", "no-image"],
    "devices": ["CD-ROM Drive", "upper filter of the class", "no such service", "class Keyboard", "0x00000001"],
    "check": ["15", "which is not there", "neither a driver nor a service"],
    "diff": ["7", "Memdump", "DependOnService", "first 1, second 2"],
    "edit": ["REG_DWORD 0", "removed", "ControlSet002"],
    "salvage": ["6 keys, 7 values", "an offset at which no cell begins", "69632"],
    "replay": ["2 whole entries, numbers 6 to 7", "3 entries", "log2"],
    "sweep": ["commit point", "sync 2", "0 neither", "keep odd", "sectors"],
}
# The samples that are a stored report.
KEPT = {
    "run": "examples/disabled_driver/report.txt", "why": "examples/unmet_dependencies/why.txt", "graph": "examples/unmet_dependencies/graph.dot",
    "check": "examples/wrong_services/report.txt", "salvage": "examples/damaged_hive/report.txt", "safe": "tests/runs/safe_lists_a_group/stdout",
    "control": "tests/runs/control_refuses_each_start/stdout", "show": "tests/runs/show_one_driver/stdout", "replay": "tests/runs/replay_two_logs/stdout",
    "sweep": "tests/runs/sweep_flush/stdout",
}


def sample_in_colours(trial, name, dark):
    trial.fresh(dark)
    trial.sample(name)
    trial.says(*SAID[name])
    worst = trial.call("contrast")
    trial.check(worst >= 4.5, f"{name}{' dark' if dark else ''}: contrast {worst:.2f}")
    trial.check(trial.page.value("document.activeElement.tagName") == "H2", f"{name}: the new report has the focus")
    trial.check(not trial.call("steep"), f"{name}: headings go down by one level")
    trial.check(trial.page.value("!document.querySelector('.unread')"), f"{name}: each line is read")
    trial.shot(name + ("_dark" if dark else ""))


def samples(trial):
    """Each sample in both colours and in a narrow window, and what it has to show."""
    for name in SAID:
        sample_in_colours(trial, name, False)
        sample_in_colours(trial, name, True)
        trial.page.emulate(width=380)
        trial.check(trial.call("excess") <= 0, f"{name}: a narrow page does not scroll sideways")
        trial.shot(f"{name}_narrow")
    for name, path in KEPT.items():
        kept, text = programs.read(TOP, path).decode(), trial.page.value(f"document.getElementById('sample-{name}').textContent")
        trial.check(text.strip() == kept.strip(), f"the sample {name} is the stored report")


def start_page(trial):
    """Without a report the page says what it can show: each command, with a button for each sample. It is closed when there is a report."""
    trial.fresh()
    commands, known = trial.call("commands"), set(trial.page.value("REPORTS.map(report => report.command)")) - {"help"}
    trial.check(sorted(name for name, _ in commands) == sorted(known) and all(length > 20 for _, length in commands), f"commands of the start page: {commands}")
    buttons = trial.page.value("[...document.querySelectorAll('#about button')].map(button => button.id.replace('load-', ''))")
    trial.check(sorted(buttons) == sorted(SAID), f"samples of the start page: {buttons}")
    trial.check(trial.call("contrast") >= 4.5 and not trial.call("steep"), f"start page: contrast {trial.call('contrast'):.2f}")
    trial.shot("start")
    trial.sample("why")
    trial.check(trial.page.value("!document.getElementById('about').open"), "the start page is closed by a report")
    trial.check(trial.page.value("document.getElementById('status').textContent") == "sample: why, 18 lines.", "the status names the report")
    trial.page.value("document.getElementById('clear').click()")
    trial.check(trial.page.value("document.getElementById('about').open"), "the start page is open when all reports are removed")
    trial.fresh(width=380)
    trial.check(trial.call("excess") <= 0, "a narrow start page does not scroll sideways")
    trial.shot("start_narrow")


def paper(trial):
    """Paper has no controls and light colours, and closed starts are open on it."""
    trial.page.emulate(dark=True, media="print")
    trial.page.open(PAGE)
    trial.page.value("document.documentElement.dataset.theme = 'dark'")
    trial.sample("unmet")
    trial.sample("services")
    trial.check(not trial.call("controls"), f"controls on paper: {trial.call('controls')}")
    worst = trial.call("contrast", True)
    trial.check(worst >= 4.5, f"contrast on white paper {worst:.2f}")
    trial.shot("paper")
    trial.fresh()
    trial.sample("run")
    trial.page.value("document.querySelector('details.start').open = false")
    trial.call("watchPaper")
    printed = trial.page.paper()
    trial.check(printed.startswith(b"%PDF") and trial.page.value("trial.opened[0]"), "a closed start is open on paper")
    trial.check(trial.page.value("document.querySelector('details.start').open") is False, "and closed again afterwards")
    if trial.folder:
        programs.write(printed, trial.folder, "paper.pdf")


def tabbed(trial, count):
    """What has the focus after each of some Tabs."""
    reached = []
    for _ in range(count):
        trial.page.key("Tab", 9)
        reached.append(trial.call("focus"))
    return reached


def keyboard(trial):
    """Tab reaches all controls, in order, and they work by Enter and Space."""
    trial.fresh()
    reached = tabbed(trial, 9)
    trial.check(reached == ["text", "show", "files", "clear", "print", "theme", "summary", "load-run", "load-unmet"], f"Tab goes {reached}")
    trial.page.value("document.getElementById('theme').focus()")
    trial.page.key("Enter", 13, "\r")
    trial.check(trial.page.value("document.documentElement.dataset.theme") == "light", "Enter changes the colours")
    trial.page.value("document.getElementById('load-whatif').focus()")
    trial.page.key(" ", 32, " ")
    trial.counts(1, "Space loads the sample")
    reached = tabbed(trial, 5)
    wanted = ["Remove whatif: sample", "Filter whatif: sample", "Only some lines of whatif: sample", "Each entry failed, and off", "Who leans on it"]
    trial.check(reached == wanted, f"Tab goes on {reached}")
    trial.sample("run")
    trial.page.value("document.querySelector('details.start summary').focus()")
    trial.page.key("Enter", 13, "\r")
    trial.check(trial.page.value("document.querySelector('details.start').open") is False, "Enter closes a start")
    trial.shot("keyboard")


# Roles that need a name, and how often a role occurs at least with all samples on the page.
NAMED = {"button", "textbox", "searchbox", "combobox", "region", "checkbox", "link"}
ROLES = {"main": 1, "banner": 1, "columnheader": 30, "rowheader": 30, "searchbox": 5, "status": 6}


def read_aloud(trial):
    """Each control and region has a name for a screen reader, and changes of counts are announced."""
    trial.fresh()
    for name in SAID:
        trial.sample(name)
    nodes = [node for node in trial.page.ask("Accessibility.getFullAXTree")["nodes"] if not node.get("ignored")]
    roles = [node.get("role", {}).get("value") for node in nodes]
    nameless = [role for role, node in zip(roles, nodes) if role in NAMED and not node.get("name", {}).get("value")]
    trial.check(not nameless, f"without a name: {nameless}")
    for role, least in ROLES.items():
        trial.check(roles.count(role) >= least, f"{roles.count(role)} of the role {role}, wanted {least}")
    live = trial.page.value("[...document.querySelectorAll('output')].every(part => part.getAttribute('aria-live') === 'polite')")
    trial.check(live, "counts are announced")


# ---- Ways in

HOSTILE = 'start 1\nphase boot\ntry <img src=x onerror="window.hurt=1"> ok\nunmet </script><script>window.hurt=1</script>\nverdict running\nend\n'
# Objects with fields of unexpected types.
ODD = [
    '{"line":"entry","kind":"driver","name":{"a":1},"start":[],"type":{},"control":1,"group":null,"tag":null,"account":null,"image":null,"dll":null,'
    '"phase":{},"number":null,"written":1,"own":1,"override":7,"marks":9}',
    '{"line":"value","name":"x","type":"REG_DWORD","number":"abc"}', '{"line":"key","path":[{"a":1},null]}', '{"line":"constructor"}', '{"line":7}',
    '{"line":"toString","number":1}', '{"line":"node","node":1,"kind":{},"phase":"__proto__","state":"constructor","number":1,"name":"x"}',
    '{"line":"try","name":"x","outcome":"__proto__"}',
]
POLICY = "default-src 'none'; style-src 'unsafe-inline'; script-src 'unsafe-inline'; img-src data:"


def ways_in(trial):
    """Files picked and dropped, text pasted into the field and beside it."""
    page, files = trial.page, sorted(os.path.join(LABS, lab, "report.txt") for lab in ("01_load_order", "04_error_control"))
    trial.fresh()
    root = page.ask("DOM.getDocument")["root"]["nodeId"]
    page.ask("DOM.setFileInputFiles", files=files, nodeId=page.ask("DOM.querySelector", nodeId=root, selector="#files")["nodeId"])
    trial.counts(2, "two files are picked")
    trial.says("failed, stops", "Pci")
    for kind in ("dragEnter", "dragOver", "drop"):
        page.ask("Input.dispatchDragEvent", type=kind, x=600, y=100, data={"items": [], "files": files[:1], "dragOperationsMask": 1})
    trial.counts(3, "a file is dropped")
    page.value("document.getElementById('text').focus()")
    page.ask("Input.insertText", text="hive fault log-absent at 0")
    page.key("Enter", 13, "\r", modifiers=2)
    trial.counts(4, "Ctrl+Enter shows what was pasted")
    trial.says("the hive is dirty, and there is no log")
    trial.call("paste", programs.read(files[0]).decode())
    trial.counts(5, "text is pasted beside the field")
    trial.call("press", "Remove")
    trial.counts(4, "a report is removed")
    page.value("document.getElementById('clear').click()")
    trial.counts(0, "all are removed")


def index(trial):
    """Several reports are listed, each with a link to it."""
    trial.fresh()
    trial.sample("why")
    trial.check(trial.page.value("document.getElementById('index').hidden"), "one report is not listed")
    trial.sample("find")
    links = trial.page.value("[...document.querySelectorAll('#index a')].map(link => [link.textContent, document.querySelector(link.hash).textContent])")
    trial.check(links == [["why: sample"] * 2, ["find: sample"] * 2], f"the list of reports: {links}")


def long_data(trial):
    """A long text is shown on request, and is whole then."""
    digits = "0123456789abcdef" * 500
    trial.fresh()
    trial.take(f'key A\nstamp 1601-01-01T00:00:00.0000000Z\nvalue "Blob" REG_BINARY hex 4000 {digits}\nend\n')
    shown = trial.page.value("document.querySelector('details.long').innerText")
    trial.page.value("document.querySelector('details.long').open = true")
    whole = trial.page.value("document.querySelector('details.long .name').innerText")
    trial.check(len(shown) < 100 and whole == digits, f"long data: {shown}")


def beside_each_other(trial):
    """The reasons of check are shown in a report of run as long as it is there; nothing else is drawn again."""
    reason = "its members wait for each other"
    trial.fresh()
    trial.sample("why")
    trial.page.value("document.querySelector('section.report').dataset.mark = 'kept'")
    trial.sample("unmet")
    trial.check(reason in trial.call("report", 1), "the reason is shown in the report of run")
    trial.page.value("document.querySelectorAll('section.report')[2].querySelector('.head button').click()")
    trial.check(reason not in trial.call("report", 1), "and not without the report of check")
    trial.check("service Tcpip is unmet itself" in trial.call("report", 1), "that of why is still shown")
    trial.check(trial.page.value("document.querySelector('section.report').dataset.mark") == "kept", "another report is not drawn again")


def hostile(trial):
    """Names are inserted as text, unexpected types break nothing, and the content policy is the strict one."""
    trial.fresh()
    trial.take(HOSTILE)
    trial.settled()
    trial.check(trial.page.value("window.hurt === undefined && !document.querySelector('main img, main script')"), "names are text")
    trial.says("<img src=x", "</script>")
    trial.take('nonsense\n{"line":\nend')
    trial.says("of which 2 can't be read")
    for text in ODD:
        trial.fresh()
        trial.take(text + "\n")
        trial.check(trial.count() == 1, f"{text[:60]} is shown in some way")
    policy = trial.page.value("document.querySelector('meta[http-equiv=Content-Security-Policy]').content")
    trial.check(policy == POLICY, f"the policy is {policy}")


def is_error(event):
    entry = event["params"]["entry"] if event.get("method") == "Log.entryAdded" else {}
    return event.get("method") == "Runtime.exceptionThrown" or entry.get("level") == "error"


def quiet(trial):
    """Nothing was asked of a network, and there was no error in the page."""
    asked = {event["params"]["request"]["url"] for event in trial.page.events if event.get("method") == "Network.requestWillBeSent"}
    trial.check(all(url == PAGE or url.startswith("data:") for url in asked), f"asked for {sorted(asked)}")
    wrong = list(filter(is_error, trial.page.events))
    trial.check(not wrong, f"errors in the page: {wrong[:3]}")


PARTS = (
    each_known_line, planted, of_136_entries, a_filter_over_10000_rows, more_on_request, a_filter_over_groups, worst_first, samples, start_page, paper,
    keyboard, read_aloud, ways_in, index, long_data, beside_each_other, hostile, quiet,
)


def started(profile):
    """A browser, or why there is none."""
    program = browser.program()
    if not program:
        return None, "there is no browser (apt-get install -y chromium)"
    try:
        return browser.Browser(program, profile), ""
    except SystemExit as ended:
        return None, f"{program} does not start: {ended}"


def main(words):
    folder = words[0] if words else None
    if folder:
        os.makedirs(folder, exist_ok=True)
    with tempfile.TemporaryDirectory(ignore_cleanup_errors=True) as profile:
        page, why_not = started(profile)
        if page is None:
            print(f"skipped: {why_not}\n0 passed, 0 failed")
            return 0
        trial = Trial(page, folder)
        try:
            for part in PARTS:
                part(trial)
        finally:
            page.close()
    print(f"{trial.passed} passed, {trial.failed} failed")
    return 1 if trial.failed else 0


if __name__ == "__main__":
    sys.exit(main(sys.argv[1:]))

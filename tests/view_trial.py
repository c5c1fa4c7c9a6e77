"""The page labs/view.html in a browser, and the checks of view_page.py, counted."""
import json
import os

import programs
from view_reports import LABS, TOP

PAGE = "file://" + os.path.join(LABS, "view.html")
SCRIPT = programs.read(TOP, "tests", "view_page.js").decode()
# Fields that need not be visible, by command: numbers that join lines, the level that the path shows, data that are shown decoded, and the word for a part.
HIDDEN = {"graph": ["node", "from", "to", "number"], "show": ["level", "data", "path"], "salvage": ["part"]}


class Trial:
    """The page in the browser, and the checks, counted."""

    def __init__(self, page, folder):
        self.page, self.folder, self.passed, self.failed = page, folder, 0, 0
        page.ask("Page.addScriptToEvaluateOnNewDocument", source=SCRIPT)

    def check(self, held, what):
        if held:
            self.passed += 1
        else:
            self.failed += 1
            print("failed:", what)

    def call(self, name, *arguments):
        """What a function of view_page.js answers."""
        return self.page.called(f"trial.{name}", *arguments)

    def judged(self, reports):
        """What is wrong with how the page shows each report, the forms of its lines, and its text."""
        return self.page.called("(reports, hidden) => reports.map(report => trial.judged(report, hidden))", reports, HIDDEN)

    def says(self, *words):
        """Each of these texts is shown."""
        text = self.page.value("document.getElementById('reports').innerText").replace("\u00a0", " ")
        for word in words:
            self.check(word in text, f"{word!r} is shown")
        self.check("[object" not in text and "undefined" not in text, "no value is shown raw")

    def settled(self, milliseconds=200):
        """Waits until a filter has run, which it does 100 ms after the last key, before later timers."""
        self.page.value(f"new Promise(done => setTimeout(done, {milliseconds}))")

    def count(self):
        return self.page.value("document.querySelectorAll('section.report').length")

    def counts(self, count, what):
        """There is this number of reports on the page, at once or, after a file was read, in a moment."""
        for _ in range(100):
            if self.count() == count:
                break
            self.settled(50)
        self.check(self.count() == count, what)

    def fresh(self, dark=False, width=1280):
        self.page.emulate(width, dark)
        self.page.open(PAGE)

    def take(self, text):
        self.page.value(f"take({json.dumps(text)}, 'x')")

    def sample(self, name):
        self.page.value(f"document.getElementById('load-{name}').click()")

    def shot(self, name):
        if self.folder:
            self.page.picture(os.path.join(self.folder, name + ".png"))

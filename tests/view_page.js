// What view_page.py asks of labs/view.html, inside the page. These functions are added to it before its own script runs.
const trial = {
  // The values in an object: texts and numbers, and a path as one text.
  leaves(name, value) {
    if (value === null || value === undefined || typeof value === "boolean") return [];
    if (name === "path" && Array.isArray(value)) return [value.join("\\")];
    return typeof value === "object" ? Object.entries(value).flatMap(([part, inner]) => trial.leaves(part, inner)) : [value];
  },

  // The texts by which a value may be shown, in lower case.
  spellings(leaf) {
    const hex = typeof leaf === "number" ? [0, 4, 8].map(digits => "0x" + leaf.toString(16).padStart(digits, "0")) : [];
    return [shown(leaf), ...hex].map(text => text.toLowerCase());
  },

  // A report as the page shows it, with all its rows, and the meanings of words that are shown in place of the words.
  partsOf(read) {
    const parts = el("div", {}, bodyOf({ ...read, title: "x" }, new Map()));
    for (let more; (more = parts.querySelector(".filter button")) && !more.hidden;) more.click();
    const words = [...parts.querySelectorAll("[data-word]")].map(part => part.dataset.word);
    return { parts, text: parts.textContent, seen: [parts.textContent, ...words].join(" ").toLowerCase() };
  },

  // The fields whose values are not seen.
  unseen(lines, seen, hidden) {
    const isSeen = leaf => trial.spellings(leaf).some(text => seen.includes(text));
    return lines.flatMap(({ object }) => Object.entries(object).flatMap(([name, value]) => {
      const leaves = ["line", "command", ...hidden].includes(name) ? [] : trial.leaves(name, value);
      return leaves.filter(leaf => !isSeen(leaf)).map(leaf => `not seen: ${object.line}.${name} ${leaf}`);
    }));
  },

  // The lines as the report that is meant reads them.
  readBy(report, read, text) {
    if (read.report === report || read.report.read) return read.lines;
    const lines = text.split("\n").filter(line => line);
    return lines.map(line => readLine(report, { text: line, object: line.startsWith("{") ? parsed(line) : null }));
  },

  // What is wrong with how a report is shown. Up to four lines may fit several commands; then any of them will do.
  judged([command, text], hidden) {
    const read = readReport(text), report = [...REPORTS, NO_REPORT].find(report => report.command === command), problems = [];
    const meant = trial.readBy(report, read, text), fits = meant.every(line => line.how !== UNREAD);
    if (read.report !== report && (read.lines.length > 4 || !fits)) problems.push(`is taken for ${read.report.command}`);
    read.lines.filter(line => line.how === UNREAD).forEach(({ object }) => problems.push(`unread: ${object.text || JSON.stringify(object)}`));
    const made = trial.partsOf(read);
    if (made.parts.querySelector(".cut")) problems.push("is cut off");
    problems.push(...trial.unseen(read.lines, made.seen, hidden[command] || []));
    return { problems, forms: meant.filter(({ how }) => how.form).map(({ how }) => `${command}: ${how.form}`), text: made.text };
  },

  // Each form of the page's table.
  forms: () => REPORTS.flatMap(report => report.lines.map(([form]) => `${report.command}: ${form}`)),

  // Makes the page leave out a field: the place in the registry.
  leaveOut() {
    REPORTS.find(report => report.command === "why").byText.get("registry")[0].texts[1] = "somewhere";
  },

  // Places that are broken into two lines, or overlap the name after them.
  brokenPlaces: () => [...document.querySelectorAll(".place")].filter(place => {
    const range = document.createRange();
    range.selectNodeContents(place);
    return range.getClientRects().length !== 1 || range.getBoundingClientRect().right > place.nextElementSibling.getBoundingClientRect().left;
  }).map(place => place.textContent),

  // By how many pixels the page is wider than the window.
  excess: () => document.documentElement.scrollWidth - innerWidth,

  // What the filter says, and how many rows are visible.
  count: () => document.querySelector("output").textContent,
  rows: () => [...document.querySelectorAll("tbody tr")].filter(row => row.getClientRects().length).length,

  // Counts the elements that are made from now on, but for the texts of counts and buttons.
  watch() {
    trial.made = 0;
    const isRow = ({ target }) => !["output", "button"].includes(target.localName);
    const count = changes => changes.filter(isRow).forEach(({ addedNodes }) => { trial.made += addedNodes.length; });
    new MutationObserver(count).observe(document.getElementById("reports"), { childList: true, subtree: true });
  },

  // The least contrast of a text and what is behind it, or white paper, by the formula of WCAG 2.
  contrast(onPaper) {
    const rgb = text => (text.match(/[\d.]+/g) || []).map(Number);
    const linear = value => value / 255 <= 0.03928 ? value / 255 / 12.92 : ((value / 255 + 0.055) / 1.055) ** 2.4;
    const light = ([r, g, b]) => 0.2126 * linear(r) + 0.7152 * linear(g) + 0.0722 * linear(b);
    const isOpaque = color => color.length === 3 || color[3] === 1;
    const behind = part => {
      if (!part || onPaper) return [255, 255, 255];
      const color = rgb(getComputedStyle(part).backgroundColor);
      return isOpaque(color) ? color : behind(part.parentElement);
    };
    const texts = ".tag, .soft, .name, td, th, p, summary, button, select, input, .why, .place, h2, h3, h4, li, dt, dd, caption, output, label";
    const isVisible = part => part.textContent.trim() && !part.classList.contains("hidden") && part.getClientRects().length;
    const visible = [...document.querySelectorAll(texts)].filter(isVisible);
    return Math.min(99, ...visible.map(part => {
      const [a, b] = [light(rgb(getComputedStyle(part).color)), light(behind(part))];
      return (Math.max(a, b) + 0.05) / (Math.min(a, b) + 0.05);
    }));
  },

  // Headings that are more than one level below the one before.
  steep() {
    const heads = [...document.querySelectorAll("h1, h2, h3, h4")].filter(head => head.getClientRects().length);
    const levels = heads.map(head => Number(head.localName[1]));
    return levels.filter((level, i) => level > (i ? levels[i - 1] : 0) + 1);
  },

  // Each command of the start page, with the length of what is said about it.
  commands() {
    const items = [...document.querySelectorAll("#about li")];
    return items.map(item => [item.querySelector("strong").textContent, item.querySelector("p").textContent.length]);
  },

  // Controls that are visible.
  controls() {
    const parts = [...document.querySelectorAll("button, textarea, select, input, #about")];
    return parts.filter(part => part.getClientRects().length).map(part => part.id || part.textContent);
  },

  // Notes whether the first start is open when the page is printed.
  watchPaper() {
    trial.opened = [];
    addEventListener("beforeprint", () => trial.opened.push(document.querySelector("details.start").open));
  },

  // What the focus is on.
  focus: () => (part => part.id || part.getAttribute("aria-label") || part.localName)(document.activeElement),

  // A text pasted beside the field for it.
  paste(text) {
    const data = new DataTransfer();
    data.setData("text/plain", text);
    document.body.dispatchEvent(new ClipboardEvent("paste", { clipboardData: data, bubbles: true, cancelable: true }));
  },

  press: title => [...document.querySelectorAll("section.report button")].find(button => button.textContent === title).click(),
  only(tag) {
    const select = document.querySelector(".filter select");
    select.value = tag;
    select.dispatchEvent(new Event("change"));
  },
  report: place => document.querySelectorAll("section.report")[place].innerText,
};

// The text on top: who wasn't notified, who was late, and why, and the search over all alerts.
const LISTED = 20;
// Of more than that, so that the timeline isn't far.
const FEW = 5;
const FOUND = 40;
const SECTIONS = { nobody: "Nobody was notified", late: "Late", some: "Some receivers never", expected: "As expected", nowhere: "Only to receivers without integrations" };

// Which firings of a run are in which section, and for an alert the worst of its sections.
class Sections {
  constructor(run) {
    this.lists = Object.fromEntries(SECTION_NAMES.map((name) => [name, run.entries.filter((entry) => entry.section === name)]));
    this.worst = new Map();
    for (const name of SECTION_NAMES) for (const { set } of this.lists[name]) if (!this.worst.has(set)) this.worst.set(set, name);
  }

  of(set) {
    return this.worst.get(set);
  }

  // All alerts, those of which nobody was notified first.
  inOrder() {
    return [...this.worst.keys()];
  }
}

class Summary {
  constructor(app) {
    this.app = app;
    this.root = el("section", { class: "card summary", id: "summary", "aria-labelledby": "summary-title" });
    this.search = new Search(app);
  }

  // Shows the run, anew.
  show(run) {
    const { sections } = this.app;
    replace(this.root, el("h2", { id: "summary-title" }, headline(run, sections)), run.unasked && el("p", { class: "flag" }, run.unasked),
      RUNS.length > 1 && new Differences(this.app).root, this.search.root, Object.entries(SECTIONS).map(([name, title]) => this.section(name, title, sections.lists[name])));
    this.search.draw();
  }

  section(name, title, entries) {
    if (!entries.length) return null;
    const list = el("ul", { class: "stories" });
    const more = el("button", { type: "button", class: "more", onclick: () => fill(list.children.length + 200) });
    const fill = (most) => {
      list.append(...entries.slice(list.children.length, most).map((entry) => this.story(entry)));
      more.hidden = list.children.length >= entries.length;
      more.textContent = `Show more of ${entries.length.toLocaleString("en")}`;
    };
    fill(entries.length > LISTED ? FEW : name === "nobody" ? LISTED : LISTED / 2);
    return el("details", { class: `section ${name}`, open: name === "nobody" || (name !== "expected" && entries.length <= LISTED) }, el("summary", {}, el("b", {}, title), " ", el("span", { class: "count" }, entries.length.toLocaleString("en"))), list, more);
  }

  story({ set, fired, end, told, section }) {
    const withReasons = told.map((each) => ({ ...each, reasons: section === "expected" ? [] : reasonsOf(each, fired, end) }));
    const alike = [...groupedBy(withReasons, (each) => JSON.stringify([each.first, each.known, each.isLate, each.reasons.map((span) => [span.start, span.end, span.kind])])).values()];
    return el("li", { class: "story" }, el("div", {}, alertButton(this.app, set, shortEl(set)), " ", el("span", { class: "quiet" }, `fired ${when(fired)} ${end ? `to ${when(end)}` : "and still fires"}`)),
      el("ul", { class: "receivers" }, alike.slice(0, 8).map((each) => el("li", {}, toldEl(each), spansEl(this.app, each[0].row, each[0].reasons, 8)))),
      alike.length > 8 && el("p", { class: "quiet" }, `and ${alike.length - 8} more receivers`));
  }
}

// Why a receiver wasn't notified before its first notification, or at all. Waiting for the first flush counts if there is nothing else.
function reasonsOf({ row, first, isLate }, fired, end) {
  if (first && !isLate) return [];
  const to = millisecondsOf(first || end || row.run.clock(row.run.last));
  const spans = row.spans.filter((span) => span.kind !== "told" && span.from < to && span.to > millisecondsOf(fired));
  const others = spans.filter((span) => span.verdict.verdict !== "Waiting");
  return others.length ? others : spans;
}

function headline(run, { lists }) {
  if (!run.entries.length) return "No alert fired";
  const told = { nobody: "notified nobody", late: "late", some: "not to all receivers", expected: "as expected", nowhere: "only to receivers without integrations" };
  const counts = Object.entries(told).filter(([name]) => lists[name].length).map(([name, words]) => `${lists[name].length.toLocaleString("en")} ${words}`);
  const fired = new Set(run.entries.map(({ set }) => set));
  return `${many(run.entries.length, "firing")} of ${many(fired.size, "alert")}: ${counts.join(", ")}`;
}

const shortEl = (set) => {
  const [name, rest] = shortName(set);
  return el("span", { class: "labels", title: labelsText(set, 4000) }, name && el("b", {}, el("bdi", {}, name)), rest && [" ", el("bdi", {}, rest)]);
};

const whoEl = (rows) => [...groupedBy(rows, (row) => row.receiver)].map(([receiver, each], i) => [i > 0 && "; ", el("b", {}, el("bdi", {}, seen(receiver))),
  el("span", { class: "quiet" }, ` ${each.map(integrationText).join(", ")}`)]);

// What a receiver got first of a firing.
function toldEl(told) {
  const [{ first, known, delay }] = told;
  const who = whoEl(told.map(({ row }) => row));
  if (first) return [who, ": ", momentEl(first), delay > 0 && `, ${lengthText(delay)} after its start`];
  return known ? [who, ": still notified since ", momentEl(known)] : [who, ": ", el("span", { class: "never" }, "never notified")];
}

// What a receiver got first of an alert.
function rowStatusEl(rows) {
  const { first } = rows[0];
  return first ? [whoEl(rows), ": first notified at ", momentEl(first.at)] : [whoEl(rows), ": ", el("span", { class: "never" }, "never notified")];
}

// Spans of a row with their reasons. Each goes to its time.
function spansEl(app, row, spans, most) {
  return spans.length > 0 && [el("ol", { class: "spans" }, spans.slice(0, most).map((span) => spanEl(app, row, span))),
    spans.length > most && el("p", { class: "quiet" }, `and ${spans.length - most} more`)];
}

function spanEl(app, row, span) {
  const time = app.time();
  const isHere = span.from <= time && time < span.to && app.chosen === row.set;
  return el("li", { class: `turn ${span.kind}`, "aria-current": isHere ? "true" : null },
    el("button", { type: "button", class: "turn-at", title: "Go there", onclick: () => app.lookAt(row.set, span.from) },
      svg("svg", { width: 12, height: 12, "aria-hidden": "true" }, svg("rect", { class: `span ${span.kind}`, width: 12, height: 12, rx: 2 })),
      " ", whenUtc(span.start), "\u2013", whenUtc(span.end), zone.isLocal && el("span", { class: "own" }, `(${localOf(span.start)}\u2013${localOf(span.end)})`)),
    el("span", {}, partsEl(app, row, span.verdict, span), alsoEl(app, row, span)));
}

// The reasons behind the first one.
const alsoEl = (app, row, span) => [span.also.map((each, i) => el("div", { class: "also" }, alsoWord(i), partsEl(app, row, each.verdict, { from: span.from, muting: each.muting }))),
  span.more > 0 && el("div", { class: "also" }, `and ${many(span.more, "more reason")}`)];

const alsoWord = (i) => (i ? "without these: " : "without that: ");

// A verdict in words, with what can be looked up as buttons.
function partsEl(app, row, verdict, span) {
  return el("bdi", {}, verdictParts(verdict, row.run, span.from, row.set, span.muting).map((part) => {
    if (typeof part === "string") return part;
    const act = part.rule !== undefined ? () => app.config.reveal("rule", part.rule, span.from) : part.interval !== undefined ? () => app.config.reveal("interval", part.interval, span.from)
      : part.set !== undefined ? () => app.choose(part.set) : part.silence ? () => app.showSilence(part.silence) : null;
    return act ? linkEl(act, part.text) : part.text;
  }));
}

// A search over all alerts.
class Search {
  constructor(app) {
    this.app = app;
    this.input = el("input", { type: "search", id: "search", placeholder: "Find an alert: a name, or label=value", "aria-label": "Find an alert", autocomplete: "off",
      oninput: () => this.draw(), onkeydown: (event) => this.key(event) });
    this.found = el("ul", { class: "found", "aria-label": "Found alerts" });
    this.count = el("p", { class: "quiet", "aria-live": "polite" });
    this.root = el("div", { class: "search" }, this.input, this.count, this.found);
  }

  draw() {
    const words = this.input.value.trim().toLowerCase().split(/\s+/).filter(Boolean);
    this.found.hidden = this.count.hidden = !words.length;
    if (!words.length) return;
    const { sections } = this.app;
    const sets = sections.inOrder().filter((set) => words.every((word) => haystack(set).includes(word)));
    this.count.textContent = `${many(sets.length, "alert")}${sets.length > FOUND ? `; the first ${FOUND} are listed` : ""}`;
    replace(this.found, sets.slice(0, FOUND).map((set) => el("li", {}, alertButton(this.app, set),
      el("span", { class: `tag ${sections.of(set)}` }, SECTIONS[sections.of(set)].toLowerCase()))));
  }

  // Enter chooses the first that is found.
  key(event) {
    if (event.key !== "Enter") return;
    const first = this.found.querySelector("button");
    if (first) first.click();
  }
}

const haystacks = new Map();
function haystack(set) {
  if (!haystacks.has(set)) haystacks.set(set, labelsOf(set).map(([key, value]) => `${seen(key)}=${seen(value)} ${seen(key)}="${seen(value)}"`).join(" ").toLowerCase());
  return haystacks.get(set);
}

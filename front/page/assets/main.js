// The page: one run is shown, at a cursor, with one alert chosen.
class App {
  constructor() {
    this.run = RUNS[0];
    this.sections = new Sections(this.run);
    this.chosen = firstChoice(this);
    this.cursor = firstCursor(this);
    this.live = el("div", { class: "unseen", "aria-live": "polite", role: "status" });
    this.header = el("header", {});
    this.summary = new Summary(this);
    this.timeline = new Timeline(this);
    this.panel = new Panel(this);
    this.why = new WhyView(this);
    this.config = new ConfigView(this);
    this.controls = new Controls(this);
  }

  time() {
    return this.run.timeAt(this.cursor);
  }

  start() {
    document.body.append(this.header, this.summary.root, this.controls.root, el("main", {}, this.timeline.root,
      el("div", { class: "columns" }, this.panel.root, el("div", { class: "side" }, this.why.root)), this.config.root), keysEl(), this.live);
    document.addEventListener("keydown", (event) => this.key(event));
    window.addEventListener("hashchange", () => this.readPlace());
    this.timeline.show(this.run);
    this.readPlace();
    this.showRun();
  }

  // Draws what belongs to the run, and then all.
  showRun() {
    this.sections = new Sections(this.run);
    drawHeader(this);
    this.summary.show(this.run);
    this.draw();
  }

  draw() {
    this.controls.draw();
    this.timeline.draw();
    this.panel.draw();
    this.why.draw();
    this.config.draw();
  }

  // Moves the cursor to an event, or before the first.
  go(cursor, isQuiet = false) {
    const next = Math.min(this.run.last, Math.max(this.run.first - 1, cursor));
    if (next === this.cursor) return;
    this.cursor = next;
    this.timeline.markAt = isQuiet ? this.timeline.markAt : -1;
    this.timeline.hide();
    this.timeline.reveal(this.time());
    this.draw();
    this.writePlace();
    if (!isQuiet) this.announce(placeText(this));
  }

  // Chooses an alert, and goes to the last event up to a time.
  lookAt(set, time) {
    this.chosen = set;
    const cursor = cursorAt(this.run, time);
    if (cursor === this.cursor) this.choose(set);
    else this.go(cursor);
  }

  // Shows a run at one of its events.
  show(run, cursor) {
    if (run !== this.run) {
      this.run = run;
      this.cursor = Math.min(run.last, Math.max(run.first - 1, cursor));
      this.timeline.show(run);
      this.showRun();
      this.writePlace();
      this.announce(`Shown ${nameOf(run)}, ${placeText(this)}`);
    }
    this.go(cursor);
  }

  // Shows another run, at the same event of the script.
  turnTo(run) {
    const event = this.run.tried && this.cursor >= this.run.tried ? this.cursor - 1 : this.cursor;
    if (RUNS.indexOf(run) > 0) chosenOther = RUNS.indexOf(run);
    this.show(run, run.tried && event >= run.tried ? event + 1 : event);
  }

  choose(set) {
    this.chosen = set;
    this.why.without = null;
    this.draw();
    this.writePlace();
    this.announce(`Chosen: ${labelsText(set)}`);
  }

  // Goes to where a silence is in the list of silences.
  showSilence(id) {
    const entry = this.run.silenceOf.get(id);
    if (entry) this.go(Math.max(this.run.first, entry.cursors[0]));
    document.getElementById("silences").scrollIntoView({ block: "center" });
  }

  announce(text) {
    this.live.textContent = text;
  }

  key(event) {
    if (event.ctrlKey || event.metaKey || event.altKey || event.target.closest("input, select, textarea")) return;
    const acts = { ArrowLeft: () => this.go(this.cursor - 1), ArrowRight: () => this.go(this.cursor + 1), Home: () => this.go(this.run.first - 1), End: () => this.go(this.run.last),
      "/": () => this.summary.search.input.focus() };
    if (!acts[event.key] || event.shiftKey) return;
    event.preventDefault();
    acts[event.key]();
  }

  // Shows the reader's own time beside UTC, or no more.
  showLocal(isLocal) {
    if (isLocal === zone.isLocal) return;
    zone.isLocal = isLocal;
    this.timeline.show(this.run);
    this.config.shown = null;
    this.showRun();
    this.writePlace();
  }

  // The address has the event, the alert, the run and the view, so that a place can be passed on.
  readPlace() {
    const place = readAddress(window.location.hash);
    this.showLocal(place.isLocal);
    if (RUNS[place.run]) this.turnTo(RUNS[place.run]);
    if (place.alert !== null) this.chosen = place.alert;
    if (place.event !== null) this.go(place.event);
    if (place.view) this.timeline.look(...place.view);
    this.draw();
  }

  writePlace() {
    try {
      window.history.replaceState(null, "", addressOf(this));
    } catch {
      // Some browsers refuse it for a file: the place is then not in the address.
    }
  }
}

// The alert that is chosen at first: one that --explain names, or one that nobody was notified of.
function firstChoice({ run, sections }) {
  if (DATA.named.length) return DATA.named[0];
  const [first] = sections.inOrder();
  return first !== undefined ? first : run.rows.length ? run.rows[0].set : null;
}

// The event at the cursor at first: the last one up to the chosen alert's longest verdict, so that the lists show it.
function firstCursor({ run, chosen }) {
  const spans = (run.rowsOf.get(chosen) || []).flatMap((row) => row.spans);
  if (!spans.length) return Math.min(run.last, run.first);
  const longest = spans.reduce((a, b) => (b.to - b.from > a.to - a.from ? b : a));
  const cursor = cursorAt(run, longest.from);
  const next = cursor + 1;
  return next <= run.last && run.timeAt(next) < longest.to ? next : cursor;
}

function placeText(app) {
  const { run, cursor } = app;
  if (cursor < run.first) return "Before the first event";
  const event = run.event(cursor);
  const notes = (run.notesAt.get(cursor) || []).length;
  return `Event ${cursor} of ${DATA.total + (run.tried ? 1 : 0)}, ${when(instant(event.at))}: ${eventText(event)}; ${many(notes, "notification")}`;
}

// The buttons, the slider, and where the cursor is.
class Controls {
  constructor(app) {
    this.app = app;
    const button = (path, name, act) => el("button", { type: "button", "aria-label": name, title: name, onclick: act },
      svg("svg", { width: 16, height: 16, viewBox: "0 0 16 16", "aria-hidden": "true" }, svg("path", { d: path })));
    this.first = button("M2 2h2.5v12H2zM14 2v12L5 8z", "Before the first event (Home)", () => app.go(app.run.first - 1));
    this.back = button("M13 2v12L3 8z", "Back one event (left arrow)", () => app.go(app.cursor - 1));
    this.step = button("M3 2v12l10-6z", "On one event (right arrow)", () => app.go(app.cursor + 1));
    this.last = button("M11.5 2H14v12h-2.5zM2 2v12l9-6z", "The last event (End)", () => app.go(app.run.last));
    this.slider = el("input", { type: "range", "aria-label": "Event", oninput: () => app.go(Number(this.slider.value)) });
    this.place = el("div", { class: "place" });
    this.local = el("button", { type: "button", id: "local", title: `Also in ${zoneName()}`, onclick: () => app.showLocal(!zone.isLocal) }, "Local time");
    this.root = el("div", { class: "controls", role: "toolbar", "aria-label": "Cursor" },
      el("span", { class: "steps" }, this.first, this.back, this.step, this.last), this.slider, this.place, this.local);
  }

  draw() {
    const { run, cursor } = this.app;
    this.first.disabled = this.back.disabled = cursor < run.first;
    this.step.disabled = this.last.disabled = cursor >= run.last;
    filled(this.slider, { min: run.first - 1, max: run.last, "aria-valuetext": placeText(this.app) }, []);
    this.slider.value = String(cursor);
    this.local.setAttribute("aria-pressed", String(zone.isLocal));
    const moment = cursor < run.first ? run.start : run.event(cursor).reason ? instant(run.event(cursor).at) : run.clock(cursor);
    replace(this.place, el("b", { id: "clock" }, cursor < run.first && run.first === 1 ? "Start" : `${weekdayOf(moment)} ${whole(moment)}`), " ",
      el("span", { class: "quiet", id: "place" }, cursor < run.first ? "before the first event" : `event ${cursor.toLocaleString("en")} of ${(DATA.total + (run.tried ? 1 : 0)).toLocaleString("en")}`));
  }
}

// The header says what is shown: the script, the configuration of the run, and its notifications.
// The name of the reader's zone, as the browser knows it.
function zoneName() {
  const name = new Intl.DateTimeFormat().resolvedOptions().timeZone;
  return name ? `the time of ${name}` : "your own time";
}

function drawHeader(app) {
  const { run } = app;
  const span = run.events.length ? `${weekdayOf(run.events[0].now)} ${whole(run.events[0].now)} to ${when(run.clock(run.last))} UTC` : "no events";
  const name = (text) => el("bdi", { class: "mono" }, seen(text));
  replace(app.header, el("h1", {}, DATA.heading ? seen(DATA.heading) : "Incident"),
    el("p", { class: "sub" }, name(DATA.script), run.kind === "tried" ? " with the tried event, under " : " under ", name(run.name),
      ` · ${many(run.events.length, "event")} · ${span} · ${many(run.notes.length, "notification")}`),
    noticesOf(run).map((notice) => el("p", { class: "notice" }, notice)), RUNS.length > 1 && switchEl(app));
}

// What the page leaves out, and what was found of the alerts that --explain names.
function noticesOf(run) {
  const notices = [...DATA.notices.map(seen)];
  const [first, last] = DATA.wanted;
  if (first > 1 || last < DATA.total) notices.push(`This page is a part: events ${first} to ${last} of ${DATA.total}. What came before has happened, and isn't drawn.`);
  if (run.last < last && !run.tried) notices.push(`Left out: events ${run.last + 1} to ${last}. A page has at most ${run.events.length} events; --from ${run.last + 1} makes the next one.`);
  if (run.stops.length) notices.push(`Left out: the lists between ${run.stops.length} of the events. A page of a shorter part, by --from and --to, has them at each.`);
  return notices;
}

function switchEl(app) {
  return el("fieldset", { class: "switch" }, el("legend", {}, "Shown"), RUNS.map((run) => el("label", {},
    el("input", { type: "radio", name: "run", checked: run === app.run, onchange: () => app.turnTo(run) }),
    el("span", {}, el("bdi", {}, run.kind === "tried" ? "with the tried event" : seen(run.name)), el("span", { class: "count" }, run.notes.length.toLocaleString("en"))))));
}

const KEYS = [["← →", "back and on one event"], ["Home End", "before the first event, the last"], ["/", "find an alert"], ["↑ ↓", "in the timeline: the lane above, below"],
  ["p n", "in the timeline: the lane's previous and next mark"], ["Enter", "in the timeline: choose the lane's alert, or fold its receiver"],
  ["+ − 0", "in the timeline: zoom in, out, whole"], ["Shift ← →", "in the timeline: earlier, later"]];

function keysEl() {
  return el("footer", { id: "keys" }, el("h2", {}, "Keys"), el("dl", {}, KEYS.map(([key, what]) => el("div", {}, el("dt", {}, key), el("dd", {}, what)))),
    el("p", { class: "quiet" }, "All times are in UTC, and with “Local time” your own are in brackets. All that is shown was answered by a session of amreplay."));
}

new App().start();

// The panel: what the last event was and printed, and the lists at the cursor, with what changed.
const ROWS = 40;
const BADGES = { new: "new", changed: "changed", gone: "gone" };

class Panel {
  constructor(app) {
    this.app = app;
    this.event = el("section", { class: "card event", "aria-labelledby": "event-title" });
    this.lists = LISTS.map((list) => new ListView(app, list));
    this.root = el("div", { class: "panel" }, this.event, this.lists.map((each) => each.root));
  }

  draw() {
    this.drawEvent();
    this.lists.forEach((each) => each.draw());
  }

  drawEvent() {
    const { run, cursor } = this.app;
    const title = el("h2", { id: "event-title" }, cursor < run.first ? "Before the first event" : `Event ${cursor.toLocaleString("en")}`);
    if (cursor < run.first) {
      replace(this.event, title, el("p", {}, run.first === 1 ? "Nothing has happened yet." : `The state before event ${run.first}, which is the page's first.`));
      return;
    }
    const event = run.event(cursor);
    const notes = run.notesAt.get(cursor) || [];
    replace(this.event, title, el("p", { class: "what" }, momentEl(instant(event.at)), " ", eventEl(event)),
      run.tried === cursor && el("p", { class: "flag" }, "This event never happened: it is the one that is tried."),
      event.reason > 0 && el("p", { class: "flag" }, el("b", {}, "Refused"), `: ${reasonWords(event.reason)}. It changed nothing, and the clock stays at ${when(event.now)}.`),
      event.skipped.length > 0 && el("p", { class: "flag" }, `Skipped as invalid: ${event.skipped.map((place) => `alert ${place}`).join(", ")} of the post.`),
      event.act === "alerts" && postedEl(this.app, event),
      el("h3", {}, notes.length ? `${many(notes.length, "notification")} up to it` : "No notification up to it"),
      notes.length > 0 && el("ul", { class: "notes" }, notes.slice(0, ROWS).map((note) => this.noteEl(note)),
        notes.length > ROWS && el("li", { class: "quiet" }, `and ${notes.length - ROWS} more; see the lines below`)),
      event.moves > 0 && el("p", { class: "quiet" }, `${many(event.moves, "move")} came before it: flushes, and removals of alerts and groups.`),
      linesEl("What the session printed", () => eventLines(run, cursor)));
  }

  noteEl(note) {
    const { run } = this.app;
    const compared = comparedText(run, note);
    return el("li", { class: "note" }, el("div", {}, momentEl(note.at), " ", el("b", {}, el("bdi", {}, whom(note))),
      " ", routeEl(this.app, note.route, note.time), el("span", { class: "quiet" }, ", group "), el("bdi", { class: "mono" }, groupText(note.group, 200)),
      compared && el("span", { class: "tag" }, compared.slice(2))),
    notifiedEl(this.app, "firing", note.firing), notifiedEl(this.app, "resolved", note.resolved));
  }
}

function eventEl(event) {
  if (event.act === "silence") {
    const { silence } = event;
    return [silence.id ? "A silence was changed: " : "A silence was posted: ", matchersEl(silence.matchers), " from ", momentEl(instant(silence.startsAt)),
      " to ", momentEl(instant(silence.endsAt)), silence.createdBy && [", by ", el("b", {}, quoted(silence.createdBy))],
      silence.comment && [": \u201c", quoted(silence.comment), "\u201d"]];
  }
  if (event.act === "alerts") return `${many(event.alerts.length, "alert")} ${event.alerts.length === 1 ? "was" : "were"} posted.`;
  if (event.act === "label") return ["Label: ", el("b", {}, quoted(event.label))];
  if (event.act === "expire") return ["The silence ", el("code", {}, event.id), " was expired."];
  return event.act === "reload" ? "The configuration was reloaded." : "Time passes.";
}

function postedEl(app, event) {
  return el("ul", { class: "posted" }, event.alerts.slice(0, ROWS).map((alert) => el("li", {}, alertButton(app, alert.set),
    alert.startsAt && [el("span", { class: "quiet" }, " starts "), momentEl(instant(alert.startsAt))],
    alert.endsAt && [el("span", { class: "quiet" }, " ends "), momentEl(instant(alert.endsAt))], annotationsEl(alert.annotations))),
  event.alerts.length > ROWS && el("li", { class: "quiet" }, `and ${event.alerts.length - ROWS} more`));
}

function notifiedEl(app, name, alerts) {
  if (!alerts.length) return null;
  return el("div", { class: `notified ${name}` }, el("span", { class: `state ${name}` }, name), " ",
    alerts.slice(0, 12).map((alert) => [alertButton(app, alert.set), " "]), alerts.length > 12 && `and ${alerts.length - 12} more`);
}

function annotationsEl(set) {
  const pairs = labelsOf(set);
  return pairs.length > 0 && el("div", { class: "annotations" }, pairs.map(([key, value]) => el("div", {}, el("span", { class: "quiet" }, quoted(key), ": "), quoted(value))));
}

// An alert's labels as a button that chooses it.
function alertButton(app, set, content) {
  return el("button", { type: "button", class: "alert", "aria-pressed": String(app.chosen === set), title: `Why? ${labelsText(set)}`,
    onclick: () => app.choose(set) }, content || labelsEl(set));
}

// The session's own lines, made when they are opened.
function linesEl(name, make) {
  const pre = el("pre", { tabindex: "0", "aria-label": name });
  const details = el("details", { class: "lines" }, el("summary", {}, name), pre);
  details.addEventListener("toggle", () => {
    if (details.open && !pre.firstChild) pre.append(...make().map((line) => el("div", {}, line)));
  });
  return details;
}

const was = (before, key) => before && before[key] !== undefined && el("span", { class: "was" }, " was ", momentEl(before[key]));
const differs = (before, value, key) => before && before[key] !== value[key];

const LISTS = [
  { name: "groups", title: "Groups", one: "group", head: ["Group", "Members", "Next flush"],
    cells: (app, { entry, value, before }) => [
      [el("bdi", { class: "mono" }, groupText(entry.set, 200)), el("div", { class: "quiet" }, routeEl(app, entry.route, app.time()))],
      membersEl(app, value, before),
      [momentEl(value.nextFlush), differs(before, value, "nextFlush") && was(before, "nextFlush"),
        el("div", { class: "quiet" }, value.flushed ? "has flushed" : "not flushed yet", value.emptySince && [", empty since ", momentEl(value.emptySince)])]],
    words: ({ entry, value }) => `${groupText(entry.set)} ${value.members.map((set) => labelsText(set)).join(" ")}` },
  { name: "alerts", title: "Alerts", one: "alert", head: ["Alert", "From", "To"],
    cells: (app, { entry, value, before }) => [
      [alertButton(app, entry.set), annotationsEl(value.annotations)],
      [momentEl(value.startsAt), differs(before, value, "startsAt") && was(before, "startsAt")],
      [momentEl(value.endsAt), differs(before, value, "endsAt") && was(before, "endsAt"),
        el("div", { class: "quiet" }, value.timeout ? "end set by default, " : "", "posted ", momentEl(value.updatedAt))]],
    words: ({ entry }) => labelsText(entry.set, 4000) },
  { name: "silences", title: "Silences", one: "silence", head: ["Matchers", "From", "To"],
    cells: (app, { entry, value, before }) => [
      [matchersEl(value.matchers), makerText(app.run, entry.id) && el("div", {}, el("bdi", {}, makerText(app.run, entry.id))), el("div", { class: "quiet mono" }, entry.id)],
      [momentEl(value.startsAt), differs(before, value, "startsAt") && was(before, "startsAt")],
      [momentEl(value.endsAt), differs(before, value, "endsAt") && was(before, "endsAt")]],
    words: ({ entry, value }, run) => `${entry.id} ${matchersText(value.matchers)} ${makerText(run, entry.id)}` },
  { name: "log", title: "Notification log", one: "entry", more: "entries", head: ["Told", "Alerts", "At"],
    cells: (app, { entry, value, before }) => [
      [el("bdi", {}, whom(entry)), el("div", { class: "quiet mono" }, groupText(entry.group, 200)), pathEl(entry.path)],
      [setsEl(app, "firing", value.firing), setsEl(app, "resolved", value.resolved)],
      [momentEl(value.at), differs(before, value, "at") && was(before, "at")]],
    words: ({ entry, value }) => `${whom(entry)} ${groupText(entry.group)} ${[...value.firing, ...value.resolved].map((set) => labelsText(set)).join(" ")}` },
];

function pathEl(path) {
  const own = path.filter((matchers) => matchers.length);
  return own.length > 0 && el("div", { class: "quiet" }, "by ", own.map((matchers, i) => [i > 0 && " then ", matchersEl(matchers)]));
}

function setsEl(app, name, sets) {
  return notifiedEl(app, name, sets.map((set) => ({ set })));
}

function membersEl(app, value, before) {
  const old = new Set(before ? before.members : value.members);
  const kept = new Set(value.members);
  const left = [...old].filter((set) => !kept.has(set));
  return [value.members.slice(0, 12).map((set) => el("div", { class: before && !old.has(set) ? "joined" : null }, alertButton(app, set),
    before && !old.has(set) && el("span", { class: "tag" }, "joined"))),
  value.members.length > 12 && el("div", { class: "quiet" }, `and ${value.members.length - 12} more`),
  left.slice(0, 12).map((set) => el("div", { class: "left" }, alertButton(app, set), el("span", { class: "tag" }, "left"))),
  !value.members.length && !left.length && el("span", { class: "quiet" }, "none")];
}

// One of the session's lists, with a filter where it is long.
class ListView {
  constructor(app, list) {
    this.app = app;
    this.list = list;
    this.shown = ROWS;
    this.filter = el("input", { type: "search", placeholder: "Filter", "aria-label": `Filter ${list.title.toLowerCase()}` });
    this.filter.addEventListener("input", () => this.drawRows());
    this.title = el("h2", { id: `${list.name}-title` });
    this.body = el("div", { class: "rows" });
    this.root = el("section", { class: "card list", id: list.name, "aria-labelledby": `${list.name}-title` },
      el("div", { class: "bar" }, this.title, this.filter), this.body);
  }

  draw() {
    const { run, cursor } = this.app;
    this.rows = run.listed(this.list.name, cursor);
    const there = this.rows.filter((row) => row.mark !== "gone");
    const counts = ["new", "changed", "gone"].map((name) => [this.rows.filter((row) => row.mark === name).length, name]).filter(([count]) => count);
    replace(this.title, this.list.title, " ", el("span", { class: "count" }, there.length.toLocaleString("en")),
      counts.map(([count, name]) => el("span", { class: `badge ${name}` }, `${count.toLocaleString("en")} ${name}`)));
    this.filter.hidden = this.rows.length < 8;
    this.drawRows();
  }

  drawRows() {
    const wanted = this.filter.hidden ? "" : this.filter.value.trim().toLowerCase();
    let rows = wanted ? this.rows.filter((row) => this.list.words(row, this.app.run).toLowerCase().includes(wanted)) : this.rows;
    if (rows.length > this.shown) rows = [...rows.filter((row) => row.mark), ...rows.filter((row) => !row.mark)];
    const { run, cursor } = this.app;
    const lines = () => this.rows.filter((row) => row.mark !== "gone").map(({ entry, value }) => ENTRY_LINES[this.list.name](entry, value));
    replace(this.body,
      run.stop(cursor) !== cursor && el("p", { class: "flag" }, `As at event ${run.stop(cursor)}: this page doesn't have the lists of event ${cursor}.`),
      rows.length ? this.table(rows.slice(0, this.shown)) : el("p", { class: "quiet" }, this.rows.length ? "None fits the filter." : "None."),
      rows.length > this.shown && el("button", { type: "button", class: "more", onclick: () => {
        this.shown += 240;
        this.drawRows();
      } }, `Show more of ${rows.length.toLocaleString("en")}`),
      linesEl(`The session's ${this.list.name}`, lines));
  }

  table(rows) {
    return el("table", {}, el("thead", {}, el("tr", {}, this.list.head.map((name) => el("th", { scope: "col" }, name)))),
      el("tbody", {}, rows.map((row) => el("tr", { class: row.mark || null }, this.list.cells(this.app, row).map((cell, i) => el("td", {},
        i === 0 && row.mark && el("span", { class: `badge ${row.mark}` }, BADGES[row.mark]), cell))))));
  }
}

// What the page holds, as the session answered it. Nothing here knows a rule.
const DATA = JSON.parse(document.getElementById("data").textContent);

const textOf = (number) => (number ? DATA.texts[number - 1] : null);

// The pairs of a label set, by name. A list, since a label may have any name.
const labelSets = [];
function labelsOf(number) {
  if (!labelSets[number]) {
    const flat = DATA.sets[number];
    const pairs = [];
    for (let i = 0; i < flat.length; i += 2) pairs.push([textOf(flat[i]), textOf(flat[i + 1])]);
    labelSets[number] = pairs;
  }
  return labelSets[number];
}

const inOrder = (sets) => sets.sort((a, b) => DATA.places[a] - DATA.places[b]);

// Milliseconds since 1970, for drawing alone. What is shown is the text.
const millisecondsOf = (moment) => Date.parse(moment.replace(/(\.\d{3})\d+/, "$1"));

function matcherOf([name, value, isEqual, isRegex]) {
  return { isEqual: !!isEqual, isRegex: !!isRegex, name: textOf(name), value: textOf(value) };
}

function noteOf([cursor, at, receiver, integration, place, route, group, firing, resolved], index) {
  const notified = (flat, count) => {
    const alerts = [];
    for (let i = 0; i < flat.length; i += count) alerts.push(flat.slice(i, i + count));
    return alerts;
  };
  return {
    index, cursor, at: textOf(at), time: millisecondsOf(textOf(at)), receiver: textOf(receiver),
    integration: textOf(integration), place, route, group,
    firing: notified(firing, 3).map(([set, start, notes]) => ({ set, startsAt: textOf(start), annotations: notes })),
    resolved: notified(resolved, 4).map(([set, start, end, notes]) => (
      { set, startsAt: textOf(start), endsAt: textOf(end), annotations: notes })),
  };
}

const ACTS = ["alerts", "silence", "expire", "reload", "tick", "label"];

function actOf([at, act, held]) {
  const event = { at: textOf(at), time: millisecondsOf(textOf(at)), act: ACTS[act] };
  if (event.act === "alerts") {
    event.alerts = held.map(([set, start, end, notes]) => (
      { set, startsAt: textOf(start), endsAt: textOf(end), annotations: notes }));
  } else if (event.act === "silence") {
    const [newId, id, start, end, matchers, createdBy, comment] = held;
    event.silence = { newId: textOf(newId), id: textOf(id), startsAt: textOf(start), endsAt: textOf(end),
      matchers: matchers.map(matcherOf), createdBy: textOf(createdBy), comment: textOf(comment) };
  } else if (event.act === "expire") event.id = textOf(held);
  else if (event.act === "label") event.label = textOf(held);
  return event;
}

// The entries of a list: what is known of each, and its values, each from its cursor on.
function entriesOf(raw, keyOf, valueOf) {
  return raw.map((each) => {
    const flat = each[each.length - 1];
    const entry = { ...keyOf(each), cursors: [], values: [] };
    let before = null;
    for (let i = 0; i < flat.length; i += 2) {
      before = flat[i + 1] === 0 ? null : valueOf(flat[i + 1], before);
      entry.cursors.push(flat[i]);
      entry.values.push(before);
    }
    return entry;
  });
}

function groupValue(raw, before) {
  if (typeof raw === "number") return { ...before, nextFlush: textOf(raw) };
  const [next, empty, flushed, joined, left] = raw;
  let members = before ? before.members : [];
  if (joined.length || left.length) {
    const kept = new Set(members);
    left.forEach((set) => kept.delete(set));
    joined.forEach((set) => kept.add(set));
    members = inOrder([...kept]);
  }
  return { nextFlush: textOf(next), emptySince: textOf(empty), flushed: !!flushed, members };
}

const READERS = {
  alerts: [([set]) => ({ set }), ([start, end, updated, timeout, notes]) => (
    { startsAt: textOf(start), endsAt: textOf(end), updatedAt: textOf(updated), timeout: !!timeout, annotations: notes })],
  silences: [([id]) => ({ id: textOf(id) }), ([start, end, matchers]) => (
    { startsAt: textOf(start), endsAt: textOf(end), matchers: matchers.map(matcherOf) })],
  groups: [([route, set]) => ({ route, set }), groupValue],
  log: [([receiver, integration, place, group, path]) => ({ receiver: textOf(receiver), integration: textOf(integration),
    place, group, path: path.map((matchers) => matchers.map(matcherOf)) }),
  ([at, firing, resolved]) => ({ at: textOf(at), firing, resolved })],
};

// The place of the last number that isn't greater, in a sorted list; -1 if there is none.
function lastUpTo(numbers, number) {
  let low = 0;
  let high = numbers.length;
  while (low < high) {
    const middle = (low + high) >> 1;
    if (numbers[middle] <= number) low = middle + 1;
    else high = middle;
  }
  return low - 1;
}

function valueAt(entry, cursor) {
  const place = lastUpTo(entry.cursors, cursor);
  return place < 0 ? null : entry.values[place];
}

function verdictOf([name, receiver, route, integration, place, ...rest]) {
  const verdict = { verdict: textOf(name), receiver: textOf(receiver), route, integration: textOf(integration), place, rest: [] };
  for (let i = 0; i < rest.length; i += 2) {
    const value = rest[i + 1];
    const read = !Array.isArray(value) ? value : value.length === 1 ? textOf(value[0]) : labelsOf(value[1]);
    verdict.rest.push([textOf(rest[i]), read]);
    if (Array.isArray(value) && value.length === 2) [, verdict.sourceSet] = value;
  }
  verdict.get = (key) => (verdict.rest.find(([name_]) => name_ === key) || [])[1];
  return verdict;
}

// One run of the script: under the configuration, under the other one, or with the tried event in its place.
class Run {
  constructor(raw, kind) {
    this.name = raw.name;
    this.kind = kind;
    this.first = raw.first;
    this.last = raw.first + raw.events.length - 1;
    this.end = raw.events.length ? millisecondsOf(textOf(raw.events[raw.events.length - 1][3])) : 0;
    this.start = textOf(raw.start);
    this.stops = raw.stops;
    this.tried = raw.tried;
    this.events = raw.events.map((each) => (
      { ...actOf(each), now: textOf(each[3]), moves: each[4], reason: each[5], skipped: each[6] }));
    this.clocks = this.events.map((event) => millisecondsOf(event.now));
    this.notes = raw.notes.map(noteOf);
    this.notesAt = new Map();
    for (const note of this.notes) {
      if (!this.notesAt.has(note.cursor)) this.notesAt.set(note.cursor, []);
      this.notesAt.get(note.cursor).push(note);
    }
    this.lists = {};
    for (const [name, [keyOf, valueOf]] of Object.entries(READERS)) this.lists[name] = entriesOf(raw[name], keyOf, valueOf);
    this.flushes = new Map(raw.flushes.map(([route, set, flat]) => [`${route} ${set}`, flat]));
    this.verdicts = raw.verdicts.map(verdictOf);
    this.answers = raw.answers;
    this.why = new Map(raw.why.map(([set, flat]) => (
      [set, { cursors: flat.filter((_, i) => i % 2 === 0), answers: flat.filter((_, i) => i % 2 === 1) }])));
    this.alertOf = new Map(this.lists.alerts.map((entry) => [entry.set, entry]));
    this.silenceOf = new Map(this.lists.silences.map((entry) => [entry.id, entry]));
    this.makers = makersOf(this.events);
    this.configs = raw.configs.map(([time, number]) => ({ at: textOf(time), time: time ? millisecondsOf(textOf(time)) : -Infinity, config: DATA.configs[number] }));
    this.receivers = raw.receivers.map(([name, count]) => ({ name: textOf(name), count }));
    this.unasked = textOf(raw.unasked);
    this.firstAlone = new Set(raw.firstAlone);
    this.times = raw.times.map(([name, mutes, activates, flat]) => ({ name: textOf(name), mutes: !!mutes, activates: !!activates, spans: pairsOf(flat.map(textOf)) }));
    this.rows = raw.rows.map((each) => new Row(this, each));
    this.rowsOf = groupedBy(this.rows, (row) => row.set);
    giveNotes(this);
    this.entries = raw.entries.map((each) => entryOf(this, each));
  }

  event(cursor) {
    return this.events[cursor - this.first];
  }

  clock(cursor) {
    return cursor < this.first ? this.start : this.event(cursor).now;
  }

  // The cursor at which the lists were asked that are shown at a cursor.
  stop(cursor) {
    return this.stops.length ? this.stops[lastUpTo(this.stops, cursor)] : cursor;
  }

  // The entries of a list at a cursor, each with how it differs from the one before.
  listed(name, cursor) {
    const at = this.stop(cursor);
    const rows = [];
    for (const entry of this.lists[name]) {
      const place = lastUpTo(entry.cursors, at);
      if (place < 0) continue;
      const value = entry.values[place];
      const before = place > 0 ? entry.values[place - 1] : null;
      const isNow = at === cursor && at >= this.first && entry.cursors[place] === at;
      if (value) rows.push({ entry, value, before: isNow ? before : null, mark: isNow ? (before ? "changed" : "new") : "" });
      else if (isNow && before) rows.push({ entry, value: before, before, mark: "gone" });
    }
    return rows;
  }

  // What the session explained of an alert at a cursor, or null if it wasn't asked.
  explained(set, cursor) {
    const why = this.why.get(set);
    const place = why ? lastUpTo(why.cursors, cursor) : -1;
    return place < 0 ? null : this.answers[why.answers[place]].map((number) => this.verdicts[number]);
  }

  // The moment at which an event is drawn: a refused one leaves the clock as it is, and stands at its own moment.
  timeAt(cursor) {
    if (cursor < this.first) return millisecondsOf(this.start);
    const event = this.event(cursor);
    return event.reason && !Number.isNaN(event.time) ? event.time : millisecondsOf(event.now);
  }

  // The configuration in force at a time.
  configAt(time) {
    return this.configs.filter((each) => each.time <= time).pop() || this.configs[0];
  }
}

// How a verdict is drawn, and the word for it.
const KINDS = { told: "notified", waits: "waits for a flush", inhibited: "inhibited", silenced: "silenced", outside: "outside its times", nowhere: "no integration" };
const KIND_OF = { Told: "told", Waiting: "waits", Due: "waits", Inhibited: "inhibited", Silenced: "silenced", OutsideActive: "outside", TimeMuted: "outside", Nowhere: "nowhere" };
const isMuted = (kind) => kind === "inhibited" || kind === "silenced" || kind === "outside";

// An alert at an integration of a receiver: its verdicts over time, with gaps while it doesn't fire, and when it was sent.
class Row {
  constructor(run, [set, receiver, integration, place, spans]) {
    Object.assign(this, { run, set, receiver: textOf(receiver), integration: textOf(integration), place, sent: [] });
    this.spans = spans.map((each) => spanOf(run, each));
    this.key = `${set} ${receiver} ${integration} ${place}`;
  }

  spanAt(time) {
    return this.spans.find((span) => span.from <= time && (time < span.to || (time === span.to && time === this.run.end))) || null;
  }

  get isNotified() {
    return this.sent.some((each) => each.isFiring);
  }

  // The first notification with the alert firing.
  get first() {
    return (this.sent.find((each) => each.isFiring) || { note: null }).note;
  }
}

// A time with one verdict: which intervals muted then, and what else muted it, in the order in which the program would name it. `more` counts those
// that aren't listed.
function spanOf(run, [start, end, number, intervals, until, also, more]) {
  const verdict = run.verdicts[number];
  const mutingOf = (names, to) => (names ? { intervals: names.map(textOf), until: textOf(to) } : null);
  return { start: textOf(start), end: textOf(end), from: millisecondsOf(textOf(start)), to: millisecondsOf(textOf(end)), verdict,
    kind: KIND_OF[verdict.verdict] || "nowhere", muting: mutingOf(intervals, until), more: more || 0,
    also: (also || []).map(([each, names, to]) => ({ verdict: run.verdicts[each], muting: mutingOf(names, to) })) };
}

// The sections of the text on top, as ./amreplay why has them.
const SECTION_NAMES = ["nobody", "late", "some", "expected", "nowhere"];

// One firing of an alert: from when to when, its section, and what each of its rows got first.
function entryOf(run, [set, fired, end, section, told]) {
  return { set, fired: textOf(fired), end: textOf(end), section: SECTION_NAMES[section],
    told: told.map(([place, first, known, delay, isLate]) => ({ row: run.rows[place], first: textOf(first), known: textOf(known), delay, isLate: !!isLate })) };
}

// Gives each row the notifications that told of its alert.
function giveNotes(run) {
  const rows = new Map(run.rows.map((row) => [`${row.set} ${row.receiver} ${row.integration} ${row.place}`, row]));
  for (const note of run.notes) {
    const give = (alerts, isFiring) => alerts.forEach(({ set }) => {
      const row = rows.get(`${set} ${note.receiver} ${note.integration} ${note.place}`);
      if (row) row.sent.push({ note, isFiring });
    });
    give(note.firing, true);
    give(note.resolved, false);
  }
}

function pairsOf(items) {
  const pairs = [];
  for (let i = 0; i + 1 < items.length; i += 2) pairs.push([items[i], items[i + 1]]);
  return pairs;
}

function groupedBy(items, keyOf) {
  const groups = new Map();
  for (const item of items) {
    const key = keyOf(item);
    if (!groups.has(key)) groups.set(key, []);
    groups.get(key).push(item);
  }
  return groups;
}

// Who made each silence, and the comment, by the id: the last line that says so.
function makersOf(events) {
  const makers = new Map();
  for (const { silence, reason } of events) {
    if (!silence || reason || (!silence.createdBy && !silence.comment)) continue;
    for (const id of [silence.newId, silence.id]) if (id) makers.set(plainId(id), silence);
  }
  return makers;
}

// An id as the session prints it, whichever of its forms the script has.
function plainId(id) {
  const digits = id.toLowerCase().replace(/^urn:uuid:/, "").replace(/[{}-]/g, "");
  return digits.replace(/^(.{8})(.{4})(.{4})(.{4})(.{12})$/, "$1-$2-$3-$4-$5");
}

const RUNS = DATA.runs.map((raw, i) => new Run(raw, DATA.kinds[i]));

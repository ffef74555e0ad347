// The lanes of the timeline, and what each holds: marks, which are moments, and spans, which last.

// A mark: a moment, a shape, a way to its name, and the cursor that a click goes to. Names are made when they are needed: a lane may have very many.
const mark = (time, shape, name, cursor, more) => ({ time, shape, name, cursor, ...more });

// The lanes of a run: events, each receiver with its alerts, time intervals that routes use, and silences.
function lanesOf(run) {
  return [eventLane(run), ...labelLanes(run), ...exceptionLanes(run), ...receiverLanes(run), ...timesLanes(run), ...silenceLanes(run)];
}

const lane = (kind, name, make, more) => ({ kind, name, make, made: null, ...more });

// What a lane draws, made when it is drawn first.
function drawn(each) {
  if (!each.made) {
    each.made = { marks: [], spans: [], ...each.make() };
    each.made.marks.sort((a, b) => a.time - b.time);
  }
  return each.made;
}

const EVENT_SHAPES = { alerts: "post", silence: "silence", expire: "expire", reload: "reload", tick: "tick", label: "label" };

function eventMark(run, event, i) {
  const cursor = run.first + i;
  const tried = run.tried === cursor ? "tried: " : "";
  return mark(run.timeAt(cursor), event.reason ? "refused" : EVENT_SHAPES[event.act],
    () => `Event ${cursor}, ${when(instant(event.at))}: ${tried}${eventText(event)}${event.reason ? `; refused: ${reasonWords(event.reason)}` : ""}`,
    cursor, { label: event.act === "label" && !event.reason ? seen(event.label) : null });
}

function eventLane(run) {
  return lane("events", "events", () => ({ marks: run.events.map((event, i) => eventMark(run, event, i)).filter((each) => each.time) }));
}

const eventsThat = (run, test) => run.events.map((event, i) => [event, i]).filter(([event]) => test(event)).map(([event, i]) => eventMark(run, event, i));

function labelLanes(run) {
  const isLabel = (event) => event.act === "label" && !event.reason;
  return run.events.some(isLabel) ? [lane("labels", "labels", () => ({ marks: eventsThat(run, isLabel) }))] : [];
}

function exceptionLanes(run) {
  const some = (name, test) => (run.events.some(test) ? [lane("events", name, () => ({ marks: eventsThat(run, test) }))] : []);
  return [...some("refused", (event) => event.reason > 0), ...some("reloads", (event) => event.act === "reload" && !event.reason)];
}

function noteShape(note) {
  if (note.firing.length && note.resolved.length) return "both";
  return note.firing.length ? "firing" : "resolved";
}

// A heading for each receiver, and below it a lane for each of its alerts. Those of which nobody was notified come first.
function receiverLanes(run) {
  const rowsOf = groupedBy(run.rows, (row) => row.receiver);
  const lanes = run.receivers.map(({ name, count }) => receiverLane(run, name, count, rowLanes(rowsOf.get(name) || [])));
  const weight = (each) => (each.rows.length ? (each.count ? 1 : 0) : 2);
  return lanes.sort((a, b) => weight(a) - weight(b)).flatMap((each) => [each, ...each.rows]);
}

function receiverLane(run, receiver, count, rows) {
  const make = () => ({ marks: run.notes.filter((note) => note.receiver === receiver)
    .map((note) => mark(note.time, noteShape(note), () => `${noteText(note)}${comparedText(run, note)}`, note.cursor)) });
  return lane("receiver", seen(receiver), make, { receiver, count, rows, nobody: rows.length > 0 && count === 0 });
}

// A lane for each alert of a receiver. Integrations with the same verdicts and notifications share one.
function rowLanes(rows) {
  const lanes = [];
  for (const ofAlert of groupedBy(rows, (row) => row.set).values()) {
    for (const alike of ofAlert.length === 1 ? [ofAlert] : groupedBy(ofAlert, likeness).values()) lanes.push(rowLane(alike, alike.length < ofAlert.length));
  }
  const start = (each) => (each.row.spans.length ? each.row.spans[0].from : Infinity);
  const rank = (each) => (each.row.isNotified ? 1 : 0);
  return lanes.sort((a, b) => rank(a) - rank(b) || start(a) - start(b) || DATA.places[a.row.set] - DATA.places[b.row.set]);
}

const likeness = (row) => JSON.stringify([row.spans.map((span) => [span.start, span.end, span.kind]), row.sent.map(({ note, isFiring }) => [note.at, isFiring])]);

function rowLane(rows, isNamed) {
  const [row] = rows;
  const name = `${shortText(row.set)}${isNamed ? ` · ${rows.map(integrationText).join(", ")}` : ""}`;
  return lane("row", name, () => ({ spans: row.spans, marks: [...sentMarks(rows), ...ghostMarks(row)] }), { row, rows, set: row.set, full: `${labelsText(row.set)} to ${seen(row.receiver)}` });
}

const integrationText = (row) => (row.integration ? `${row.integration}${row.place ? `[${row.place}]` : ""}` : "no integration");

function sentMarks(rows) {
  const found = new Map();
  for (const row of rows) {
    for (const { note, isFiring } of row.sent) {
      const key = `${note.at} ${isFiring}`;
      if (!found.has(key)) found.set(key, mark(note.time, isFiring ? "firing" : "resolved", () => `${noteText(note)}${comparedText(row.run, note)}`, note.cursor));
    }
  }
  return [...found.values()];
}

// The first notification of this alert in the run that is compared, if it isn't at the same moment.
function ghostMarks(row) {
  const other = otherOf(row.run);
  const twin = other && (other.rowsOf.get(row.set) || []).find((each) => each.key === row.key);
  const first = twin && twin.first;
  if (!first || (row.first && row.first.at === first.at)) return [];
  return [mark(first.time, "ghost", () => `${nameOf(other)}: ${noteText(first)}`, cursorAt(row.run, first.time))];
}

// The last event that isn't after a time, as it is drawn.
function cursorAt(run, time) {
  return run.first + lastUpTo(run.clocks, time);
}

const isoOf = (time) => new Date(time).toISOString().replace(".000Z", "Z");

// The flushes of the groups of an alert at a receiver: those that were listed and passed, and those that were found between events.
function flushTimes(row) {
  const { run } = row;
  const routes = new Set(row.spans.map((span) => span.verdict.route));
  const times = new Set();
  for (const entry of run.lists.groups) {
    if (!routes.has(entry.route) || !entry.values.some((value) => value && value.members.includes(row.set))) continue;
    entry.values.forEach((value, i) => {
      const before = i > 0 ? entry.values[i - 1] : null;
      if (value && before && value.nextFlush !== before.nextFlush && millisecondsOf(before.nextFlush) <= millisecondsOf(run.clock(entry.cursors[i]))) {
        times.add(millisecondsOf(before.nextFlush));
      }
    });
    const between = run.flushes.get(`${entry.route} ${entry.set}`) || [];
    for (let i = 1; i < between.length; i += 2) times.add(millisecondsOf(textOf(between[i])));
  }
  return [...times].filter((time) => row.spanAt(time) || row.spanAt(time - 1));
}

// A lane for each time interval that a route uses: when it holds. It mutes then, or its routes are active then alone.
function timesLanes(run) {
  return run.times.map(({ name, mutes, activates, spans }) => {
    const does = [mutes && "mutes", activates && "active"].filter(Boolean).join(", ");
    const make = () => ({ spans: spans.map(([start, end]) => ({ from: millisecondsOf(start), to: millisecondsOf(end), kind: mutes ? "muting" : "active", name: `${seen(name)} (${does}): ${when(start)} to ${when(end)}` })) });
    return lane("times", `${seen(name)}: ${does}`, make, { full: `time interval ${seen(name)}, ${does}` });
  });
}

function silenceLanes(run) {
  return run.lists.silences.map((entry) => silenceLane(run, entry));
}

function silenceLane(run, entry) {
  const last = entry.values.filter((value) => value).pop();
  const maker = makerText(run, entry.id);
  const name = `${maker ? `${maker}: ` : ""}${matchersText(last.matchers)}`;
  const make = () => {
    const spans = [];
    entry.values.forEach((value, i) => {
      if (!value) return;
      const next = i + 1 < entry.cursors.length ? millisecondsOf(run.clock(entry.cursors[i + 1])) : Infinity;
      const span = { from: millisecondsOf(value.startsAt), to: Math.min(millisecondsOf(value.endsAt), next), kind: "silence",
        cursor: Math.max(entry.cursors[i], run.first), name: `Silence ${name}, ${when(value.startsAt)} to ${when(value.endsAt)}` };
      if (span.to > span.from) spans.push(span);
    });
    return { spans };
  };
  return lane("silence", `silence ${name}`, make, { entry, full: `silence ${entry.id} ${name}` });
}

// The run that a run is compared with.
let chosenOther = 1;
const otherOf = (run) => (RUNS.indexOf(run) > 0 ? RUNS[0] : RUNS[chosenOther] || null);

const NAMES = { "as it was": (run) => `under ${seen(run.name)}`, against: (run) => `under ${seen(run.name)}`, tried: () => "with the tried event" };
const nameOf = (run) => NAMES[run.kind](run);

// What the comparison says of the notifications of a run: those that it has alone, and the moments in the other of those that moved.
const comparisons = new Map();
function comparisonOf(run, other) {
  const place = RUNS.indexOf(run);
  const key = `${place} ${RUNS.indexOf(other)}`;
  if (!comparisons.has(key)) {
    const [first, second, moved] = DATA.compared[(place || chosenOther) - 1];
    comparisons.set(key, { alone: new Set(place ? second : first), moved: new Map(moved.map(([i, j]) => (place ? [j, i] : [i, j]))) });
  }
  return comparisons.get(key);
}

function comparedText(run, note) {
  const other = otherOf(run);
  if (!other) return "";
  const { alone, moved } = comparisonOf(run, other);
  if (alone.has(note.index)) return `; only ${nameOf(run)}`;
  return moved.has(note.index) ? `; at ${when(other.notes[moved.get(note.index)].at)} ${nameOf(other)}` : "";
}

// The words in which the page says what the session answered.
const reasonWords = (reason) => `${DATA.reasons[reason] || "for a reason without a name here"} (${reason})`;

// A text as it can be seen: what is invisible, or turns the direction of what follows, is written by its number.
const HIDDEN = /[\u0000-\u001f\u007f-\u009f\u00ad\u061c\u180e\u200b-\u200f\u2028-\u202e\u2060-\u206f\ufeff\ufff9-\ufffb]/g;
const SHORT = { "\n": "\\n", "\r": "\\r", "\t": "\\t" };
const seen = (text) => text.replace(HIDDEN, (each) => SHORT[each] || "\\u" + each.charCodeAt(0).toString(16).padStart(4, "0"));

const LONGEST = 400;
const cut = (text, most) => (text.length > most ? text.slice(0, most - 1) + "…" : text);

const ALERT_NAME = "alertname";

// A label set in one line: its alertname, and the others in braces.
function labelsText(set, most = 160) {
  const pairs = labelsOf(set);
  const name = pairs.find(([key]) => key === ALERT_NAME);
  const others = pairs.filter(([key]) => key !== ALERT_NAME).map(([key, value]) => `${seen(key)}="${seen(value)}"`);
  const braces = others.length || !name ? `{${others.join(", ")}}` : "";
  return cut((name ? seen(name[1]) : "") + braces, most);
}

function groupText(set, most) {
  const pairs = labelsOf(set);
  return pairs.length ? cut(pairs.map(([key, value]) => `${seen(key)}="${seen(value)}"`).join(", "), most || 160) : "all alerts of the route";
}

const OPERATORS = { truefalse: "=", falsefalse: "!=", truetrue: "=~", falsetrue: "!~" };
const matcherText = (m) => `${seen(m.name)}${OPERATORS[`${m.isEqual}${m.isRegex}`]}"${seen(m.value)}"`;
const matchersText = (matchers) => cut(matchers.map(matcherText).join(", "), LONGEST);

// The date that needs no saying: that of the first event.
const USUAL_DATE = RUNS[0].events.length ? RUNS[0].events[0].now.slice(0, 10) : "";

// The time of day of a moment, without zeros at the end of a fraction. All moments are in UTC.
function timeOf(moment) {
  const time = moment.slice(11).replace(/Z$/, "");
  return time.includes(".") ? time.replace(/\.?0+$/, "") : time;
}

const WEEKDAYS = ["Sun", "Mon", "Tue", "Wed", "Thu", "Fri", "Sat"];
const weekdayOf = (moment) => WEEKDAYS[new Date(millisecondsOf(moment)).getUTCDay()];

// Whether moments also have the time of the reader's own zone, in brackets.
const zone = { isLocal: false };
const besideLocal = (text, moment) => (zone.isLocal ? `${text} (${localOf(moment)})` : text);

// The time of day in the reader's zone, with its weekday where that is another one.
function localOf(moment, hasSeconds = true) {
  const date = new Date(millisecondsOf(moment));
  const two = (number) => String(number).padStart(2, "0");
  const time = `${two(date.getHours())}:${two(date.getMinutes())}${hasSeconds ? `:${two(date.getSeconds())}` : ""}`;
  return date.getDate() === date.getUTCDate() ? time : `${WEEKDAYS[date.getDay()]} ${time}`;
}

const wholeUtc = (moment) => `${moment.slice(0, 10)} ${timeOf(moment)}`;
const whole = (moment) => besideLocal(wholeUtc(moment), moment);

// A moment without its date where that is the usual one.
const whenUtc = (moment) => (moment.slice(0, 10) === USUAL_DATE ? timeOf(moment) : wholeUtc(moment));
const when = (moment) => (moment ? besideLocal(whenUtc(moment), moment) : "");

// A length of time in its two largest units.
function lengthText(milliseconds) {
  const units = [[86400, "d"], [3600, "h"], [60, "m"], [1, "s"]];
  let rest = Math.round(milliseconds / 1000);
  const parts = [];
  for (const [size, name] of units) {
    const count = Math.floor(rest / size);
    rest -= count * size;
    if (count) parts.push(`${count} ${name}`);
    else if (parts.length) break;
    if (parts.length === 2) break;
  }
  return parts.join(" ") || "0 s";
}

const many = (count, one, more = one + "s") => `${count.toLocaleString("en")} ${count === 1 ? one : more}`;

function eventText(event) {
  if (event.act === "alerts") {
    const names = event.alerts.slice(0, 3).map((alert) => labelsText(alert.set, 60)).join(", ");
    const rest = event.alerts.length > 3 ? ` and ${event.alerts.length - 3} more` : "";
    return `${many(event.alerts.length, "alert")} posted${names ? ": " : ""}${names}${rest}`;
  }
  if (event.act === "silence") {
    const verb = event.silence.id ? "silence changed" : "silence posted";
    return `${verb}: ${matchersText(event.silence.matchers)}, until ${when(instant(event.silence.endsAt))}`;
  }
  if (event.act === "label") return `label: ${seen(event.label)}`;
  if (event.act === "expire") return `silence expired: ${event.id}`;
  return event.act === "reload" ? "configuration reloaded" : "time passes";
}

// A moment of the script, which may be written with any offset, as the page writes moments.
function instant(moment) {
  if (!moment || /^\d{4}-\d\d-\d\dT[\d:.]+Z$/.test(moment)) return moment;
  const time = millisecondsOf(moment);
  return Number.isNaN(time) ? moment : new Date(time).toISOString().replace(".000Z", "Z");
}

const whom = (each) => `${seen(each.receiver)}${each.integration === null ? "" : ` / ${each.integration}[${each.place}]`}`;

function noteText(note) {
  const parts = [];
  if (note.firing.length) parts.push(`${note.firing.length} firing`);
  if (note.resolved.length) parts.push(`${note.resolved.length} resolved`);
  return `${when(note.at)} ${whom(note)}: ${parts.join(", ")}; group ${groupText(note.group, 100)}`;
}

// The name of an alert where many are listed: its alertname, and the values of those labels that tell alerts of one name apart.
const shortNames = new Map();
function shortName(set) {
  if (!shortNames.has(set)) {
    const pairs = labelsOf(set);
    const name = pairs.find(([key]) => key === ALERT_NAME);
    const values = pairs.filter(([key]) => tellingLabels().has(key)).map(([, value]) => seen(value));
    shortNames.set(set, name ? [seen(name[1]), values.join(" ")] : ["", labelsText(set)]);
  }
  return shortNames.get(set);
}

const shortText = (set) => cut(shortName(set).filter(Boolean).join(" "), 160);

// The labels whose values differ between alerts of one name.
let telling = null;
function tellingLabels() {
  if (telling) return telling;
  telling = new Set();
  const firstOf = new Map();
  for (const set of new Set(RUNS.flatMap((run) => run.rows.map((row) => row.set)))) {
    const pairs = labelsOf(set).filter(([key]) => key !== ALERT_NAME);
    const name = (labelsOf(set).find(([key]) => key === ALERT_NAME) || [])[1];
    const first = firstOf.get(name);
    if (!first) firstOf.set(name, new Map(pairs));
    else {
      for (const [key, value] of pairs) if (first.get(key) !== value) telling.add(key);
      for (const key of first.keys()) if (!pairs.some(([other]) => other === key)) telling.add(key);
    }
  }
  return telling;
}

// A verdict in words, as a list of parts: texts, and what can be looked up: `{ set }`, `{ route }`, `{ rule }`, `{ interval }`.
// `muting` says which intervals of time muted, and until when.
function verdictParts(verdict, run, time, set, muting) {
  const known = VERDICTS[verdict.verdict];
  if (known) return known(verdict, run, time, set, muting);
  const rest = verdict.rest.map(([key, value]) => `${key} ${Array.isArray(value) ? pairsText(value) : value}`);
  return [`${verdict.verdict}${rest.length ? `: ${rest.join(", ")}` : ""}`];
}

const partText = (part) => (typeof part === "string" ? part : part.text);
const verdictText = (...words) => verdictParts(...words).map(partText).join("");

const pairsText = (pairs) => {
  const name = pairs.find(([key]) => key === ALERT_NAME);
  const others = pairs.filter(([key]) => key !== ALERT_NAME).map(([key, value]) => `${seen(key)}="${seen(value)}"`);
  return cut(`${name ? seen(name[1]) : ""}${others.length || !name ? `{${others.join(", ")}}` : ""}`, LONGEST);
};

// Who made a silence, and why, as its line in the script says.
function makerText(run, id) {
  const made = run.makers.get(id);
  if (!made || (!made.createdBy && !made.comment)) return "";
  return [made.createdBy && seen(made.createdBy), made.comment && `\u201c${cut(seen(made.comment), 200)}\u201d`].filter(Boolean).join(", ");
}

function silenceText(run, id, time) {
  const entry = run.silenceOf.get(id);
  const value = entry ? entry.values.filter((each, i) => each && millisecondsOf(run.clock(entry.cursors[i])) <= time).pop() : null;
  const maker = makerText(run, id);
  return `${maker || id}${value ? `, until ${when(value.endsAt)}` : ""}${maker ? "" : value ? `: ${matchersText(value.matchers)}` : ""}`;
}

const intervalParts = ({ intervals }) => intervals.flatMap((name, i) => [i ? ", " : "", { interval: name, text: seen(name) }]);
const untilText = (muting) => (muting && muting.until ? ` until ${when(muting.until)}` : "");

const VERDICTS = {
  Unknown: () => ["not stored: the session knows no such alert here"],
  Ended: (verdict, run, time, set) => {
    const entry = run.alertOf.get(set);
    const value = entry ? entry.values.filter((each, i) => each && millisecondsOf(run.clock(entry.cursors[i])) <= time).pop() : null;
    return [`resolved${value ? `: it ended at ${when(value.endsAt)}` : ""}`];
  },
  Waiting: (verdict) => [`waiting for the first flush of its group at ${when(verdict.get("due"))}`],
  Inhibited: (verdict, run, time) => ["inhibited by ", { rule: verdict.get("rule"), time, text: `rule ${verdict.get("rule")}` }, ": ",
    { set: verdict.sourceSet, text: pairsText(verdict.get("source")) }, " fires"],
  OutsideActive: (verdict, run, time, set, muting) => ["muted: outside the active times of its route", ...(muting ? [" (", ...intervalParts(muting), ")"] : []), untilText(muting)],
  TimeMuted: (verdict, run, time, set, muting) => (muting ? ["muted by ", ...intervalParts(muting), untilText(muting)] : ["muted: within a mute time of its route"]),
  Silenced: (verdict, run, time) => ["silenced by ", { silence: verdict.get("id"), text: silenceText(run, verdict.get("id"), time) }],
  Nowhere: () => ["not notified: the receiver has no integration"],
  Told: (verdict) => [`notified at ${when(verdict.get("at"))}`],
  Due: (verdict) => [`not notified yet; the group's next flush is at ${when(verdict.get("at"))}`],
};

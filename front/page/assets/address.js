// The address of a place in the page: the event, the alert, the run, the view, and whether it has local times too.
const LONGEST_LABELS = 1000;

function addressOf({ run, cursor, chosen, timeline }) {
  const words = [`event=${cursor}`];
  if (chosen !== null) words.push(`alert=${encodeURIComponent(alertAddress(chosen))}`);
  if (RUNS.indexOf(run) > 0) words.push(`run=${RUNS.indexOf(run)}`);
  if (zone.isLocal) words.push("time=local");
  if (!timeline.isWhole) words.push(`view=${isoOf(Math.round(timeline.view.from))}..${isoOf(Math.round(timeline.view.to))}`);
  return `#${words.join("&")}`;
}

// An alert by its labels, so that a new page of the incident finds it too, or by its number if they are long.
function alertAddress(set) {
  const labels = setJson(set);
  return labels.length > LONGEST_LABELS ? `~${set}` : labels;
}

function readAddress(hash) {
  const words = new Map(hash.slice(1).split("&").map((word) => [word.slice(0, word.indexOf("=")), word.slice(word.indexOf("=") + 1)]));
  const number = (name) => (/^\d{1,7}$/.test(words.get(name) || "") ? Number(words.get(name)) : null);
  return { event: number("event"), run: number("run"), alert: words.has("alert") ? alertOf(words.get("alert")) : null, view: viewOf(words.get("view") || ""),
    isLocal: words.get("time") === "local" };
}

function alertOf(text) {
  let labels;
  try {
    labels = decodeURIComponent(text);
  } catch {
    return null;
  }
  if (/^~\d{1,7}$/.test(labels)) return Number(labels.slice(1)) < DATA.sets.length ? Number(labels.slice(1)) : null;
  const found = DATA.sets.findIndex((_, set) => setJson(set) === labels);
  return found < 0 ? null : found;
}

function viewOf(text) {
  const [from, to] = text.split("..").map((each) => Date.parse(each));
  return from < to ? [from, to] : null;
}

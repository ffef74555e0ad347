// The lines of the session, as it printed them: compact JSON, with keys in order.
const labelsJson = (pairs) => `{${pairs.map(([key, value]) => `${JSON.stringify(key)}:${JSON.stringify(value)}`).join(",")}}`;
const setJson = (set) => labelsJson(labelsOf(set));
const setsJson = (sets) => `[${sets.map(setJson).join(",")}]`;
const json = (value) => JSON.stringify(value);

const matcherJson = (m) => `{"isEqual":${m.isEqual},"isRegex":${m.isRegex},"name":${json(m.name)},"value":${json(m.value)}}`;
const matchersJson = (matchers) => `[${matchers.map(matcherJson).join(",")}]`;

const notifiedJson = (alert) => `{"annotations":${setJson(alert.annotations)},${alert.endsAt ? `"endsAt":${json(alert.endsAt)},` : ""}`
  + `"labels":${setJson(alert.set)},"startsAt":${json(alert.startsAt)}}`;

const noteLine = (note) => `{"at":${json(note.at)},"firing":[${note.firing.map(notifiedJson).join(",")}],"groupLabels":${setJson(note.group)},`
  + `"integration":${json(note.integration)},"place":${note.place},"receiver":${json(note.receiver)},`
  + `"resolved":[${note.resolved.map(notifiedJson).join(",")}],"route":${note.route}}`;

const ENTRY_LINES = {
  alerts: (entry, value) => `{"annotations":${setJson(value.annotations)},"endsAt":${json(value.endsAt)},"labels":${setJson(entry.set)},`
    + `"startsAt":${json(value.startsAt)},"timeout":${value.timeout},"updatedAt":${json(value.updatedAt)}}`,
  silences: (entry, value) => `{"endsAt":${json(value.endsAt)},"id":${json(entry.id)},"matchers":${matchersJson(value.matchers)},`
    + `"startsAt":${json(value.startsAt)}}`,
  groups: (entry, value) => `{"emptySince":${json(value.emptySince)},"flushed":${value.flushed},"groupLabels":${setJson(entry.set)},`
    + `"members":${setsJson(value.members)},"nextFlush":${json(value.nextFlush)},"route":${entry.route}}`,
  log: (entry, value) => `{"at":${json(value.at)},"firing":${setsJson(value.firing)},"groupLabels":${setJson(entry.group)},`
    + `"integration":${json(entry.integration)},"path":[${entry.path.map(matchersJson).join(",")}],"place":${entry.place},`
    + `"receiver":${json(entry.receiver)},"resolved":${setsJson(value.resolved)}}`,
};

function verdictLine(verdict) {
  const parts = verdict.rest.map(([key, value]) => [key, Array.isArray(value) ? labelsJson(value) : json(value)]);
  parts.push(["verdict", json(verdict.verdict)]);
  if (verdict.receiver !== null) parts.push(["receiver", json(verdict.receiver)], ["route", verdict.route]);
  if (verdict.integration !== null) parts.push(["integration", json(verdict.integration)], ["place", verdict.place]);
  return `{${parts.sort(([a], [b]) => (a < b ? -1 : 1)).map(([key, value]) => `${json(key)}:${value}`).join(",")}}`;
}

// The lines that an event printed.
function eventLines(run, cursor) {
  const event = run.event(cursor);
  const lines = (run.notesAt.get(cursor) || []).map(noteLine);
  if (event.act === "label" && !event.reason) lines.push(`{"event":${cursor},"label":${json(event.label)}}`);
  if (event.reason) lines.push(`{"event":${cursor},"reason":${event.reason}}`);
  if (event.skipped.length) lines.push(`{"event":${cursor},"skipped":${json(event.skipped)}}`);
  return lines;
}

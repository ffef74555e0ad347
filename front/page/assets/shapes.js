// What is drawn for a mark, the patterns of spans, and the legend.
const SHAPES = {
  firing: (x, y) => svg("path", { class: "ink", d: `M${x} ${y - 6}l6 10.5h-12z` }),
  resolved: (x, y) => svg("circle", { class: "line", cx: x, cy: y, r: 4.5 }),
  both: (x, y) => [svg("circle", { class: "line", cx: x, cy: y, r: 6.5 }), svg("path", { class: "ink", d: `M${x} ${y - 4.5}l4.2 7.2h-8.4z` })],
  ghost: (x, y) => svg("path", { class: "line", d: `M${x} ${y - 6}l6 10.5h-12z` }),
  post: (x, y) => svg("circle", { class: "ink", cx: x, cy: y, r: 4 }),
  tick: (x, y) => svg("line", { class: "line", x1: x, x2: x, y1: y - 5, y2: y + 5 }),
  silence: (x, y) => svg("rect", { class: "ink", x: x - 4.5, y: y - 4.5, width: 9, height: 9 }),
  expire: (x, y) => svg("rect", { class: "line", x: x - 4.5, y: y - 4.5, width: 9, height: 9 }),
  reload: (x, y) => svg("path", { class: "ink", d: `M${x} ${y - 7}l6 7l-6 7l-6-7z` }),
  refused: (x, y) => svg("path", { class: "line", d: `M${x - 5} ${y - 5}l10 10M${x + 5} ${y - 5}l-10 10` }),
  label: (x, y) => svg("path", { class: "ink", d: `M${x - 1} ${y - 8}h9l-2.5 3.5l2.5 3.5h-7.5v8h-1.5z` }),
  several: (x, y) => svg("rect", { class: "ink", x: x - 7, y: y - 7, width: 14, height: 14, rx: 4 }),
};

const shapeOf = (shape, x, y) => SHAPES[shape](x, y);

// Marks that are too near each other are one box with their number, and its height grows with it. The box says what they are: its upper part is
// the share of those that fire.
const BUNCH_WIDTH = 17;
const numberText = (count) => (count < 1000 ? String(count) : `${Math.floor(count / 1000)}k`);

function bunchEl(x, y, marks) {
  const height = Math.min(20, 11 + 2 * Math.log2(marks.length));
  const firing = marks.filter((each) => each.shape === "firing" || each.shape === "both").length;
  const resolved = marks.filter((each) => each.shape === "resolved").length;
  const share = firing + resolved ? firing / (firing + resolved) : -1;
  const top = y - height / 2;
  const box = { x: x - BUNCH_WIDTH / 2, width: BUNCH_WIDTH - 1 };
  const parts = share < 0 ? [svg("rect", { class: "several-events", ...box, y: top, height, rx: 2.5 })] : [
    svg("rect", { class: "several-resolved", ...box, y: top, height, rx: 2.5 }),
    share > 0 && svg("rect", { class: "several-firing", ...box, y: top, height: Math.max(3, height * share), rx: 2.5 })];
  return [parts, svg("text", { class: marks.length < 100 ? "number" : "number long", x: x - 0.5, y: y + 3.2, "text-anchor": "middle" }, numberText(marks.length))];
}

// A pattern for each kind of span, so that none is told by its colour alone.
const PATTERN_LINES = {
  told: [], waits: [["circle", { cx: 3, cy: 3, r: 1.1 }]], inhibited: [["line", { x1: 0, y1: 0, x2: 0, y2: 6 }]], silenced: [["line", { x1: 0, y1: 0, x2: 6, y2: 0 }]],
  outside: [["line", { x1: 3, y1: 0, x2: 3, y2: 6 }]], nowhere: [["line", { x1: 0, y1: 0, x2: 6, y2: 6 }], ["line", { x1: 6, y1: 0, x2: 0, y2: 6 }]],
  silence: [["line", { x1: 0, y1: 0, x2: 6, y2: 0 }]],
};
const TURNED = { inhibited: "rotate(45)", silenced: "rotate(45)", silence: "rotate(45)" };

const patternEls = () => Object.entries(PATTERN_LINES).map(([kind, lines]) => svg("pattern",
  { id: `fill-${kind}`, width: 6, height: 6, patternUnits: "userSpaceOnUse", patternTransform: TURNED[kind] || null },
  svg("rect", { class: `ground-${kind}`, width: 6, height: 6 }), lines.map(([tag, attributes]) => svg(tag, { class: `line-${kind}`, ...attributes }))));

const EVENT_WORDS = { post: "alerts posted", silence: "silence posted", expire: "silence expired", reload: "reload", tick: "time passes", label: "label", refused: "refused" };

// What the spans and the marks mean, of those that this page has.
function legend(run) {
  const shapes = new Set(run.events.map((event) => (event.reason ? "refused" : EVENT_SHAPES[event.act])));
  const key = (picture, name) => el("li", {}, picture, name);
  const spanKey = ([kind, name]) => key(svg("svg", { width: 22, height: 12, "aria-hidden": "true" }, svg("rect", { class: `span ${kind}`, x: 0.5, y: 0.5, width: 21, height: 11, rx: 2 })), name);
  const markKey = ([shape, name]) => key(svg("svg", { width: 18, height: 18, viewBox: "0 0 18 18", "aria-hidden": "true" }, svg("g", { class: `mark ${shape}` }, shapeOf(shape, 9, 9))), name);
  const kinds = new Set(run.rows.flatMap((row) => row.spans.map((span) => span.kind)));
  const sent = new Set(run.notes.flatMap((note) => [noteShape(note), note.firing.length && "firing", note.resolved.length && "resolved"]));
  const marks = [...[["firing", "sent: firing"], ["resolved", "sent: resolved"], ["both", "sent: both"]].filter(([shape]) => sent.has(shape)), ...(otherOf(run) ? [["ghost", `first sent ${nameOf(otherOf(run))}`]] : []),
    ...Object.entries(EVENT_WORDS).filter(([shape]) => shapes.has(shape)), ["several", "several, with their number"]];
  const times = [["muting", "time that mutes"], ["active", "active time"]].filter(([kind]) => run.times.some((each) => (kind === "muting") === each.mutes));
  return el("ul", { class: "keys", "aria-label": "What is drawn" }, [...Object.entries(KINDS).filter(([kind]) => kinds.has(kind)), ...times].map(spanKey), marks.map(markKey));
}

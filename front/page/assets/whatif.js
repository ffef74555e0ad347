// What if: for each alert and receiver the first notification in both runs, and what an event that never happened would have done.
const DIFFERENCES = 60;

class Differences {
  constructor(app) {
    this.app = app;
    this.root = el("section", { class: "differences", id: "differences", "aria-labelledby": "differences-title" });
    const other = RUNS[chosenOther];
    const { same, others } = DATA.differences[chosenOther - 1];
    const found = others.map((each) => differenceOf(other, each));
    const fact = DIFFERENCE_KINDS.map((kind) => [found.filter((each) => each.kind === kind).length, kind]).filter(([count]) => count).map(([count, kind]) => `${count} ${kind}`);
    replace(this.root, el("h3", { id: "differences-title" }, el("bdi", {}, `${nameOf(RUNS[0])[0].toUpperCase()}${nameOf(RUNS[0]).slice(1)}, and ${nameOf(other)}`)),
      el("p", {}, fact.length ? `First notifications: ${fact.join(", ")}, ${same} the same.` : `The first notifications are the same (${same}).`, " ", countsText(other)),
      found.length > 0 && el("div", { class: "wide" }, el("table", { class: "compared" }, el("thead", {}, el("tr", {}, ["Alert", "Receiver", nameOf(RUNS[0]), nameOf(other), ""].map((name) => el("th", { scope: "col" }, name)))),
        el("tbody", {}, found.slice(0, DIFFERENCES).map((each) => this.row(each, other))))),
      found.length > DIFFERENCES && el("p", { class: "quiet" }, `${DIFFERENCES} of ${found.length} are listed.`),
      DATA.trial ? trialEl(this.app) : null);
  }

  row({ kind, set, receiver, first, second, gain, reason }, other) {
    const cell = (at, run) => (at ? linkEl(() => {
      this.app.show(run, cursorAt(run, millisecondsOf(at)));
      this.app.choose(set);
    }, when(at)) : "never");
    return el("tr", { class: kind }, el("td", {}, alertButton(this.app, set, shortEl(set))), el("td", {}, el("bdi", {}, receiver)), el("td", {}, cell(first, RUNS[0])),
      el("td", {}, cell(second, other)), el("td", {}, el("span", { class: "tag" }, kind === "earlier" || kind === "later" ? `${lengthText(Math.abs(gain))} ${kind}` : kind),
        reason && el("div", { class: "quiet" }, el("bdi", {}, reason))));
  }
}

const DIFFERENCE_KINDS = ["lost", "later", "new", "earlier"];

// The first notification of a firing at an integration under both, where they differ, with the reason where there is none.
function differenceOf(other, [kind, set, receiver, integration, place, first, second, gain, reason]) {
  const name = DIFFERENCE_KINDS[kind];
  const without = name === "lost" ? other : RUNS[0];
  const words = () => {
    const span = spanOf(without, reason);
    return `${nameOf(without)}: ${verdictText(span.verdict, without, span.from, set, span.muting)}`;
  };
  return { kind: name, set, receiver: whom({ receiver: textOf(receiver), integration: textOf(integration), place }), first: textOf(first), second: textOf(second), gain,
    reason: reason === -1 ? `no route leads there ${nameOf(without)}` : reason ? words() : "" };
}

function countsText(other) {
  const [alone, more, moved] = DATA.compared[RUNS.indexOf(other) - 1];
  const same = RUNS[0].notes.length - alone.length - moved.length;
  return `Of all notifications ${same} ${same === 1 ? "is" : "are"} the same; ${alone.length} fewer, ${more.length} more, ${moved.length} moved.`;
}

function trialEl(app) {
  const [raw, cursor, moves, reason, skipped, notes] = DATA.trial;
  const event = actOf(raw);
  const made = notes.map((note, i) => noteOf([cursor, ...note], i));
  return el("div", { class: "trial", id: "trial" }, el("h3", {}, "An event that never happened"),
    el("p", {}, el("bdi", {}, `${when(instant(event.at))}: ${eventText(event)}.`), ` Tried after event ${cursor}.`),
    el("p", {}, reason ? `It would be refused: ${reasonWords(reason)}.`
      : `It would make ${many(moves, "move")} and ${many(made.length, "notification")} at once${skipped.length ? `, and skip ${many(skipped.length, "alert")}` : ""}.`),
    made.length > 0 && el("ul", { class: "notes" }, made.slice(0, ROWS).map((note) => el("li", { class: "note" }, el("bdi", {}, noteText(note)),
      notifiedEl(app, "firing", note.firing), notifiedEl(app, "resolved", note.resolved)))),
    linesEl("What the session printed for the trial", () => [...made.map(noteLine), ...(reason ? [`{"event":0,"reason":${reason}}`] : []),
      ...(skipped.length ? [`{"event":0,"skipped":${json(skipped)}}`] : [])]));
}

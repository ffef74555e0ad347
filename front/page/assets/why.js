// Why: the alert that is chosen, its verdicts over time for each receiver, and what it would have been without what muted it.
class WhyView {
  constructor(app) {
    this.app = app;
    this.without = null;
    this.root = el("section", { class: "card why", id: "why", "aria-labelledby": "why-title" });
  }

  draw() {
    const { run, chosen } = this.app;
    const title = el("h2", { id: "why-title" }, "Why?");
    if (chosen === null) {
      replace(this.root, title, el("p", { class: "quiet" }, "Choose an alert, in the text above, in a list or in the timeline, to see why it was or wasn't notified."));
      return;
    }
    const rows = run.rowsOf.get(chosen) || [];
    replace(this.root, title, el("p", { class: "chosen-alert" }, labelsEl(chosen)), this.now(rows), this.receivers(rows), this.firstAlone(), this.trials(rows), el("p", { class: "buttons" }, copyEl(this.app)), this.expectations(rows));
  }

  // The verdicts at the cursor.
  now(rows) {
    const { run, cursor, chosen } = this.app;
    const time = this.app.time();
    const explained = run.explained(chosen, cursor);
    const verdicts = explained || rows.map((row) => row.spanAt(time)).filter(Boolean).map((span) => span.verdict);
    const items = verdicts.map((verdict) => this.verdictEl(verdict, rows, time));
    return [el("h3", {}, `At ${cursor < run.first ? "the start" : when(run.clock(cursor))}`),
      el("ul", { class: "verdicts" }, items.length ? items : el("li", { class: "verdict" }, rows.length ? "It doesn't fire." : "This alert never fired on this page.")),
      explained && linesEl("What the session explained", () => explained.map(verdictLine))];
  }

  verdictEl(verdict, rows, time) {
    const { run, chosen } = this.app;
    const row = rows.find((each) => each.receiver === verdict.receiver && each.integration === verdict.integration && each.place === verdict.place);
    const span = row && row.spanAt(time);
    const same = span && span.verdict.verdict === verdict.verdict ? span : null;
    const parts = partsEl(this.app, row || { run, set: chosen }, verdict, same || { from: time, muting: null });
    return el("li", { class: `verdict ${/^\w+$/.test(verdict.verdict) ? verdict.verdict : ""}` }, el("span", { class: "sign", "aria-hidden": "true" }, signOf(verdict)),
      el("div", {}, el("div", { class: "capital" }, parts), same && alsoEl(this.app, row, same),
        verdict.receiver !== null && el("div", { class: "quiet" }, el("bdi", {}, whom(verdict)), ", ", routeEl(this.app, verdict.route, time))));
  }

  // For each receiver when it was notified first, and its verdicts over time.
  receivers(rows) {
    const alike = [...groupedBy(rows, (row) => `${row.receiver} ${likeness(row)}`).values()];
    return alike.map((each) => el("section", { class: "receiver-spans" }, el("h3", {}, rowStatusEl(each)), spansEl(this.app, each[0], each[0].spans, 60), sentEl(this.app, each[0])));
  }

  // Says that other reasons may be there.
  firstAlone() {
    const { run, chosen } = this.app;
    return run.firstAlone.has(chosen) && el("p", { class: "flag" }, "Of several reasons at once this page has the first alone for this alert. ", namingEl(chosen));
  }

  // What would have been without a silence or a source.
  trials(rows) {
    const { run, chosen } = this.app;
    if (RUNS.indexOf(run) !== 0) return null;
    const trials = trialsOf(run, chosen);
    if (!trials.length) {
      const isMuted_ = rows.some((row) => row.spans.some((span) => span.kind === "inhibited" || span.kind === "silenced"));
      return isMuted_ && el("p", { class: "flag" }, `What would have been without a silence or a source was tried for ${DATA.trials.length} of ${DATA.mutes.toLocaleString("en")}, and not for those of this alert. `, namingEl(chosen));
    }
    const shown = trials.find((trial) => trial.number === this.without);
    return el("section", { class: "trials" }, el("h3", {}, "What if it had not been there?"),
      el("div", { class: "buttons" }, trials.map((trial) => el("button", { type: "button", "aria-pressed": String(trial === shown), onclick: () => {
        this.without = trial === shown ? null : trial.number;
        this.draw();
        this.app.announce(trial === shown ? "As it was" : `${trial.name}: ${trialText(trial, chosen)}`);
      } }, trial.name))),
      shown && el("ul", { class: "outcomes", id: "outcome" }, shown.rows.filter(({ row }) => row.set === chosen).map((each) => outcomeEl(this.app, each))),
      shown && el("p", { class: "quiet" }, `In all ${many(shown.more, "notification")} more, ${shown.fewer} fewer.`));
  }

  // Lines for ./amreplay expect, that say what happened.
  expectations(rows) {
    if (!rows.length) return null;
    const receivers = groupedBy(rows, (row) => row.receiver);
    return linesEl("As expectations, for ./amreplay expect", () => [...receivers].map(([receiver, each]) => {
      const first = each.map((row) => row.first).filter(Boolean).sort((a, b) => a.time - b.time)[0];
      return `{"labels":${setJson(this.app.chosen)},"receiver":${json(receiver)},${first ? `"by":${json(first.at)}` : '"never":true'}}`;
    }));
  }
}

// How to make a page that knows more of an alert.
const namingEl = (set) => ["Make the page with ", el("code", {}, `--explain '${cut(seen(setJson(set)), 1000)}'`), " for more."];

const SIGNS = { Told: "●", Due: "○", Waiting: "◔", Ended: "✓", Unknown: "–", Nowhere: "∅" };
const signOf = (verdict) => SIGNS[verdict.verdict] || "⊘";

// The notifications that a receiver got of an alert, one after the other.
function sentEl(app, row) {
  if (!row.sent.length) return null;
  const sent = row.sent.slice(0, 40);
  return el("p", { class: "sent" }, "Sent: ", sent.map(({ note, isFiring }, i) => [i > 0 && ", ", linkEl(() => app.go(note.cursor), `${isFiring ? "▲" : "○"} ${when(note.at)}`)]), row.sent.length > 40 && ` and ${row.sent.length - 40} more`);
}

// The trials of what muted an alert. They are of the first run alone.
function trialsOf(run, set) {
  if (RUNS.indexOf(run) !== 0) return [];
  return DATA.trials.map((raw, i) => trialOf(run, raw, i)).filter((trial) => trial.rows.some(({ row }) => row.set === set));
}

// A trial of the page: what was left out, and for each row that it concerns the first notification and the verdicts instead.
function trialOf(run, [kind, what, more, fewer, rows], number) {
  const name = kind === 0 ? `without the silence ${makerText(run, textOf(what)) || textOf(what)}` : `without ${shortText(what)}`;
  return { number, name, more, fewer, rows: rows.map(([place, at, spans]) => {
    const row = run.rows[place];
    return { row, at: textOf(at), spans: spans.map((each) => spanOf(run, each)) };
  }) };
}

function outcomeText({ row, at }) {
  if (!at) return "still not notified";
  const before = row.first;
  if (!before) return `notified at ${when(at)}`;
  const gain = before.time - millisecondsOf(at);
  return gain === 0 ? `notified at ${when(at)}, as it was` : `notified at ${when(at)}, ${lengthText(Math.abs(gain))} ${gain > 0 ? "earlier" : "later"}`;
}

const trialText = (trial, set) => trial.rows.filter(({ row }) => row.set === set).map((each) => `${seen(each.row.receiver)} ${outcomeText(each)}`).join("; ");

function outcomeEl(app, each) {
  const { row, spans } = each;
  return el("li", {}, el("b", {}, el("bdi", {}, seen(row.receiver))), el("span", { class: "quiet" }, ` ${integrationText(row)}: `), outcomeText(each),
    el("ol", { class: "spans" }, spans.filter((span) => isMuted(span.kind)).slice(0, 12).map((span) => spanEl(app, row, span))));
}

// The story of an alert as Markdown, for the document of an incident.

// A text as it is, whatever it has: characters that Markdown reads are escaped.
const plain = (text) => text.replace(/[\\`*_{}[\]<>#|~&]/g, "\\$&");

const verdictMark = (row, span) => [verdictText(span.verdict, row.run, span.from, row.set, span.muting),
  ...span.also.map(({ verdict, muting }) => `also ${verdictText(verdict, row.run, span.from, row.set, muting)}`), ...(span.more ? [`and ${many(span.more, "more reason")}`] : [])].join("; ");

function markdownOf({ run, chosen, sections }) {
  const rows = run.rowsOf.get(chosen) || [];
  const entries = run.entries.filter((entry) => entry.set === chosen);
  const title = shortName(chosen).filter(Boolean).join(" ");
  const lines = [`## ${plain(title)}`, "", `Labels: ${plain(labelsText(chosen, 2000))}`, "",
    `${plain(seen(DATA.script))} under ${plain(seen(run.name))}, as amreplay replays it. Times are in UTC${zone.isLocal ? `, and in brackets in ${zoneName()}` : ""}.`, ""];
  if (sections.of(chosen)) lines.push(`**${SECTIONS[sections.of(chosen)]}.**`, "");
  for (const { fired, end } of entries) lines.push(`- Fired ${whole(fired)} ${end ? `to ${whole(end)}` : "and still fires at the end"}`);
  for (const row of rows) lines.push("", ...rowMarkdown(row));
  return [...lines, ...trialsMarkdown(run, chosen)];
}

function rowMarkdown(row) {
  const first = row.first ? `first notified at ${when(row.first.at)}` : "never notified";
  const sent = row.sent.map(({ note, isFiring }) => `${isFiring ? "firing" : "resolved"} ${when(note.at)}`);
  return [`### ${plain(seen(row.receiver))} (${plain(integrationText(row))}): ${first}`, "",
    ...row.spans.map((span) => `- ${when(span.start)} to ${when(span.end)}: ${plain(verdictMark(row, span))}`), ...(sent.length ? ["", `Sent: ${sent.join(", ")}`] : [])];
}

function trialsMarkdown(run, set) {
  const trials = trialsOf(run, set);
  return trials.length ? ["", "### What if it had not been there?", "", ...trials.map((trial) => `- ${plain(`${trial.name}: ${trialText(trial, set)}`)}`)] : [];
}

// A button that copies the story, and says so. Where the page may not write to the clipboard, the text is shown and chosen, to be copied by hand.
function copyEl(app) {
  const button = el("button", { type: "button", class: "copy", id: "copy", onclick: () => copy() }, "Copy as Markdown");
  const say = (text) => {
    button.textContent = text;
    button.setAttribute("data-done", "");
    app.announce(text);
  };
  const copy = async () => {
    const text = `${markdownOf(app).join("\n")}\n`;
    try {
      await window.navigator.clipboard.writeText(text);
      say("Copied");
    } catch {
      const area = el("textarea", { readonly: true, rows: 12, class: "mono", id: "markdown", "aria-label": "The story as Markdown" });
      area.value = text;
      button.after(area);
      area.select();
      say("Copy the text below");
    }
  };
  return button;
}

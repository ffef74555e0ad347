// How the timeline is drawn: an axis, and of the lanes those that are in sight.
// The axis has a line more for the reader's own time.
const axisHeight = () => (zone.isLocal ? 54 : 40);
const NEAR = 17;
const STEPS = [1, 2, 5, 10, 20, 50, 100, 200, 500, 1000, 2000, 5000, 10000, 15000, 30000, 60000, 120000, 300000, 600000, 900000, 1800000,
  3600000, 7200000, 10800000, 21600000, 43200000, 86400000, 172800000, 604800000, 2592000000, 31536000000];
const COLUMN = 4;

class Drawing {
  constructor(timeline) {
    this.timeline = timeline;
    this.lanes = [];
    this.targets = [];
    this.axis = svg("svg", { class: "axis", "aria-hidden": "true", height: axisHeight() });
    this.picture = svg("svg", { class: "lanes", role: "group", "aria-label": "Lanes" });
    this.names = el("div", { class: "lane-names" });
    this.space = el("div", { class: "lane-space" }, this.picture, this.names);
    this.parts = [svg("svg", { class: "patterns", width: 0, height: 0, "aria-hidden": "true" }, svg("defs", {}, patternEls())), this.axis, this.space];
  }

  x(time) {
    const { view } = this.timeline;
    return this.gutter + ((time - view.from) / (view.to - view.from)) * (this.width - this.gutter - 14);
  }

  timeOf(x) {
    const { view } = this.timeline;
    return view.from + ((x - this.gutter) / (this.width - this.gutter - 14)) * (view.to - view.from);
  }

  draw() {
    const { scroll } = this.timeline;
    this.measure();
    const first = Math.floor(Math.max(0, scroll.scrollTop - this.laneHeight) / this.laneHeight);
    this.drawLanes(first, Math.min(this.lanes.length, Math.ceil((scroll.scrollTop + scroll.clientHeight) / this.laneHeight) + 1));
  }

  // Draws all lanes, to be printed.
  drawAll() {
    this.measure();
    this.drawLanes(0, this.lanes.length);
  }

  measure() {
    const { timeline } = this;
    this.width = Math.max(280, timeline.scroll.clientWidth);
    this.isNarrow = this.width < NARROW;
    this.laneHeight = this.isNarrow ? 42 : 24;
    this.gutter = this.isNarrow ? 10 : Math.round(Math.min(350, Math.max(230, this.width * 0.28)));
    this.lanes = timeline.visibleLanes();
    timeline.laneAt = Math.min(timeline.laneAt, this.lanes.length - 1);
    this.space.style.height = `${this.lanes.length * this.laneHeight}px`;
    const rows = this.lanes.filter((each) => each.kind === "row").length;
    const all = timeline.lanes.filter((each) => each.kind === "row").length;
    const areFolded = !rows && this.lanes.some((each) => each.kind === "receiver" && timeline.isFolded(each));
    timeline.count.textContent = areFolded ? `${many(all, "row")}, folded` : rows === all ? many(all, "row") : `${rows.toLocaleString("en")} of ${many(all, "row")}`;
  }

  drawLanes(first, last) {
    const height = Math.max(0, (last - first) * this.laneHeight);
    const shown = this.lanes.slice(first, last);
    this.picture.style.top = this.names.style.top = `${first * this.laneHeight}px`;
    filled(this.picture, { width: this.width, height, viewBox: `0 0 ${this.width} ${height}` }, []);
    this.targets = [];
    replace(this.picture, svg("defs", {}, svg("clipPath", { id: "plot" }, svg("rect", { x: this.gutter - 8, y: 0, width: this.width - this.gutter + 8, height }))),
      shown.map((each, i) => this.ground(each, i * this.laneHeight, first + i)), this.grid(height), this.band(height),
      shown.map((each, i) => this.drawLane(each, i * this.laneHeight)), this.cursorLine(height));
    replace(this.names, shown.map((each, i) => this.nameEl(each, i * this.laneHeight, first + i)));
    this.drawAxis();
  }

  ticks() {
    const { view } = this.timeline;
    const span = view.to - view.from;
    const room = Math.max(1, (this.width - this.gutter) / 84);
    const step = STEPS.find((each) => span / each <= room) || STEPS[STEPS.length - 1];
    const ticks = [];
    for (let time = Math.ceil(view.from / step) * step; time <= view.to; time += step) ticks.push(time);
    return { ticks, step };
  }

  grid(height) {
    return this.ticks().ticks.map((time) => svg("line", { class: "grid", x1: this.x(time), x2: this.x(time), y1: 0, y2: height }));
  }

  // The axis has the time of day, and below the first tick of each day its weekday and date.
  drawAxis() {
    const { ticks, step } = this.ticks();
    const height = axisHeight();
    filled(this.axis, { width: this.width, height, viewBox: `0 0 ${this.width} ${height}` }, []);
    let day = "";
    const labels = ticks.map((time) => {
      const iso = new Date(time).toISOString();
      const x = this.x(time);
      if (x > this.width - 22) return null;
      const isNew = iso.slice(0, 10) !== day;
      day = iso.slice(0, 10);
      const anchor = x < 34 ? "start" : x > this.width - 50 ? "end" : "middle";
      const at = anchor === "start" ? Math.max(4, x - 16) : anchor === "end" ? this.width - 4 : x;
      return [svg("line", { class: "grid", x1: x, x2: x, y1: height - 5, y2: height }),
        svg("text", { class: "tick", x: at, y: 15, "text-anchor": anchor }, iso.slice(11, step < 1000 ? 23 : step < 60000 ? 19 : 16)),
        isNew && svg("text", { class: "tick date", x: at, y: zone.isLocal ? 43 : 30, "text-anchor": anchor }, `${weekdayOf(iso)} ${this.isNarrow ? day.slice(5) : day}`),
        zone.isLocal && svg("text", { class: "tick local", x: at, y: 29, "text-anchor": anchor }, localOf(iso, step < 60000))];
    });
    replace(this.axis, labels, this.cursorHead());
  }

  // The cursor's head on the axis, or an arrow at its side if the cursor is out of sight.
  cursorHead() {
    const { view, app } = this.timeline;
    const now = app.time();
    const y = axisHeight() - 9;
    if (now < view.from) return svg("path", { class: "cursor-head away", d: `M${this.gutter + 10} ${y - 3}v12l-9-6z` });
    if (now > view.to) return svg("path", { class: "cursor-head away", d: `M${this.width - 12} ${y - 3}v12l9-6z` });
    return svg("path", { class: "cursor-head", d: `M${this.x(now) - 6} ${y}h12l-6 9z` });
  }

  cursorLine(height) {
    const { view, app } = this.timeline;
    const now = app.time();
    return now < view.from || now > view.to ? null : svg("line", { class: "cursor-line", x1: this.x(now), x2: this.x(now), y1: 0, y2: height });
  }

  // The time that passed up to the event at the cursor: one band behind all lanes.
  band(height) {
    const { app, run } = this.timeline;
    if (app.cursor < run.first || (app.cursor === run.first && run.first === 1)) return null;
    const from = Math.max(this.gutter, this.x(millisecondsOf(run.clock(app.cursor - 1))));
    const to = Math.min(this.width, this.x(millisecondsOf(run.clock(app.cursor))));
    return to > from ? svg("rect", { class: "band", x: from, y: 0, width: to - from, height }) : null;
  }

  target(item, element) {
    element.setAttribute("data-target", this.targets.length);
    this.targets.push(item);
    return element;
  }

  ground(each, y, place) {
    const at = place === this.timeline.laneAt ? " at" : "";
    return svg("rect", { class: `ground ${each.kind}${at}`, x: 0, y, width: this.width, height: this.laneHeight });
  }

  nameEl(each, y, place) {
    const { app } = this.timeline;
    const isChosen = each.kind === "row" && each.set === app.chosen;
    const classes = `lane-name ${each.kind}${isChosen ? " chosen" : ""}${place === this.timeline.laneAt ? " at" : ""}`;
    const parts = each.kind === "receiver" ? this.receiverName(each) : each.kind === "row" ? rowName(each) : [el("bdi", { class: "name" }, each.name)];
    const item = { name: each.full || `${each.kind} ${each.name}`, set: each.kind === "row" ? each.set : undefined, fold: each.kind === "receiver" ? each : null };
    const box = el("div", { class: classes }, parts);
    Object.assign(box.style, { top: `${y}px`, width: this.isNarrow ? "100%" : `${this.gutter - 6}px`, height: this.isNarrow ? "20px" : `${this.laneHeight}px` });
    return this.target(item, box);
  }

  receiverName(each) {
    const sign = each.rows.length ? (this.timeline.isFolded(each) ? "▸ " : "▾ ") : "";
    return [el("bdi", { class: "name" }, sign, each.name), el("span", { class: `how-many${each.nobody ? " none" : ""}` }, receiverText(each))];
  }

  drawLane(each, y) {
    const made = drawn(each);
    const middle = this.isNarrow ? y + 31 : y + this.laneHeight / 2;
    const isFolded = each.kind === "receiver" && each.rows.length > 0 && this.timeline.isFolded(each);
    return svg("g", { class: `lane ${each.kind}`, role: "group", "aria-label": `${each.kind} ${each.full || each.name}`, "clip-path": "url(#plot)" },
      isFolded ? this.density(each, middle) : [this.drawSpans(each, made, middle), this.flushes(each, middle), this.drawMarks(made.marks, middle, each.kind)]);
  }

  drawSpans(each, made, middle) {
    const { view, full } = this.timeline;
    const height = each.kind === "row" ? 12 : 10;
    let lastEnd = -1;
    return made.spans.filter((span) => span.to >= view.from && span.from <= view.to).map((span) => {
      const from = Math.max(this.gutter - 10, this.x(span.from));
      const to = Math.min(this.width + 4, this.x(Math.min(span.to, full.to + 1)));
      if (to - from < 0.4 && from - lastEnd < 0.4) return null;
      lastEnd = to;
      const item = each.kind === "row" ? { name: () => spanName(each.row, span), set: each.set, isSpan: true } : { name: span.name, cursor: span.cursor };
      return this.target(item, svg("rect", { class: `span ${span.kind}`, role: "img", "aria-label": each.kind === "row" ? KINDS[span.kind] : span.name,
        x: from, y: middle - height / 2, width: Math.max(1.5, to - from), height }));
    });
  }

  // The flushes of the chosen alert's groups, as small lines below its bar.
  flushes(each, middle) {
    if (each.kind !== "row" || each.set !== this.timeline.app.chosen) return null;
    each.flushTimes = each.flushTimes || flushTimes(each.row);
    const { view } = this.timeline;
    return each.flushTimes.filter((time) => time >= view.from && time <= view.to)
      .map((time) => svg("line", { class: "flush", x1: this.x(time), x2: this.x(time), y1: middle + 6, y2: middle + 10 }));
  }

  // Marks that are too near each other to be told apart are one, with their number.
  drawMarks(all, y, kind) {
    const ghosts = all.filter((each) => each.shape === "ghost");
    return [...(ghosts.length ? this.bunches(ghosts).map((bunch) => this.drawBunch(bunch, y + 3, kind)) : []),
      ...this.bunches(ghosts.length ? all.filter((each) => each.shape !== "ghost") : all).map((bunch, i, others) => this.drawBunch(bunch, y, kind, others[i + 1]))];
  }

  bunches(marks) {
    const { view } = this.timeline;
    const bunches = [];
    const end = firstFrom(marks, view.to + 1);
    for (let place = firstFrom(marks, view.from - (view.to - view.from) * 0.02); place < end; place += 1) {
      const x = this.x(marks[place].time);
      const last = bunches[bunches.length - 1];
      if (last && x - last.x < NEAR) last.marks.push(marks[place]);
      else bunches.push({ x, marks: [marks[place]] });
    }
    return bunches;
  }

  drawBunch({ x, marks }, y, kind, next) {
    const { app } = this.timeline;
    const here = marks.find((each) => each.cursor === app.cursor);
    const names = marks.slice(0, 8).map((each) => each.name());
    if (marks.length > 8) names.push(`and ${marks.length - 8} more`);
    const item = { name: names.join("\n"), cursor: (here || marks[0]).cursor };
    const isOne = marks.length === 1;
    const shape = isOne ? marks[0].shape : "bunch";
    const middle = isOne ? x : x + NEAR / 2 - 1;
    const room = (next ? next.x : this.width) - x - 14;
    const label = isOne && kind === "labels" && room > 12 ? svg("text", { class: "label-text", x: x + 10, y: y + 4 }, cut(marks[0].label, Math.max(1, Math.floor(room / 6.4)))) : null;
    return this.target(item, svg("g", { class: `mark ${shape}${here ? " here" : ""}`, role: "img", "aria-label": names.join("; ") },
      svg("rect", { class: "hit", x: middle - 8, y: y - 12, width: 16, height: 24 }), isOne ? shapeOf(shape, x, y) : bunchEl(middle, y, marks), label));
  }

  // Of a folded receiver, how many alerts have which verdict, in columns.
  density(each, middle) {
    const { view } = this.timeline;
    const columns = Math.max(1, Math.floor((this.width - this.gutter - 14) / COLUMN));
    const counts = columnsOf(each, view, columns);
    const height = Math.min(20, this.laneHeight - 4);
    const most = Math.max(1, each.most || (each.most = mostOf(each)));
    const bottom = middle + height / 2;
    const heights = new Float64Array(columns);
    const paths = Object.keys(counts).map((kind) => {
      let path = "";
      counts[kind].forEach((count, i) => {
        if (!count) return;
        const size = Math.max(0.7, (count / most) * height);
        path += `M${this.gutter + i * COLUMN} ${(bottom - heights[i]).toFixed(1)}h${COLUMN}v${-size.toFixed(1)}h${-COLUMN}z`;
        heights[i] += size;
      });
      return path && svg("path", { class: `span ${kind}`, d: path });
    });
    const item = { name: `${each.name}: ${many(each.rows.length, "alert")}, ${receiverText(each)}; at most ${most} at a time`, isSpan: true };
    return this.target(item, svg("g", { class: "density", role: "img", "aria-label": item.name }, paths));
  }
}

const rowName = (each) => {
  const [name, rest] = shortName(each.set);
  const integrations = each.name.slice(shortText(each.set).length);
  return [el("bdi", { class: "name" }, name, rest && el("span", { class: "quiet" }, ` ${rest}`), integrations && el("span", { class: "quiet" }, integrations))];
};

const spanName = (row, span) => `${shortText(row.set)} to ${seen(row.receiver)}\n${when(span.start)} to ${when(span.end)}: ${verdictText(span.verdict, row.run, span.from, row.set, span.muting)}`
  + span.also.map(({ verdict, muting }, i) => `\n${alsoWord(i)}${verdictText(verdict, row.run, span.from, row.set, muting)}`).join("") + (span.more ? `\nand ${many(span.more, "more reason")}` : "");

// How many rows of a receiver have a verdict of each kind in each column, by the column's middle.
function columnsOf(each, view, columns) {
  const counts = Object.fromEntries(Object.keys(KINDS).map((kind) => [kind, new Int32Array(columns + 1)]));
  const place = (time) => Math.min(columns, Math.max(0, Math.ceil(((time - view.from) / (view.to - view.from)) * columns - 0.5)));
  for (const { row } of each.rows) {
    for (const span of row.spans) {
      if (span.to < view.from || span.from > view.to) continue;
      counts[span.kind][place(span.from)] += 1;
      counts[span.kind][place(span.to)] -= 1;
    }
  }
  for (const list of Object.values(counts)) for (let i = 1; i < list.length; i += 1) list[i] += list[i - 1];
  return Object.fromEntries(Object.entries(counts).map(([kind, list]) => [kind, list.slice(0, columns)]));
}

// The greatest number of alerts that a receiver had at one time.
function mostOf(each) {
  const edges = each.rows.flatMap(({ row }) => row.spans.flatMap((span) => [[span.from, 1], [span.to, -1]])).sort((a, b) => a[0] - b[0] || a[1] - b[1]);
  let now = 0;
  let most = 0;
  for (const [, by] of edges) most = Math.max(most, now += by);
  return most;
}

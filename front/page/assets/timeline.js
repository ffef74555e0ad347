// The timeline: what is in sight of it, and how keys, wheel and pointer move it. drawing.js draws it.
const SHORTEST_VIEW = 20;
const NARROW = 620;
const MANY_ROWS = 120;

class Timeline {
  constructor(app) {
    this.app = app;
    this.laneAt = 0;
    this.markAt = -1;
    this.closed = new Set();
    this.drawing = new Drawing(this);
    this.scroll = el("div", { class: "lane-scroll", tabindex: "0", role: "application", "aria-label": "Timeline", "aria-describedby": "keys" }, this.drawing.parts);
    this.tip = el("div", { class: "tip", role: "tooltip", id: "tip", hidden: true });
    this.filter = el("input", { type: "search", id: "lane-filter", placeholder: "Filter alerts", "aria-label": "Filter the lanes of alerts and silences" });
    this.only = el("select", { id: "lane-only", "aria-label": "Which alerts" }, [["all", "all alerts"], ["never", "never notified"], ["chosen", "chosen alert"]]
      .map(([value, name]) => el("option", { value }, name)));
    this.count = el("span", { class: "quiet", "aria-live": "polite" });
    this.legend = el("div", { class: "legend" });
    const button = (label, name, act) => el("button", { type: "button", title: name, "aria-label": name, onclick: act }, label);
    this.root = el("section", { class: "timeline", id: "timeline", "aria-labelledby": "timeline-title" },
      el("div", { class: "bar" }, el("h2", { id: "timeline-title" }, "Timeline"), this.count,
        el("span", { class: "tools" }, this.filter, this.only, el("span", { class: "zoom" }, button("−", "Zoom out", () => this.zoom(1.6)),
          button("+", "Zoom in, about the cursor", () => this.zoom(1 / 1.6)), button("Whole", "Show the whole time", () => this.fit())))),
      this.scroll, this.tip, this.legend);
    this.listen();
  }

  // Shows a run, anew.
  show(run) {
    this.run = run;
    this.lanes = lanesOf(run);
    this.closed = new Set(run.rows.length > MANY_ROWS ? run.receivers.map(({ name }) => name) : []);
    this.laneAt = Math.max(0, this.lanes.findIndex((each) => each.kind === "receiver"));
    this.markAt = -1;
    const times = [...run.events.map((event) => millisecondsOf(event.now)), ...run.notes.map((note) => note.time)].filter((time) => time > 0);
    const from = times.length ? times.reduce((a, b) => Math.min(a, b)) : 0;
    const to = times.length ? times.reduce((a, b) => Math.max(a, b)) : 1000;
    const room = Math.max(1000, (to - from) * 0.03);
    this.full = { from: from - room, to: to + room };
    if (!this.view) this.view = { ...this.full };
    replace(this.legend, legend(run), el("p", { class: "quiet by-mouse" }, "Ctrl and wheel zoom, dragging moves."));
    this.draw();
  }

  fit() {
    this.look(this.full.from, this.full.to);
  }

  // Zooms about the cursor, or about a time.
  zoom(factor, about = this.app.time()) {
    const span = Math.min(this.full.to - this.full.from, Math.max(SHORTEST_VIEW, (this.view.to - this.view.from) * factor));
    const inSight = about >= this.view.from && about <= this.view.to;
    const share = inSight ? (about - this.view.from) / (this.view.to - this.view.from) : 0.5;
    this.hide();
    this.move(about - share * span, span);
  }

  // Moves the view, within what there is.
  move(from, span = this.view.to - this.view.from) {
    const start = Math.min(Math.max(from, this.full.from), this.full.to - span);
    this.look(start, start + span);
  }

  look(from, to) {
    this.view = { from, to };
    this.draw();
    this.app.writePlace();
  }

  get isWhole() {
    return this.view.from <= this.full.from && this.view.to >= this.full.to;
  }

  // Brings a time into view.
  reveal(time) {
    const span = this.view.to - this.view.from;
    if (time < this.view.from || time > this.view.to) this.move(time - span / 2);
  }

  draw() {
    if (this.waiting) return;
    this.waiting = true;
    requestAnimationFrame(() => {
      this.waiting = false;
      if (this.run) this.drawing.draw();
    });
  }

  // The lanes that pass the filter and aren't folded.
  visibleLanes() {
    const wanted = this.filter.value.trim().toLowerCase();
    const only = this.only.value;
    const fits = (each) => {
      if (each.kind === "row") {
        if (only === "never" && (this.app.sections.of(each.set) !== "nobody")) return false;
        if (only === "chosen" && each.set !== this.app.chosen) return false;
      }
      return !wanted || (each.kind !== "row" && each.kind !== "silence") || each.full.toLowerCase().includes(wanted);
    };
    const isNarrowed = wanted !== "" || only !== "all";
    const shown = this.lanes.filter(fits);
    const heads = new Set(shown.filter((each) => each.kind === "row").map((each) => each.row.receiver));
    return shown.filter((each) => {
      if (each.kind === "row") return isNarrowed || !this.closed.has(each.row.receiver);
      return each.kind !== "receiver" || !isNarrowed || heads.has(each.receiver);
    });
  }

  isFolded(each) {
    return this.closed.has(each.receiver) && !this.filter.value.trim() && this.only.value === "all";
  }

  fold(each) {
    if (!each.rows.length) return;
    if (!this.closed.delete(each.receiver)) this.closed.add(each.receiver);
    this.app.announce(`${each.name}: ${this.closed.has(each.receiver) ? "folded" : many(each.rows.length, "alert")}`);
    this.draw();
  }

  listen() {
    const { scroll } = this;
    scroll.addEventListener("scroll", () => this.draw());
    scroll.addEventListener("wheel", (event) => this.wheel(event), { passive: false });
    scroll.addEventListener("pointerdown", (event) => this.press(event));
    scroll.addEventListener("pointermove", (event) => this.hover(event));
    scroll.addEventListener("pointerleave", (event) => event.pointerType === "mouse" && this.hide());
    scroll.addEventListener("click", (event) => this.click(event));
    scroll.addEventListener("keydown", (event) => this.key(event));
    this.filter.addEventListener("input", () => this.draw());
    this.only.addEventListener("change", () => this.draw());
    new ResizeObserver(() => this.draw()).observe(scroll);
    window.addEventListener("beforeprint", () => this.drawing.drawAll());
    window.addEventListener("afterprint", () => this.draw());
  }

  // The wheel scrolls lanes and page as anywhere; with Ctrl it zooms, and sideways it moves.
  wheel(event) {
    const isSideways = Math.abs(event.deltaX) > Math.abs(event.deltaY);
    if (!event.ctrlKey && !event.metaKey && !isSideways) return;
    event.preventDefault();
    const box = this.scroll.getBoundingClientRect();
    if (isSideways) this.move(this.view.from + (event.deltaX / this.drawing.width) * (this.view.to - this.view.from));
    else this.zoom(Math.exp(Math.max(-1, Math.min(1, event.deltaY / 300))), this.drawing.timeOf(Math.max(this.drawing.gutter, event.clientX - box.left)));
  }

  press(event) {
    if (event.button !== 0) return;
    const start = { x: event.clientX, y: event.clientY, from: this.view.from, top: this.scroll.scrollTop };
    this.dragged = false;
    const move = (next) => {
      if (!this.dragged && Math.hypot(next.clientX - start.x, next.clientY - start.y) < 5) return;
      this.dragged = true;
      this.hide();
      this.scroll.scrollTop = start.top - (next.clientY - start.y);
      this.move(start.from - ((next.clientX - start.x) / (this.drawing.width - this.drawing.gutter)) * (this.view.to - this.view.from));
    };
    const end = () => {
      for (const [name, act] of [["pointermove", move], ["pointerup", end], ["pointercancel", end]]) window.removeEventListener(name, act);
    };
    for (const [name, act] of [["pointermove", move], ["pointerup", end], ["pointercancel", end]]) window.addEventListener(name, act);
  }

  targetOf(event) {
    const element = event.target.closest("[data-target]");
    return element && this.drawing.targets[Number(element.getAttribute("data-target"))];
  }

  hover(event) {
    if (event.pointerType !== "mouse") return;
    const target = this.dragged ? null : this.targetOf(event);
    if (!target) this.hide();
    else this.tell(target.name, event.clientX, event.clientY);
  }

  tell(name, x, y) {
    this.tip.textContent = typeof name === "function" ? name() : name;
    this.tip.hidden = false;
    const box = this.root.getBoundingClientRect();
    const left = Math.min(x - box.left + 12, box.width - this.tip.offsetWidth - 8);
    this.tip.style.left = `${Math.max(4, left)}px`;
    this.tip.style.top = `${y - box.top + 16}px`;
  }

  hide() {
    this.tip.hidden = true;
  }

  // A click chooses the alert, goes to the event, or folds a receiver. A tap also names what was tapped.
  click(event) {
    if (this.dragged) {
      this.dragged = false;
      return;
    }
    const target = this.targetOf(event);
    if (target && target.fold) this.fold(target.fold);
    if (target && target.set !== undefined) this.app.choose(target.set);
    if (target && target.cursor !== undefined) this.app.go(target.cursor);
    else if (!target || target.isSpan) this.goTo(event);
    if (target && event.pointerType !== "mouse") this.tell(target.name, event.clientX, event.clientY);
  }

  // Goes to the last event up to the place that was clicked.
  goTo(event) {
    const x = event.clientX - this.scroll.getBoundingClientRect().left;
    if (x > this.drawing.gutter) this.app.go(cursorAt(this.run, this.drawing.timeOf(x)));
  }

  key(event) {
    const acts = { ArrowUp: () => this.toLane(-1), ArrowDown: () => this.toLane(1), n: () => this.toMark(1), p: () => this.toMark(-1), Enter: () => this.enter(),
      "+": () => this.zoom(1 / 1.6), "=": () => this.zoom(1 / 1.6), "-": () => this.zoom(1.6), 0: () => this.fit(), Escape: () => this.hide() };
    const act = event.shiftKey && event.key.startsWith("Arrow") ? this.pan(event.key) : acts[event.key];
    if (!act || event.ctrlKey || event.metaKey || event.altKey) return;
    event.preventDefault();
    event.stopPropagation();
    act();
  }

  pan(key) {
    const share = { ArrowLeft: -0.15, ArrowRight: 0.15 }[key];
    return share ? () => this.move(this.view.from + share * (this.view.to - this.view.from)) : null;
  }

  // Chooses the alert of the lane, or folds its receiver.
  enter() {
    const each = this.drawing.lanes[this.laneAt];
    if (each && each.kind === "row") this.app.choose(each.set);
    else if (each && each.kind === "receiver") this.fold(each);
  }

  toLane(by) {
    const { lanes, laneHeight } = this.drawing;
    const place = this.laneAt + by;
    if (place < 0 || place >= lanes.length) return;
    this.laneAt = place;
    this.markAt = -1;
    const top = place * laneHeight;
    const height = this.scroll.clientHeight - axisHeight() - 4;
    if (top - laneHeight < this.scroll.scrollTop) this.scroll.scrollTop = top - laneHeight;
    if (top + laneHeight > this.scroll.scrollTop + height) this.scroll.scrollTop = top + laneHeight - height;
    this.app.announce(laneText(lanes[place]));
    this.draw();
  }

  // Goes to the next or the previous mark of the lane, from the cursor's time or from the mark that was named last.
  toMark(by) {
    const each = this.drawing.lanes[this.laneAt];
    if (!each) return;
    const { marks } = drawn(each);
    const now = this.app.time();
    if (this.markAt < 0) this.markAt = by > 0 ? firstFrom(marks, now + 0.5) - 1 : firstFrom(marks, now);
    const place = this.markAt + by;
    if (place < 0 || place >= marks.length) return;
    this.markAt = place;
    this.reveal(marks[place].time);
    this.app.go(marks[place].cursor, true);
    this.app.announce(marks[place].name());
    const box = this.scroll.getBoundingClientRect();
    this.tell(marks[place].name, box.left + this.drawing.x(marks[place].time), box.top + axisHeight() + this.laneAt * this.drawing.laneHeight - this.scroll.scrollTop + 14);
  }
}

function laneText(each) {
  const { marks, spans } = drawn(each);
  const count = each.kind === "receiver" ? receiverText(each) : `${many(marks.length, "mark")}, ${many(spans.length, "span")}`;
  return `${each.kind === "row" ? "alert" : each.kind} ${each.full || each.name}: ${count}`;
}

function receiverText({ rows, count }) {
  if (!rows.length && !count) return "no alert came";
  return count ? many(count, "notification") : "notified of nothing";
}

function firstFrom(marks, time) {
  let low = 0;
  let high = marks.length;
  while (low < high) {
    const middle = (low + high) >> 1;
    if (marks[middle].time < time) low = middle + 1;
    else high = middle;
  }
  return low;
}

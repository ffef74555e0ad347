// The configuration: routes as a numbered tree, rules, time intervals and receivers, as they are in force at the cursor.
const MANY_ROUTES = 60;

class ConfigView {
  constructor(app) {
    this.app = app;
    this.shown = null;
    this.root = el("section", { class: "card config", id: "config", "aria-labelledby": "config-title" });
  }

  draw() {
    const at = this.app.run.configAt(this.app.time());
    if (at !== this.shown) this.show(at);
    this.count();
  }

  show(at) {
    this.shown = at;
    const { config } = at;
    const since = at.time === -Infinity ? "" : `, as it was reloaded at ${when(at.at)}`;
    this.parts = new Map();
    this.counts = new Map();
    replace(this.root, el("h2", { id: "config-title" }, "Configuration", el("span", { class: "quiet" }, since)),
      config ? this.content(config) : el("p", { class: "quiet" }, "This page doesn't have it: it is too large."));
  }

  // How many alerts each route has at the cursor.
  count() {
    const time = this.app.time();
    const spans = this.app.run.rows.map((row) => [row, row.spanAt(time)]).filter(([, span]) => span);
    const alerts = groupedBy(spans, ([, span]) => span.verdict.route);
    for (const [route, element] of this.counts) {
      const count = new Set((alerts.get(route) || []).map(([row]) => row.set)).size;
      element.hidden = !count;
      element.textContent = `${many(count, "alert")} at the cursor`;
    }
  }

  content(config) {
    const part = (title, list, open) => list.length > 0 && el("details", { open }, el("summary", {}, el("b", {}, title), " ", el("span", { class: "count" }, list.length)), this.list(title, list));
    return [part("Routes", config.routes, config.routes.length <= MANY_ROUTES), part("Inhibition rules", config.rules, config.rules.length <= MANY_ROUTES),
      part("Time intervals", config.intervals, true), part("Receivers", config.receivers, false)];
  }

  list(title, list) {
    const item = { Routes: (each) => this.route(each), "Inhibition rules": (each) => this.rule(each), "Time intervals": (each) => this.interval(each), Receivers: (each) => this.receiver(each) }[title];
    return el("ol", { class: "tree" }, list.map(item));
  }

  keep(key, element) {
    element.setAttribute("tabindex", "-1");
    this.parts.set(key, element);
    return element;
  }

  route(route) {
    const waits = [["group_by", route.groupBy], ["group_wait", route.waits[0]], ["group_interval", route.waits[1]], ["repeat_interval", route.waits[2]]].filter(([, value]) => value !== null);
    const intervals = (names, word) => names.length > 0 && el("span", { class: "tag" }, word, " ", names.map((name, i) => [i > 0 && ", ",
      linkEl(() => this.reveal("interval", name), seen(name))]));
    const here = el("span", { class: "tag here" });
    this.counts.set(route.number, here);
    const item = el("li", { class: "route" }, el("span", { class: "number" }, route.number), el("div", {}, el("b", {}, el("bdi", {}, seen(route.receiver))), " ",
      el("bdi", { class: "mono" }, route.matchers.length ? cut(route.matchers.map(seen).join(", "), LONGEST) : "all alerts"), route.continues && el("span", { class: "tag" }, "continue"),
      intervals(route.mute, "muted by"), intervals(route.active, "active in"), here,
      waits.length > 0 && el("div", { class: "quiet" }, el("bdi", {}, waits.map(([key, value]) => `${key} ${Array.isArray(value) ? `[${value.map(seen).join(", ")}]` : seen(value)}`).join(", ")))));
    item.style.marginLeft = `${Math.min(route.level, 12) * 18}px`;
    return this.keep(`route ${route.number}`, item);
  }

  rule({ number, source, target, equal }) {
    const mono = (texts) => el("bdi", { class: "mono" }, texts.length ? cut(texts.map(seen).join(", "), LONGEST) : "any alert");
    return this.keep(`rule ${number}`, el("li", { class: "rule" }, el("span", { class: "number" }, number), el("div", {}, mono(source), " mutes ", mono(target),
      equal.length > 0 && [" with equal ", el("bdi", { class: "mono" }, equal.map(seen).join(", "))])));
  }

  interval({ name, text }) {
    return this.keep(`interval ${name}`, el("li", { class: "interval" }, el("b", {}, el("bdi", {}, seen(name))), " ", el("bdi", { class: "quiet" }, seen(text))));
  }

  receiver({ name, kinds }) {
    return el("li", {}, el("b", {}, el("bdi", {}, seen(name))), " ", el("bdi", { class: "quiet" }, kinds.length ? kinds.map(seen).join(", ") : "no integration"));
  }

  // Brings a part into sight: that of the configuration in force at a time, if it isn't the one that is shown.
  reveal(kind, what, time) {
    const { run } = this.app;
    if (time !== undefined && run.configAt(time) !== this.shown) this.app.go(cursorAt(run, time));
    this.draw();
    const element = this.parts && this.parts.get(`${kind} ${what}`);
    if (!element) return;
    for (let each = element; each; each = each.parentElement) if (each.tagName === "DETAILS") each.open = true;
    this.root.querySelectorAll(".found-part").forEach((each) => each.classList.remove("found-part"));
    element.classList.add("found-part");
    element.scrollIntoView({ block: "center" });
    element.focus({ preventScroll: true });
    this.app.announce(element.textContent);
  }
}

// A route by its receiver and matchers, from the root down.
function routeText(run, number, time) {
  const { config } = run.configAt(time);
  const route = config && config.routes[number];
  if (!route) return `route ${number}`;
  const texts = [];
  for (let each = route; each; each = each.parent >= 0 ? config.routes[each.parent] : null) if (each.matchers.length) texts.unshift(each.matchers.map(seen).join(", "));
  return `route ${number}${texts.length ? `: ${cut(texts.join(" > "), 160)}` : ", the root"}`;
}

const routeEl = (app, number, time) => linkEl(() => app.config.reveal("route", number, time), el("bdi", {}, routeText(app.run, number, time)));

// Making elements. Texts become text nodes, and never markup.
const SVG = "http://www.w3.org/2000/svg";

function filled(element, attributes, children) {
  for (const [name, value] of Object.entries(attributes || {})) {
    if (value === null || value === undefined || value === false) continue;
    if (name.startsWith("on")) element.addEventListener(name.slice(2), value);
    else element.setAttribute(name, value === true ? "" : value);
  }
  for (const child of children.flat(Infinity)) {
    if (child !== null && child !== undefined && child !== false) element.append(child);
  }
  return element;
}

const el = (tag, attributes, ...children) => filled(document.createElement(tag), attributes, children);
const svg = (tag, attributes, ...children) => filled(document.createElementNS(SVG, tag), attributes, children);

// A text of the incident, apart from the text around it, and cut if it is very long.
function quoted(text) {
  const whole_ = seen(text);
  if (whole_.length <= LONGEST) return el("bdi", {}, whole_);
  return el("bdi", { title: cut(whole_, 4000) }, whole_.slice(0, LONGEST), el("span", { class: "quiet" }, `… ${many(text.length, "character")}`));
}

// A label set: its alertname, and the others beside it.
function labelsEl(set) {
  const pairs = labelsOf(set);
  const name = pairs.find(([key]) => key === ALERT_NAME);
  return el("span", { class: "labels" },
    name && el("b", {}, quoted(name[1])), name && " ",
    pairs.filter((pair) => pair !== name).map(([key, value]) => [
      el("span", { class: "label" }, el("span", { class: "quiet" }, quoted(key), "="), quoted(value)), " "]),
    !pairs.length && el("span", { class: "quiet" }, "no labels"));
}

const matchersEl = (matchers) => el("span", { class: "labels" },
  matchers.map((matcher) => [el("span", { class: "label" }, quoted(matcher.name),
    OPERATORS[`${matcher.isEqual}${matcher.isRegex}`], quoted(matcher.value)), " "]),
  !matchers.length && el("span", { class: "quiet" }, "no matcher"));

// A text that does something, within a line: unlike a button it breaks as the text around it does, and can be copied with it.
const linkEl = (act, ...content) => el("a", { class: "link", role: "button", tabindex: "0", onclick: act, onkeydown: (event) => {
  if (event.key !== "Enter" && event.key !== " ") return;
  event.preventDefault();
  act();
} }, content);

const momentEl = (moment) => el("time", { datetime: moment, title: moment }, when(moment));

function replace(element, ...children) {
  element.replaceChildren(...children.flat(Infinity).filter((child) => child !== null && child !== undefined && child !== false));
}

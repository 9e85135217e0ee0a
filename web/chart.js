/* The last frames and replies, as arrows between this page and the device. */

const SVG = "http://www.w3.org/2000/svg";
const ROWS = 8;
const HEIGHT = 26;
const LEFT = 46;
const RIGHT = 314;
const TOP = 40;

function make(name, attributes, text) {
  const node = document.createElementNS(SVG, name);
  for (const [key, value] of Object.entries(attributes)) node.setAttribute(key, value);
  if (text !== undefined) node.textContent = text;
  return node;
}

/** What is written at an arrow, and how it is coloured. */
function told({ kind, text, length, isUsual }) {
  if (kind === "quiet") return ["nothing came", "quiet"];
  if (kind === "noise") return [`damaged, or no answer (${length} bytes)`, "bad"];
  if (kind === "block") return [`${text} (${length - 5} bytes)`, "frame"];
  return [text, text === "NAK" && !isUsual ? "bad" : kind === "cancel" || text.startsWith("CAN") ? "cancel" : kind === "eot" ? "frame" : "reply"];
}

export class Chart {
  #rows = [];
  #isNew = false;

  constructor(svg) {
    this.svg = svg;
    svg.setAttribute("viewBox", `0 0 360 ${TOP + ROWS * HEIGHT + 6}`);
  }

  clear() {
    this.#rows = [];
    this.#isNew = true;
    this.draw();
  }

  /** Takes a frame or a reply that went. */
  add(frame) {
    this.#rows.push(frame);
    if (this.#rows.length > ROWS) this.#rows.shift();
    this.#isNew = true;
  }

  draw() {
    if (!this.#isNew) return;
    this.#isNew = false;
    const end = TOP + ROWS * HEIGHT;
    const parts = [
      make("text", { x: LEFT, y: 16, class: "who" }, "this page"),
      make("text", { x: RIGHT, y: 16, class: "who" }, "the device"),
      make("line", { x1: LEFT, x2: LEFT, y1: 24, y2: end, class: "life" }),
      make("line", { x1: RIGHT, x2: RIGHT, y1: 24, y2: end, class: "life" }),
    ];
    this.#rows.forEach((row, at) => parts.push(this.#arrow(row, TOP + at * HEIGHT + 14)));
    this.svg.replaceChildren(...parts);
  }

  #arrow(row, y) {
    const [text, kind] = told(row);
    const group = make("g", { class: kind });
    group.append(make("text", { x: (LEFT + RIGHT) / 2, y: y - 5, class: "told" }, text));
    if (kind === "quiet") return group;
    const [from, to, back] = row.isOurs ? [LEFT, RIGHT, -7] : [RIGHT, LEFT, 7];
    group.append(make("line", { x1: from, x2: to, y1: y, y2: y }), make("path", { d: `M${to} ${y} l${back} -4 v8 z` }));
    return group;
  }
}

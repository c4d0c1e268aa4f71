// The drawing: SVG of what is visible, and nothing else.
import { AXIS, MOST_ROWS, SEPARATE } from "./layout.js";
import { FRESH, LOOKS, callName, endedBy } from "./model.js";
import { counted, cut, digits } from "./words.js";

const LETTER = 6.1;
const STRONG = ["fresh", "failed", "primed", "error"];
const tenth = (number) => Math.round(number * 10) / 10;

function svg(name, attributes, text = "") {
  const element = document.createElementNS("http://www.w3.org/2000/svg", name);
  for (const attribute in attributes) element.setAttribute(attribute, attributes[attribute]);
  element.textContent = text;
  return element;
}

/** Shapes of one plane: a path for each look, the worst and what is chosen above the others, and then texts. */
class Plane {
  paths = new Map(["back", "band", "link", "link on", "mark", ...LOOKS.flatMap((look) => [`${look} dim`, look])].map((look) => [look, []]));
  texts = [];

  line(look, points) {
    if (!this.paths.has(look)) this.paths.set(look, []);
    this.paths.get(look).push(points);
  }
  rect(look, x, y, width, height) {
    this.line(look, `M${tenth(x)} ${tenth(y)}h${tenth(width)}v${tenth(height)}h${-tenth(width)}z`);
  }
  text(look, x, y, text, width) {
    const place = { class: look, fill: `var(--${look === "lane" ? "front" : look})`, x: tenth(x), y: tenth(y) };
    if (width > 2 * LETTER) this.texts.push(svg("text", place, cut(text, Math.floor(width / LETTER))));
  }
  elements() {
    const drawn = [...this.paths].filter(([, lines]) => lines.length);
    return [...drawn.map(([look, lines]) => svg("path", { class: look, fill: `var(--${look.split(" ")[0]})`, d: lines.join("") })), ...this.texts];
  }
}

/** What an event does that has no keys. */
function eventWords({ call, reply }) {
  const name = callName(call);
  if (reply.refused) return `${name} refused`;
  if (name === "dispatch") return `send ${reply.sent.map((batch) => `b${batch}`).join(" ") || "none"}`;
  return endedBy(call) === undefined ? name : `${name} b${endedBy(call)}`;
}

export class Drawing {
  constructor(model, layout) { Object.assign(this, { model, layout }); }
  #x = (place) => this.layout.left + place * this.layout.scale - this.view.left;
  #y = (lane) => this.layout.lanesTop + lane.top - this.view.top;

  /** The elements for a view of this size, scrolled so far, with the parts of a choice brought out. */
  draw(view, parts) {
    const { layout, model } = this;
    Object.assign(this, { view, parts, low: new Plane(), high: new Plane(), ticks: [] });
    this.visible = new Set(layout.lanes.filter((lane) => this.#y(lane) < view.height && this.#y(lane) + lane.height > layout.lanesTop));
    const front = Math.max(Math.floor(view.left / layout.scale), 0);
    const back = Math.min(Math.ceil((view.left + view.width - layout.left) / layout.scale), model.events.length);
    for (const lane of this.visible) if (lane.number % 2 === 0) this.low.rect("band", 0, this.#y(lane), view.width, lane.height);
    for (let place = front; place < back; place++) {
      const lane = layout.laneOf.get(model.events[place].caller);
      if (layout.scale >= SEPARATE) this.#event(place, this.#x(place) + 1, this.#y(lane));
      else if (this.visible.has(lane)) this.#tick(place, lane, this.#y(lane));
    }
    for (const lane of this.visible) this.#answers(lane, front, back);
    this.high.rect("back", 0, 0, view.width, layout.lanesTop);
    this.#batches(front, back);
    this.#axis(front, back);
    return [...this.low.elements(), ...this.high.elements(), ...this.#names()];
  }

  /** The color of a text on a shape, which is faint if something else is chosen. */
  #ink = (look, isOn) => (STRONG.includes(look) && (isOn || !this.parts.places.size) ? "white" : "front");

  /** An event by itself. */
  #event(place, x, top) {
    const { layout, model } = this;
    const [event, round, y] = [model.events[place], model.rounds.get(place), top + layout.head];
    const [[first, end], width] = [model.usesOf(place), layout.scale - (layout.isReadable ? 2 : 1.5)];
    if (first === end) this.#box(LOOKS[model.looks[place]], x, y, width, this.parts.events.has(place), eventWords(event));
    else if (layout.isReadable) this.low.text("quiet", x + 1, top + 9, round ? `step ${round.answer.step}, round ${round.number}` : callName(event.call), width + 6);
    for (let use = first; use < end; use++) this.#use(use, use - first, end - first, x, y, width);
  }

  #use(use, index, count, x, top, width) {
    const { layout, model, low } = this;
    const row = Math.min(index, MOST_ROWS - 1);
    const [y, isOn] = [top + row * layout.keyRow, this.parts.uses.has(use)];
    if (model.uses.fate[use] === FRESH) {
      const end = layout.batchTop(model.batches[model.cells[model.uses.cell[use]].batch]) + layout.batchRow - 2;
      low.line(isOn ? "link on" : "link", `M${tenth(x + width - Math.min(width / 2, 1))} ${tenth(y)}V${tenth(end)}`);
    }
    const isCount = row === MOST_ROWS - 1 && count > MOST_ROWS;
    if (isCount && isOn) low.rect("ring", x, y, width, layout.keyRow - 2);
    if (isCount && index === row) this.#box("other", x, y, width, false, `+${digits(count - row)}`);
    if (!isCount) this.#box(model.look(use), x, y, width, isOn, model.keys[model.uses.key[use]].text);
  }

  #box(look, x, y, width, isOn, words) {
    const height = this.layout.keyRow - 2;
    if (isOn) this.low.rect("ring", x, y, width, height);
    this.low.rect(isOn ? look : `${look} dim`, x, y, width, height);
    if (this.layout.isReadable) this.low.text(this.#ink(look, isOn), x + 4, y + height / 2, words, width - 6);
  }

  /** Events that share a pixel, where you see the worst that came of their keys. */
  #tick(place, lane, top) {
    const { layout, model, low } = this;
    const [pixel, worst, rows, isOn] = [Math.floor(this.#x(place)), model.looks[place], layout.taken[place], this.parts.places.has(place)];
    const last = this.ticks[lane.number];
    if (last?.pixel === pixel && last.worst >= worst && last.rows >= rows && last.isOn >= isOn) return;
    this.ticks[lane.number] = { pixel, worst, rows, isOn };
    const width = Math.max(layout.scale, 1);
    if (isOn) low.rect("mark", pixel, top, Math.max(width, 2), lane.height);
    low.rect(isOn ? LOOKS[worst] : `${LOOKS[worst]} dim`, pixel, top + layout.head, width, rows * layout.keyRow - 1);
  }

  /** An answer is where its plan has it: at the end of the last batch that it waited for. */
  #answers(lane, front, back) {
    const { layout, low, model } = this;
    const visible = (model.plans[lane.caller] ?? []).filter(({ known }) => known >= front && known < back);
    for (const [place, answers] of Map.groupBy(visible, ({ known }) => known)) {
      const fault = answers.find(({ error }) => error);
      const words = answers.length > 1 ? counted(answers.length, "step") : `step ${answers[0].step}${fault ? `: ${fault.error.text}` : ""}`;
      const [x, y, room] = [this.#x(place), this.#y(lane), model.events[place + 1]?.caller === lane.caller ? 1 : 1.9];
      if (layout.isReadable) low.text(fault ? "bad" : "good", x + 2, y + 9, `${fault ? "✗" : "✓"} ${words}`, layout.scale * room);
      else if (fault) low.rect("failed", x, y, Math.max(layout.scale - 1, 2), 3);
    }
  }

  #batches(front, back) {
    const { layout, model, view, high } = this;
    const [drawn, height] = [new Map(), Math.max(layout.batchRow - 2, 1)];
    for (const batch of model.batches) {
      const [end, y, isOn] = [layout.batchEnd(batch), layout.batchTop(batch), this.parts.batches.has(batch.number)];
      if (end < front || batch.begun > back) continue;
      const x = Math.max(this.#x(batch.begun) + 1, layout.left - 5);
      const width = Math.max(Math.min(this.#x(end) - 1, view.width + 5) - x, 1);
      if (!isOn && drawn.get(y) === Math.floor(x + width)) continue;
      drawn.set(y, Math.floor(x + width));
      if (isOn) high.rect("ring", x, y, width, height);
      high.rect(isOn ? batch.state : `${batch.state} dim`, x, y, width, height);
      if (height < 12 || width < 30) continue;
      const keys = batch.cells.slice(0, 60).map((cell) => model.keys[model.cells[cell].key].text).join(" ");
      const words = cut(`b${batch.number} · ${counted(batch.cells.length, "key")}: ${keys}`, Math.floor((width - 12) / LETTER));
      high.text(this.#ink(batch.state, isOn), Math.max(x, layout.left) + 5, y + height / 2, words, Infinity);
    }
  }

  #axis(front, back) {
    const power = 10 ** Math.max(Math.floor(Math.log10(70 / this.layout.scale)), 0);
    const step = [1, 2, 5, 10].map((times) => times * power).find((one) => one * this.layout.scale >= 70);
    for (let place = Math.ceil(front / step) * step; place < back; place += step) {
      this.high.line("rule", `M${tenth(this.#x(place))} ${AXIS - 4}v4`);
      this.high.text("quiet", this.#x(place) + 3, AXIS / 2, digits(place), 70);
    }
  }

  /** The column with the names of lanes, above all else. */
  #names() {
    const { layout, model, view } = this;
    const [low, high] = [new Plane(), new Plane()];
    for (const lane of this.visible) {
      low.rect(lane.number % 2 ? "back" : "band", 0, this.#y(lane), layout.left, lane.height);
      low.text("lane", 8, this.#y(lane) + 11, model.callerName(lane.caller), layout.left);
    }
    high.rect("back", 0, 0, layout.left, layout.lanesTop);
    high.text("quiet", 8, AXIS / 2, "events", layout.left);
    if (model.batches.length) high.text("lane", 8, AXIS + 14, "batches", layout.left);
    high.line("rule", `M${layout.left} 0V${view.height}M0 ${layout.lanesTop}H${view.width}`);
    return [...low.elements(), ...high.elements()];
  }
}

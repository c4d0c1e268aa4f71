// The page: it reads the history, and draws again whenever you scroll, zoom or choose.
import { details } from "./details.js";
import { el } from "./dom.js";
import { Drawing } from "./drawing.js";
import { Layout } from "./layout.js";
import { LOOKS, Model } from "./model.js";
import { callerNumbers, tableNumbers, totals } from "./numbers.js";
import { picture, save, trace } from "./save.js";
import { search } from "./search.js";
import { chosen, nameOf, partsOf } from "./selection.js";
import { headline, summary } from "./summary.js";
import { parsed } from "./words.js";

/** Up to this many events you first see them wide enough to read keys. */
const [FEW, WIDE] = [60, 96];
const $ = (id) => document.getElementById(id);
const [scroller, drawing] = [$("scroller"), $("drawing")];
const model = new Model(parsed($("history").textContent));
const layout = new Layout(model);
const artist = new Drawing(model, layout);
const [tables, callers] = [tableNumbers(model), callerNumbers(model)];
const numbers = { tables, callers, all: totals(model, tables) };

const view = () => ({ left: scroller.scrollLeft, top: scroller.scrollTop, width: scroller.clientWidth, height: scroller.clientHeight });
const fit = () => layout.fit(scroller.clientWidth);
let [choice, parts, isDue, isFit] = [null, partsOf(model, null), 0, model.events.length > FEW || fit() > 80];

function draw() {
  isDue = 0;
  for (const side of ["width", "height"]) drawing.setAttribute(side, view()[side]);
  drawing.classList.toggle("chosen", choice !== null);
  drawing.replaceChildren(...artist.draw(view(), parts));
}
const drawSoon = () => { isDue ||= requestAnimationFrame(draw); };

/** Where in the view you see something of your choice, if you do. */
function chosenAt() {
  const { left, width } = view();
  const xs = [...parts.places].map((place) => layout.left + (place + 0.5) * layout.scale - left);
  return xs.find((x) => x > layout.left && x < width);
}

/** Gives events this width. What is at this place of the view stays there. */
function zoom(scale, x = chosenAt() ?? scroller.clientWidth / 2) {
  const place = (x - layout.left + scroller.scrollLeft) / layout.scale;
  isFit = scale === fit();
  layout.lay(scroller.clientWidth, innerHeight * 0.7, scale);
  Object.assign($("canvas").style, { width: `${layout.width}px`, height: `${layout.height}px` });
  scroller.scrollLeft = place * layout.scale - x + layout.left;
  drawSoon();
}
const refit = () => zoom(isFit ? fit() : layout.scale);

/** Scrolls until an event is in view. */
function show(place) {
  const { top, width, height } = view();
  const [lane, room] = [layout.laneOf.get(model.events[place].caller), height - layout.lanesTop];
  if (chosenAt() === undefined) scroller.scrollLeft = place * layout.scale - (width - layout.left) / 2;
  if (lane.top < top || lane.top + lane.height > top + room) scroller.scrollTop = lane.top - Math.max(room - lane.height, 0) / 2;
}

function choose() {
  choice = chosen(model, location.hash);
  parts = partsOf(model, choice);
  $("details").hidden = choice === null;
  $("details").replaceChildren(...(choice ? details(model, choice, parts, numbers) : []));
  refit();
  if (parts.places.size && (chosenAt() === undefined || choice.kind === "event")) show([...parts.places].reduce((a, b) => Math.min(a, b)));
}
const go = (next) => { location.hash = next ? `${next.kind}-${next.number}` : "none"; };

/** Goes to the next event in a direction, of any caller or of the same. */
function step(direction, isSame) {
  const here = choice?.kind === "event" ? choice.number : direction > 0 ? -1 : model.events.length;
  const isOther = (place) => isSame && model.events[here] && model.events[place].caller !== model.events[here].caller;
  let next = here + direction;
  while (model.events[next] && isOther(next)) next += direction;
  if (model.events[next]) go({ kind: "event", number: next });
}

/** What is below the pointer. */
function below({ clientX, clientY }) {
  const { left, top } = scroller.getBoundingClientRect();
  return layout.at(clientX - left - 1, clientY - top - 1, view());
}

const KEYS = {
  ArrowLeft: (event) => step(-1, event.shiftKey), ArrowRight: (event) => step(1, event.shiftKey), Escape: () => go(null),
  "+": () => zoom(layout.scale * 1.5), "=": () => zoom(layout.scale * 1.5), "-": () => zoom(layout.scale / 1.5), 0: () => zoom(fit()),
};
const HEARD = {
  scroll: drawSoon, click: (event) => go(below(event)),
  pointermove(event) { const target = below(event); scroller.title = target ? nameOf(model, target) : ""; },
  wheel(event) {
    if (!event.ctrlKey && !event.metaKey) return;
    event.preventDefault();
    zoom(layout.scale * 1.0015 ** -event.deltaY, event.clientX - scroller.getBoundingClientRect().left);
  },
  keydown(event) {
    if (event.ctrlKey || event.metaKey || event.altKey || !KEYS[event.key]) return;
    event.preventDefault();
    KEYS[event.key](event);
  },
};
const BUTTONS = {
  "zoom-in": KEYS["+"], "zoom-out": KEYS["-"], fit: KEYS[0],
  "save-svg": () => save("history.svg", "image/svg+xml", picture(drawing)),
  "save-trace": () => save("history.trace.json", "application/json", trace(model)),
};

for (const name in HEARD) scroller.addEventListener(name, HEARD[name], { passive: name === "scroll" });
for (const name in BUTTONS) $(name).addEventListener("click", BUTTONS[name]);
$("search").addEventListener("input", () => search(model, $("search"), $("found")));
$("search").addEventListener("keydown", ({ key }) => { if (key === "Enter") $("found").querySelector("a")?.click(); });
document.addEventListener("click", ({ target }) => { if (!target.closest("search") || target.closest("a")) $("found").hidden = true; });
addEventListener("hashchange", choose);
addEventListener("resize", refit);

const looks = LOOKS.toReversed().filter((look) => model.uses.fate.some((_, use) => model.look(use) === look));
$("legend").append(...looks.map((look) => el("li", { style: `--look: var(--${look})` }, look)));
$("total").append(...headline(numbers.all));
$("summary").append(...summary(model, numbers));
layout.scale = WIDE;
choose();

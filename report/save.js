// What you save: the drawing as it is, and the history as a trace in the Trace Event Format.
import { FATES, callName, endedBy } from "./model.js";

export const save = (name, type, text) =>
  Object.assign(document.createElement("a"), { download: name, href: URL.createObjectURL(new Blob([text], { type })) }).click();

/** The drawing as a file of its own, in the colors that you see. */
export function picture(drawing) {
  const copy = drawing.cloneNode(true);
  const names = ["fill", "stroke", "stroke-width", "stroke-opacity", "opacity", "font", "dominant-baseline"];
  [...drawing.children].forEach((one, at) => names.forEach((name) => { copy.children[at].style[name] = getComputedStyle(one)[name]; }));
  copy.style.background = getComputedStyle(document.documentElement).backgroundColor;
  return new XMLSerializer().serializeToString(copy);
}

/** The trace. There is no clock: an event takes a microsecond, and begins at its place. */
export function trace(model) {
  const { events, keys, uses, cells, batches } = model;
  const traceEvents = [];
  const add = (ph, name, caller, args, more) => traceEvents.push({ ph, name, pid: 1, tid: caller + 1, args, ...more });
  add("M", "process_name", 0, { name: "requests" });
  for (const caller of model.callers) add("M", "thread_name", caller, { name: model.callerName(caller) });
  events.forEach(({ caller, call, reply }, ts) => {
    const batch = endedBy(call);
    const ends = (number) => ({ ts, cat: "batch", id: `${number}` });
    add("X", callName(call), caller, { ...(batch >= 0 && { batch }), ...(reply.refused && { refused: reply.refused }) }, { ts, cat: "call", dur: 1 });
    if (reply.refused) return;
    for (let [use, end] = model.usesOf(ts); use < end; use++) {
      const [fate, cell] = [FATES[uses.fate[use]], uses.cell[use]];
      const place = { ...(cell >= 0 && { cell }), ...(fate === "fresh" && { batch: cells[cell].batch }) };
      add("i", fate, caller, { key: keys[uses.key[use]].pair, ...place }, { ts, cat: "key", s: "t" });
    }
    const keysOf = (number) => batches[number].cells.map((cell) => keys[cells[cell].key].pair);
    for (const number of reply.sent ?? []) add("b", `batch ${number}`, caller, { keys: keysOf(number) }, ends(number));
    if (batch >= 0) add("e", `batch ${batch}`, caller, { end: batches[batch].state }, ends(batch));
  });
  return JSON.stringify({ traceEvents });
}

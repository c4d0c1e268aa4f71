// The search for tables, keys, errors, callers, batches and events.
import { data, el } from "./dom.js";
import { nameOf } from "./selection.js";
import { digits } from "./words.js";

/** What a text finds: the batch, event or caller of that name, and the tables, errors and keys whose names have it. */
function found(model, wanted) {
  const kinds = { table: model.tables, error: model.errors, key: model.keys };
  const callers = model.callers.map((number) => ({ kind: "caller", number })).filter((one) => nameOf(model, one) === wanted);
  const [, kind, number] = /^(batch|event) ?(\d+)$/.exec(wanted) ?? [];
  const named = (kind === "batch" ? model.batches : model.events)[number] ? [{ kind, number: Number(number) }] : [];
  const has = ([of, all]) => all.filter(({ text }) => text.toLowerCase().includes(wanted)).map((one) => ({ kind: of, number: one.number }));
  return [...named, ...callers, ...Object.entries(kinds).flatMap(has)];
}

/** Fills the list below the field. */
export function search(model, { value }, list) {
  const wanted = value.trim().toLowerCase();
  const all = wanted ? found(model, wanted) : [];
  const item = (one) => el("li", {}, el("a", { href: `#${one.kind}-${one.number}` }, data(nameOf(model, one)), el("span", { className: "quiet" }, one.kind)));
  const rest = all.length > 30 ? `and ${digits(all.length - 30)} more` : all.length ? "" : "Nothing has this text.";
  list.hidden = !wanted;
  list.replaceChildren(...all.slice(0, 30).map(item), rest);
}

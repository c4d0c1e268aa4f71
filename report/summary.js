// The numbers of all, and the tables of errors, answers, tables of keys and callers.
import { data, el, link, table, value } from "./dom.js";
import { sum } from "./numbers.js";
import { counted, digits } from "./words.js";

const column = (name, by = (row) => row[name], show = undefined) => ({ name, by, show });
const text = (name, by, show = by) => column(name, by, show);
const counts = (...names) => names.map((name) => column(name));
const total = (rows, names) => ["all", ...names.map((name) => digits(sum(rows, name)))];
const GOOD = { calls: "call", loads: "load", hits: "hit", fetched: "fetched key", batches: "batch" };
const BAD = { failed: "failed batch", errors: "error", refused: "refusal" };
const OF_KEYS = ["keys", "loads", "hits", "fetched", "errors", "failed"];

/** What a plan answers at a step: a value, or a fault with its key and the place in the term where it arose. */
export function answerNodes({ error, key, at, value: given }) {
  if (!error) return value(given);
  const where = [key ? [" of ", link("key", key.number, key.text)] : "", at ? [" at ", el("code", {}, at)] : ""];
  return [el("span", { className: "bad" }, "fault "), link("error", error.number, error.text), where];
}

/** The line at the head of the page. What is wrong counts only if there is some. */
export function headline(all) {
  const span = (className) => ([name, thing]) => el("span", { dataset: { name }, className }, counted(all[name], thing));
  return [...Object.entries(GOOD).map(span("")), ...Object.entries(BAD).filter(([name]) => all[name]).map(span("bad"))];
}

export function summary(model, { tables, callers, all }) {
  const { history } = model;
  const ofCallers = ["calls", ...(history.plans ? ["rounds"] : []), "loads", "hits", "fetched", "alone", "ended", "failed"];
  const answers = model.plans.flat();
  const callerLink = (caller) => link("caller", caller, model.callerName(caller));
  const own = (history.tableLimits ?? []).map(([name, most]) => [", ", data(name), ` up to ${digits(most)}`]);
  const limits = ["maxBatchSize", "maxCells", "maxCalls"].map((name) => `${name} ${digits(history[name])}`);
  return [
    model.errors.length && table("Errors", [
      text("error", (error) => error.text, (error) => link("error", error.number, error.text)), text("kind", ({ kind }) => kind),
      column("keys", ({ cells }) => cells.length), column("batches", ({ batches }) => batches.length),
      column("answers", (error) => error.answers.length), column("calls", ({ events }) => events.length),
    ], model.errors),
    answers.length && table("Answers", [
      text("plan", ({ plan }) => plan, ({ plan }) => callerLink(plan)), ...counts("step", "rounds"),
      text("answer", ({ error }) => error?.text ?? "", answerNodes),
    ], answers),
    tables.length && table("Tables of keys", [
      text("table", (row) => row.table.text, (row) => link("table", row.table.number, row.table.text)), ...counts(...OF_KEYS, "batches"),
      column("keys per batch", ({ fetched, batches }) => fetched / batches || 0),
    ], tables, [...total(tables, OF_KEYS), digits(all.batches), digits(all.fetched / all.batches || 0)]),
    table("Callers", [text("caller", ({ caller }) => caller, ({ caller }) => callerLink(caller)), ...counts(...ofCallers)],
      callers, total(callers, ofCallers)),
    el("p", { id: "alone" }, `Fetched: ${counted(all.fetched, "key")}. Each caller alone: ${counted(sum(callers, "alone"), "key")}.`),
    el("p", { className: "quiet" }, `Limits: ${limits.join(", ")}${history.tableLimits ? "; each batch of one table" : ""}`, own),
  ].filter(Boolean);
}

// The numbers of a history: of each table of keys, of each caller, and of all.
import { CLEARED, FRESH, HIT, PRIMED, endedBy } from "./model.js";

const isLoad = (fate) => fate === FRESH || fate === HIT;
const tally = (row, fate) => { row.loads += isLoad(fate); row.hits += fate === HIT; row.fetched += fate === FRESH; };
export const sum = (rows, name) => rows.reduce((total, row) => total + row[name], 0);

/** Of each table: how many keys, loads and hits it has, how many batches have keys of it, and how many of its cells are errors or failed. */
export function tableNumbers({ tables, keys, uses, cells, batches }) {
  const rows = tables.map((table) => ({ table, keys: table.keys.length, loads: 0, hits: 0, fetched: 0, errors: 0, failed: 0, batches: 0 }));
  const rowOf = (key) => rows[keys[key].table.number];
  uses.fate.forEach((fate, use) => tally(rowOf(uses.key[use]), fate));
  for (const batch of batches) for (const row of new Set(batch.cells.map((cell) => rowOf(cells[cell].key)))) row.batches++;
  for (const { key, look } of cells) if (look) rowOf(key)[look === "error" ? "errors" : "failed"]++;
  return rows;
}

/** Of each caller: its calls, rounds, loads and hits, the keys that it had fetched, those that it alone would have, and its ends of batches. */
export function callerNumbers(model) {
  const { uses, cells } = model;
  // Own are the keys that a loader of the caller alone would hold, by the cells that they have here.
  const none = { calls: 0, rounds: 0, loads: 0, hits: 0, fetched: 0, alone: 0, ended: 0, failed: 0 };
  const rows = model.callers.map((caller) => ({ caller, ...none, own: new Map() }));
  const rowOf = new Map(rows.map((row) => [row.caller, row]));
  const forget = (cell) => { for (const { own } of rows) if (own.get(cells[cell].key) === cell) own.delete(cells[cell].key); };
  for (const { answer } of model.rounds.values()) rowOf.get(answer.plan).rounds++;
  model.events.forEach(({ caller, call, reply }, place) => {
    const [row, batch] = [rowOf.get(caller), reply.refused ? undefined : model.batches[endedBy(call)]];
    row.calls++;
    if (batch) row[batch.state === "failed" ? "failed" : "ended"]++;
    if (batch?.state === "failed") batch.cells.forEach(forget);
    if (call.clearAll) row.own.clear();
    for (let [use, end] = model.usesOf(place); use < end && !reply.refused; use++) {
      const [key, fate] = [uses.key[use], uses.fate[use]];
      tally(row, fate);
      row.alone += isLoad(fate) && !row.own.has(key);
      if (fate === CLEARED) row.own.delete(key);
      else if (!row.own.has(key)) row.own.set(key, isLoad(fate) || fate === PRIMED ? uses.cell[use] : -1);
    }
  });
  return rows.map(({ own, ...row }) => row);
}

export function totals({ events, batches }, tables) {
  const [loads, hits, fetched, errors] = ["loads", "hits", "fetched", "errors"].map((name) => sum(tables, name));
  const [failed, refused] = [batches.filter(({ state }) => state === "failed").length, events.filter(({ reply }) => reply.refused).length];
  return { calls: events.length, loads, hits, fetched, batches: batches.length, failed, errors, refused };
}

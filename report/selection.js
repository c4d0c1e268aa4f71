// What you have chosen: a key, a batch, a caller, an event, a table or an error. The address has it after #.
import { endedBy } from "./model.js";

const LISTS = { key: "keys", batch: "batches", event: "events", table: "tables", error: "errors" };

/** What the address chooses, or null. */
export function chosen(model, hash) {
  const [, kind, digits] = /^#(key|batch|event|table|error|caller)-(\d+)$/.exec(hash) ?? [];
  const number = Number(digits);
  return (kind === "caller" ? model.callers.includes(number) : model[LISTS[kind]]?.[number]) ? { kind, number } : null;
}

export const nameOf = (model, { kind, number }) =>
  (kind === "caller" ? model.callerName(number) : model[LISTS[kind]][number].text ?? `${kind} ${number}`);

/** What belongs to a choice: uses of keys, events, the batches of both, and the places of all. */
export function partsOf({ uses, events, cells, keys, batches, errors }, choice) {
  const { kind, number } = choice ?? {};
  const error = kind === "error" ? errors[number] : { cells: [], batches: [], events: [] };
  const [errorCells, errorBatches] = [new Set(error.cells), new Set(error.batches)];
  const batchOf = (use) => cells[uses.cell[use]]?.batch;
  const isPart = {
    key: (use) => uses.key[use] === number, table: (use) => keys[uses.key[use]].table.number === number, batch: (use) => batchOf(use) === number,
    event: (use) => uses.place[use] === number, caller: (use) => events[uses.place[use]].caller === number,
    error: (use) => errorCells.has(uses.cell[use]) || errorBatches.has(batchOf(use)),
  }[kind] ?? (() => false);
  const own = [...uses.key.keys()].filter(isPart);
  const ends = (batch) => [batches[batch].sent, batches[batch].ended].filter((place) => place >= 0);
  const places = {
    batch: () => ends(number), event: () => [number], error: () => [...error.events, ...error.batches.flatMap(ends)],
    caller: () => [...events.keys()].filter((place) => events[place].caller === number),
  }[kind]?.() ?? [];
  const touched = kind === "batch" ? [number] : places.flatMap((place) => [endedBy(events[place].call), ...(events[place].reply.sent ?? [])]);
  const sets = { uses: own, events: places, batches: [...own.map(batchOf), ...touched], places: [...own.map((use) => uses.place[use]), ...places] };
  return Object.fromEntries(Object.entries(sets).map(([name, all]) => [name, new Set(all)]));
}

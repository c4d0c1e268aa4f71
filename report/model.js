// The model of a history: its keys, cells, batches, errors and rounds, each by its number.
import { faultWords, shown } from "./words.js";

/** What becomes of a key in a call. */
export const FATES = ["fresh", "hit", "primed", "kept", "cleared", "refused"];
export const [FRESH, HIT, PRIMED, KEPT, CLEARED, REFUSED] = FATES.keys();
/** How an event or a key may look, the worst last. */
export const LOOKS = ["other", "settled", "hit", "kept", "cleared", "primed", "fresh", "refused", "error", "failed"];

export const callName = (call) => Object.keys(call)[0];
/** The number of the batch that a call ends, if it ends one. */
export const endedBy = ({ settle, fail }) => (settle ?? fail)?.[0] ?? settle ?? fail;

/** The keys of a call, each a pair of a table and an id. */
function keysOf({ load, loadMany, prime, clear }) {
  const key = load ?? clear ?? (Array.isArray(prime?.[0]) ? prime[0] : prime);
  return loadMany ?? (key ? [key] : []);
}

/** What a map has by a name. What isn't there is made, and gets a number of the list. */
function had(map, name, list, make) {
  if (!map.has(name)) map.set(name, list[list.push({ number: list.length, ...make() }) - 1]);
  return map.get(name);
}

export class Model {
  tables = []; keys = []; cells = []; batches = []; errors = [];
  /** The uses of keys, in the order of events: the place, the key, its fate, and its cell or -1. */
  uses = { place: [], key: [], fate: [], cell: [] };
  /** The round of a load, by its place: the answer that it leads to, and its number in that step. */
  rounds = new Map();
  #names = { tables: new Map(), keys: new Map(), errors: new Map() };
  #firstUse = [];
  /** The first use of an event, and that of the next. */
  usesOf = (place) => [this.#firstUse[place], this.#firstUse[place + 1]];
  /** How a use looks: as its outcome, if that is an error, and else as its fate. */
  look = (use) => this.cells[this.uses.cell[use]]?.look ?? FATES[this.uses.fate[use]];

  constructor(history) {
    Object.assign(this, { history, events: history.events });
    this.events.forEach((event, place) => this.#add(event, place));
    this.#firstUse.push(this.uses.place.length);
    const served = history.plans ? history.plans.length + history.workers : 0;
    this.callers = [...new Set([...Array(served).keys(), ...this.events.map(({ caller }) => caller)])].sort((a, b) => a - b);
    this.plans = (history.plans ?? []).map((answers, plan) => this.#placed(answers, plan));
    this.looks = this.events.map((event, place) => this.#worst(event, place));
  }

  callerName(caller) {
    const plans = this.history.plans?.length;
    return plans === undefined ? `caller ${caller}` : caller < plans ? `plan ${caller}` : `worker ${caller - plans}`;
  }

  /** A key by its pair. */
  key(pair) {
    const [name, id] = pair;
    const table = had(this.#names.tables, name, this.tables, () => ({ text: shown(name), keys: [] }));
    return had(this.#names.keys, JSON.stringify(pair), this.keys, () => {
      table.keys.push(this.keys.length);
      return { table, pair, text: `${table.text}/${shown(id)}` };
    });
  }

  /** What a cell ended with: its kind, and its value or text. */
  outcome({ begun, batch, member }) {
    const end = batch < 0 ? begun : this.batches[batch].ended;
    if (end < 0) return { kind: "waits" };
    const { prime, settle, fail } = this.events[end].call;
    if (fail !== undefined) return { kind: "failed", text: faultWords(fail[1]) };
    const { value, error, failed } = (prime ? prime[1] : settle[1]?.[member]) ?? {};
    if (value !== undefined) return { kind: "value", value };
    if (error !== undefined) return { kind: "error", text: error };
    return failed ? { kind: "failed", text: faultWords(failed) } : { kind: "unknown" };
  }

  #worst({ call, reply }, place) {
    const looks = { settle: "settled", fail: "failed", clearAll: "cleared" };
    let worst = LOOKS.indexOf(reply.refused ? "refused" : looks[callName(call)] ?? "other");
    for (let [use, end] = this.usesOf(place); use < end; use++) worst = Math.max(worst, LOOKS.indexOf(this.look(use)));
    return worst;
  }

  #add({ call, reply }, place) {
    this.#firstUse.push(this.uses.place.length);
    keysOf(call).forEach((pair, at) => this.#use(place, this.key(pair).number, reply.many?.[at] ?? reply, call));
    if (reply.refused) return this.#note("refused call", reply.refused, "events", place);
    for (const number of reply.sent ?? []) this.batches[number].sent = place;
    const batch = this.batches[endedBy(call)];
    if (!batch) return;
    Object.assign(batch, { ended: place, state: call.settle === undefined ? "failed" : "settled" });
    for (const cell of batch.cells) this.#end(this.cells[cell]);
    if (batch.state === "failed") this.#note("failed batch", faultWords(call.fail[1]), "batches", batch.number);
  }

  #use(place, key, reply, { clear }) {
    const [number, batch = -1] = reply.fresh ?? [reply.primed ?? reply.hit ?? -1];
    const name = FATES.find((fate) => reply[fate] !== undefined) ?? (clear ? "cleared" : "kept");
    if (reply.fresh) this.batches[batch] ??= { number: batch, begun: place, cells: [], sent: -1, ended: -1, state: "open" };
    const member = reply.fresh ? this.batches[batch].cells.push(number) - 1 : 0;
    if (reply.fresh || name === "primed") this.cells[number] = { number, key, begun: place, batch, member };
    if (name === "primed") this.#end(this.cells[number]);
    const use = { place, key, fate: FATES.indexOf(name), cell: number };
    for (const list in use) this.uses[list].push(use[list]);
  }

  #end(cell) {
    const { kind, text } = this.outcome(cell);
    if (kind === "error" || kind === "failed") cell.look = kind;
    const isNoted = cell.look && this.batches[cell.batch]?.state !== "failed";
    if (isNoted) this.#note(kind === "error" ? "error of a key" : "failed batch", text, "cells", cell.number);
  }

  /** Notes what has an error, and gives the error. */
  #note(kind, text, list, member) {
    const none = { cells: [], batches: [], answers: [], events: [] };
    const error = had(this.#names.errors, `${kind} ${text}`, this.errors, () => ({ kind, text: shown(text) || "(no text)", ...none }));
    error[list].push(member);
    return error;
  }

  /** The answers of a plan with the places of their rounds, and where the plan has each: -1 before its first round. */
  #placed(answers, plan) {
    const loads = this.events.flatMap(({ caller, call }, place) => (caller === plan && call.loadMany ? place : []));
    let known = -1;
    return answers.map((given) => {
      const answer = { ...given, plan };
      const places = loads.splice(0, given.rounds);
      places.forEach((place, at) => this.rounds.set(place, { answer, number: at + 1 }));
      for (const place of places.slice(-1)) {
        const ends = this.uses.cell.slice(...this.usesOf(place)).map((cell) => this.batches[this.cells[cell].batch]?.ended ?? -1);
        known = Math.max(known, place + 1, ...ends);
      }
      return Object.assign(answer, { known }, given.fault && this.#fault(given.fault, answer));
    });
  }

  #fault(fault, answer) {
    const [key, text] = fault.key ?? fault.batch ?? [undefined, fault];
    const kind = fault.key ? "error of a key" : fault.batch ? "failed batch" : "fault of a term";
    return { error: this.#note(kind, fault.batch ? faultWords(text) : text, "answers", answer), key: key && this.key(key) };
  }
}

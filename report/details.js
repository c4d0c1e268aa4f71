// The details of a choice: the whole life of a key, and the same for a batch, a caller, an event, a table or an error.
import { data, el, link, listed, value } from "./dom.js";
import { CLEARED, FRESH, HIT, PRIMED, REFUSED, callName, endedBy } from "./model.js";
import { nameOf } from "./selection.js";
import { answerNodes } from "./summary.js";
import { counted, digits, faultWords, shown } from "./words.js";

export function details(model, { kind, number }, parts, { tables, callers }) {
  const { uses, cells, batches, events, keys, errors, plans } = model;
  const own = [...parts.uses];
  const bad = (...words) => el("span", { className: "bad" }, ...words);
  const at = (place) => el("a", { className: "place", href: `#event-${place}` }, `event ${digits(place)}`);
  const callerLink = (caller) => link("caller", caller, model.callerName(caller));
  const by = (place) => callerLink(events[place].caller);
  const batchLink = (batch) => link("batch", batch, `batch ${batch}`);
  const keyLink = (key) => link("key", key, keys[key].text);
  const batchItem = (batch) => [batchLink(batch), ` of ${counted(batches[batch].cells.length, "key")}, ${batches[batch].state}`];
  const answerItem = (answer) => [callerLink(answer.plan), ` step ${answer.step}, ${counted(answer.rounds, "round")}: `, answerNodes(answer)];
  const someKeys = (place) => uses.key.slice(...model.usesOf(place)).slice(0, 5).map((key) => [keyLink(key), " "]);
  const eventItem = (place) => [at(place), by(place), ` ${callName(events[place].call)} `, someKeys(place)];
  const list = (heading, items, item) => items.length > 0 && [el("h3", {}, heading), listed(el("ol"), items, (one) => el("li", {}, item(one)))];
  const fact = ([name, given]) => [el("dt", {}, name), el("dd", { dataset: { name } }, typeof given === "number" ? digits(given) : given)];
  const facts = (named) => el("dl", {}, Object.entries(named).filter(([, given]) => given !== undefined).map(fact));
  const ownBy = (...fates) => own.filter((use) => fates.includes(uses.fate[use]));
  /** How many uses are of this cell or key. */
  const tally = (of, some) => { const groups = Map.groupBy(some, (use) => of[use]); return (one) => groups.get(one)?.length ?? 0; };

  function outcome(cell) {
    const { kind: how, text = "", value: given } = model.outcome(cell);
    if (how === "value") return value(given);
    if (how === "error" || how === "failed") return bad(`${how} `, data(shown(text)));
    return how === "waits" ? "it waits" : "the host has the outcome";
  }

  function useWords(use) {
    const [place, fate, cell] = [uses.place[use], uses.fate[use], cells[uses.cell[use]]];
    if (fate === REFUSED) return [by(place), " ", bad(`${callName(events[place].call)} refused: ${events[place].reply.refused}`)];
    if (fate === FRESH) return [by(place), " loads it: it isn't held, and joins ", batchLink(cell.batch)];
    if (fate === HIT) return [by(place), " loads it: a hit of ", cell.batch < 0 ? "what was primed" : batchLink(cell.batch)];
    if (fate === PRIMED) return [by(place), " primes it: ", outcome(cell)];
    return [by(place), fate === CLEARED ? " clears it" : " primes it in vain: it is held"];
  }

  /** What happens to a key, in order. A clear of all keys counts if the key is held. */
  function life() {
    const steps = own.map((use) => ({ place: uses.place[use], words: () => useWords(use), fate: uses.fate[use], cell: uses.cell[use] }));
    for (const { cell } of steps.filter(({ fate }) => fate === FRESH)) {
      const { number: batch, sent, ended, state } = batches[cells[cell].batch];
      const ends = () => [by(ended), state === "failed" ? " fails " : " settles ", batchLink(batch), ": ", outcome(cells[cell])];
      if (sent >= 0) steps.push({ place: sent, words: () => [by(sent), " sends ", batchLink(batch)] });
      if (ended >= 0) steps.push({ place: ended, words: ends, lost: state === "failed" && cell });
    }
    events.forEach(({ call }, place) => { if (call.clearAll) steps.push({ place, words: () => [by(place), " clears all keys"], isForAll: true }); });
    let held = -1;
    return steps.sort((a, b) => a.place - b.place).filter(({ fate, cell, isForAll, lost }) => {
      const isSeen = !isForAll || held >= 0;
      if (fate === FRESH || fate === PRIMED) held = cell;
      if (isForAll || fate === CLEARED || lost === held) held = -1;
      return isSeen;
    });
  }

  const ofKey = { loads: ownBy(FRESH, HIT).length, hits: ownBy(HIT).length, fetched: ownBy(FRESH).length };
  const pages = {
    key: () => [facts({ table: link("table", keys[number].table.number, keys[number].table.text), ...ofKey }),
      list("Its life", life(), ({ place, words }) => [at(place), words()])],
    batch() {
      const { cells: members, begun, sent, ended, state } = batches[number];
      const hits = tally(uses.cell, ownBy(HIT));
      const when = (place) => (place < 0 ? "not yet" : [at(place), "by ", by(place)]);
      const because = state === "failed" ? bad(data(shown(faultWords(events[ended].call.fail[1])))) : undefined;
      const item = (cell) => [keyLink(cells[cell].key), hits(cell) ? `, ${counted(hits(cell), "hit")}` : "", ": ", outcome(cells[cell])];
      return [facts({ state, keys: members.length, begun: when(begun), sent: when(sent), ended: when(ended), because }),
        list("Its keys", members, item)];
    },
    event() {
      const [{ call, reply }, round, batch] = [events[number], model.rounds.get(number), batches[endedBy(events[number].call)]];
      const sends = reply.sent?.length ? reply.sent.map((one) => el("div", {}, batchItem(one))) : reply.sent && "no batch";
      const step = round && { step: `${round.answer.step}, round ${round.number} of ${round.answer.rounds}`, answer: answerNodes(round.answer) };
      const ends = batch && !reply.refused ? batchItem(batch.number) : undefined;
      return [facts({ call: callName(call), caller: by(number), ...step, refused: reply.refused, sends, ends }),
        list("Its keys", own, (use) => [keyLink(uses.key[use]), ": ", useWords(use)])];
    },
    caller: () => [facts({ ...callers.find(({ caller }) => caller === number), caller: undefined }),
      list("Its answers", plans[number] ?? [], answerItem), list("Its calls", [...parts.events], eventItem)],
    table() {
      const loads = tally(uses.key, ownBy(FRESH, HIT));
      const sorted = [...model.tables[number].keys].sort((a, b) => loads(b) - loads(a));
      const item = (key) => [keyLink(key), `, ${counted(loads(key), "load")}`];
      return [facts({ ...tables[number], table: undefined }), list("Its keys, the most loaded first", sorted, item)];
    },
    error() {
      const error = errors[number];
      return [facts({ kind: error.kind }), list("Keys", error.cells, (cell) => keyLink(cells[cell].key)), list("Batches", error.batches, batchItem),
        list("Answers", error.answers, answerItem), list("Calls", error.events, eventItem)];
    },
  };
  return [el("h2", {}, data(nameOf(model, { kind, number }))), ...pages[kind]()].flat(9).filter(Boolean);
}

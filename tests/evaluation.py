"""What `plans --batches` prints of a plan file: a plain evaluation of a plan by a single-threaded loader, as docs/reference/formats.md says.

It shares nothing with the program, and refuses no document.
"""

import json
from typing import NamedTuple

# The most of a key's id in bytes, and of an `each` or an `over` in items.
ID_BYTES = 256
ITEMS = 1_024

LIMIT = 65_536


class Stop(Exception):
    """The plan ends without a report, for the fault of this name."""


class Outcome(NamedTuple):
    """What a load of a key gives: its value, or the text of its error or of the failure of its batch."""

    kind: str
    value: object


class Answer(NamedTuple):
    """What a term gives: a value, or the words of a fault, and of one of the term's own form the places of the items around it and what is
    wrong."""

    is_fault: bool
    value: object
    places: tuple = ()
    why: str | None = None


# The item of a term that lies in no body.
NO_ITEM = Answer(True, "NoItem", (), "item outside an over")


class Batch:
    """Keys that are loaded together, the numbers of their cells, and how it ended."""

    def __init__(self):
        self.keys, self.cells, self.end = [], [], None


def compact(value):
    """The text of a value as the program prints it."""
    return json.dumps(value, ensure_ascii=False, separators=(",", ":"), sort_keys=True)


class Source:
    """The tables of a plan file."""

    def __init__(self, tables):
        self.tables = {
            table["name"]: (dict(table["rows"]), dict(table.get("errors", ())), dict(table.get("breaks", ()))) for table in tables
        }

    def breaks(self):
        """The texts by which batches may fail."""
        return {text for _, _, breaks in self.tables.values() for text in breaks.values()}

    def break_of(self, keys):
        """The text of the first key that breaks a batch of the keys, or None."""
        for table, key in keys:
            breaks = self.tables.get(table, ({}, {}, {}))[2]
            if key in breaks:
                return breaks[key]
        return None

    def outcome(self, table, key):
        if table not in self.tables:
            return Outcome("key", "no table")
        rows, errors, _ = self.tables[table]
        if key in rows:
            return Outcome("value", rows[key])
        return Outcome("key", errors.get(key, "no row"))


class Limits(NamedTuple):
    """The most keys of a batch, cells and calls; and the tables' own limits, if each batch has keys of one table."""

    keys: int = LIMIT
    cells: int = LIMIT
    calls: int = LIMIT
    own: dict | None = None

    @classmethod
    def of(cls, file):
        """Those of a plan file."""
        tables = {table["name"]: table["maxBatchSize"] for table in file["tables"] if "maxBatchSize" in table}
        limits = (file.get(name, LIMIT) for name in ("maxBatchSize", "maxCells", "maxCalls"))
        return cls(*limits, tables if file["version"] > 1 else None)


class Loader:
    """A loader with its limits, whose batches are fetched as they are sent."""

    def __init__(self, source, limits):
        self.source, self.limits = source, limits
        self.calls = 0
        self.loads = 0
        # The loads that terms asked for, each as often as it is in its term: a round loads a key once.
        self.asked = 0
        # The step that loads, and the leftmost part of its term that does, with how many others do.
        self.step, self.part = 0, None
        self.cells = []
        self.held = {}
        self.batches = []
        self.collecting = []

    def call(self, fault="Run"):
        """Counts a call, which a plan makes, or a worker that ends a batch."""
        if self.calls == self.limits.calls:
            raise Stop(fault)
        self.calls += 1

    def begin(self, key, outcome):
        self.cells.append(outcome)
        self.held[key] = len(self.cells) - 1
        return len(self.cells) - 1

    def make_room(self, cells):
        if len(self.cells) + cells > self.limits.cells:
            raise Stop("Run")

    def load_many(self, keys):
        """Loads distinct keys, fetches what isn't held, and gives each key's outcome."""
        self.make_room(sum(key not in self.held for key in keys))
        self.call()
        self.loads += len(keys)
        cells = [self.held[key] if key in self.held else self.join(key) for key in keys]
        self.call()
        sent, self.collecting = self.collecting, []
        for batch in sent:
            self.call("Stopped")
            self.fetch(batch)
        return {key: self.cells[cell] for key, cell in zip(keys, cells)}

    def last_of(self, table):
        """The last batch that collects keys of the table, if there is one, and how many keys it may have."""
        limits = self.limits
        if limits.own is None:
            return self.collecting[-1:], limits.keys
        return [batch for batch in self.collecting if batch.keys[0][0] == table][-1:], limits.own.get(table, limits.keys)

    def join(self, key):
        """Begins a cell for a key that isn't held, in the last batch or a new one."""
        open_batches, most = self.last_of(key[0])
        last = open_batches[0] if open_batches else None
        if last is None or len(last.keys) == most or key in last.keys:
            last = Batch()
            self.batches.append(last)
            self.collecting.append(last)
        cell = self.begin(key, None)
        last.keys.append(key)
        last.cells.append(cell)
        return cell

    def fetch(self, batch):
        failure = self.source.break_of(batch.keys)
        batch.end = "settled" if failure is None else "failed"
        for key, cell in zip(batch.keys, batch.cells):
            if failure is None:
                self.cells[cell] = self.source.outcome(*key)
            else:
                self.cells[cell] = Outcome("batch", failure)
                if self.held.get(key) == cell:
                    del self.held[key]

    def prime(self, key, outcome):
        if key not in self.held:
            self.make_room(1)
            self.begin(key, outcome)
        self.call()

    def clear(self, key):
        self.call()
        self.held.pop(key, None)

    def clear_all(self):
        self.call()
        self.held.clear()

    def ended(self, step, answer, rounds):
        """Hears what a step answers that took so many rounds."""


class Evaluation:
    """A term, and what is known of the keys that it loaded."""

    def __init__(self, loader, term):
        self.loader, self.term = loader, term
        self.known, self.wanted, self.rounds = {}, [], 0
        # Of the last look at the term: how many loads it met, and the parts that wait.
        self.met, self.parts = 0, []
        # In bodies, the places of the items around a part.
        self.places = []

    def answer(self):
        """Loads what the term waits for, round by round, until it has an answer."""
        while True:
            self.wanted, self.met, self.parts = [], 0, []
            answer = self.explore(self.term, NO_ITEM)
            if not self.wanted:
                self.loader.asked += self.met
                return answer
            first, *others = self.parts
            self.loader.part = f"{first} +{len(others)}" if others else first
            self.known |= self.loader.load_many(self.wanted)
            self.rounds += 1

    def explore(self, term, item=NO_ITEM):
        """The answer of a term from what is known and the item around it, or None if it waits for keys, which it then wants."""
        ((form, argument),) = term.items()
        if form == "value":
            return Answer(False, argument)
        if form == "item":
            return item
        if form == "load":
            return self.noted(f"load {'/'.join(argument)}", self.look(tuple(argument)))
        if form == "all":
            return joined([self.explore(part, item) for part in argument])
        if form == "object":
            return self.object_of(argument, item)
        part = self.explore(argument[0], item)
        if part is None or part.is_fault:
            return part
        if form == "over":
            return self.over(part.value, argument[1])
        return self.go_on(form, part, argument)

    def object_of(self, members, item):
        """The object of what the members' parts give, in the order of their names."""
        names = sorted(members)
        parts = joined([self.explore(members[name], item) for name in names])
        if parts is None or parts.is_fault:
            return parts
        return Answer(False, dict(zip(names, parts.value)))

    def over(self, items, body):
        """What a body gives for each item of a list."""
        if not isinstance(items, list):
            return self.fault("NotAList", "no list to go over")
        if len(items) > ITEMS:
            return self.fault("TooMany", f"over {ITEMS} items")
        answers = []
        for place, item in enumerate(items):
            self.places.append(place)
            answers.append(self.explore(body, Answer(False, item)))
            self.places.pop()
        return joined(answers)

    def go_on(self, form, part, argument):
        """What a pick, a follow or an each makes of its part's value."""
        name = compact(argument[1])
        if not isinstance(part.value, dict) or argument[1] not in part.value:
            return self.fault("NoField", f"no field {name}")
        field = part.value[argument[1]]
        if form == "pick":
            return Answer(False, field)
        if form == "follow":
            return self.noted(f"follow {argument[1]}", self.load_id(argument[2], field, name))
        if not isinstance(field, list):
            return self.fault("NotAList", f"{name} is no list")
        if len(field) > ITEMS:
            return self.fault("TooMany", f"over {ITEMS} items in {name}")
        loads = [self.load_id(argument[2], item, f"item {place} of {name}") for place, item in enumerate(field)]
        return self.noted(f"each {argument[1]}", joined(loads))

    def fault(self, words, why):
        """The fault of a part's own form."""
        return Answer(True, words, tuple(self.places), why)

    def noted(self, part, answer):
        """The answer of a part, which waits if it has none."""
        places = "".join(f"item {place}: " for place in self.places)
        self.parts += [places + part] if answer is None else []
        return answer

    def load_id(self, table, key, name=""):
        if isinstance(key, str) and 1 <= len(key.encode()) <= ID_BYTES:
            return self.look((table, key))
        return self.fault("NotAKey", f"{name} is no id")

    def look(self, key):
        self.met += 1
        outcome = self.known.get(key)
        if outcome is None:
            if key not in self.wanted:
                self.wanted.append(key)
            return None
        if outcome.kind == "value":
            return Answer(False, outcome.value)
        return Answer(True, f"{outcome.kind} {compact(key)} {compact(outcome.value)}")


def joined(answers):
    """The answer of a list of parts: none while one waits, the leftmost fault, or the list of their values."""
    if None in answers:
        return None
    for answer in answers:
        if answer.is_fault:
            return answer
    return Answer(False, [answer.value for answer in answers])


def answers_of(loader, plan):
    """The answers of a plan's evaluations, each by the number of its step, and how many rounds they took."""
    answers, rounds = {}, 0
    for number, step in enumerate(plan):
        ((name, argument),) = step.items()
        if name == "prime":
            ((kind, value),) = argument[1].items()
            loader.prime(tuple(argument[0]), Outcome("value" if kind == "value" else "key", value))
        elif name == "clear":
            loader.clear(tuple(argument))
        elif name == "clearAll":
            loader.clear_all()
        else:
            loader.step = number
            evaluation = Evaluation(loader, argument)
            answers[number] = evaluation.answer()
            loader.ended(number, answers[number], evaluation.rounds)
            rounds += evaluation.rounds
    return answers, rounds


def lines_of(number, answers):
    """The lines of a plan's answers."""
    return [
        f"{number} {step} fault {answer.value}" if answer.is_fault else f"{number} {step} ok {compact(answer.value)}"
        for step, answer in answers.items()
    ]


def batch_lines(loader, rounds):
    """The lines of a plan's rounds and batches."""
    return [
        f"rounds {rounds}",
        *(f"batch {number} {compact(batch.keys)} {batch.end}" for number, batch in enumerate(loader.batches)),
    ]

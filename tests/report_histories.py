"""Histories for reports, in the form that docs/reference/formats.md gives them: of plan files, of scripts and of hosts.

Plans take turns by a seed, over the single-threaded loader of evaluation.py. What they answer is what its plain evaluation gives.
"""

import json
import random
import sys
import threading

from evaluation import LIMIT, NO_ITEM, Answer, Evaluation, Limits, Loader, Outcome, Source
from shared import TOP


class Told(Loader):
    """A loader that writes down the events of its callers, and which batches have been sent and have not ended."""

    def __init__(self, source, limits, with_outcomes=True):
        super().__init__(source, limits)
        self.with_outcomes, self.events, self.out, self.sent = with_outcomes, [], [], 0

    def note(self, caller, call, reply):
        self.events.append({"caller": caller, "call": call, "reply": reply})

    def reply_to(self, key):
        """The reply to a load."""
        if key in self.held:
            return {"hit": self.held[key]}
        cell = self.join(key)
        return {"fresh": [cell, next(number for number in range(len(self.batches) - 1, -1, -1) if cell in self.batches[number].cells)]}

    def has_room(self, caller, call, keys):
        """Whether there are cells left for the keys. If not, the call is refused."""
        if len(self.cells) + len({key for key in keys if key not in self.held}) <= self.limits.cells:
            return True
        return self.note(caller, call, {"refused": "CellsFull"})

    def load(self, caller, key):
        call = {"load": list(key)}
        if self.has_room(caller, call, [key]):
            self.note(caller, call, self.reply_to(key))

    def load_all(self, caller, keys):
        call = {"loadMany": [list(key) for key in keys]}
        if self.has_room(caller, call, keys):
            self.note(caller, call, {"many": [self.reply_to(key) for key in keys]})

    def give(self, caller, key, outcome):
        """Primes a key."""
        call = {"prime": [list(key), told_outcome(outcome)] if self.with_outcomes else list(key)}
        if self.has_room(caller, call, [key]):
            self.note(caller, call, "kept" if key in self.held else {"primed": self.begin(key, outcome)})

    def forget(self, caller, key):
        self.held.pop(key, None)
        self.note(caller, {"clear": list(key)}, "done")

    def forget_all(self, caller):
        self.held.clear()
        self.note(caller, {"clearAll": True}, "done")

    def send(self, caller):
        batches = range(self.sent, self.sent + len(self.collecting))
        self.sent, self.collecting = batches.stop, []
        self.out += batches
        self.note(caller, {"dispatch": True}, {"sent": sorted(batches)})

    def finish(self, caller, number, name=None):
        """Ends a batch as the source does, or by a call of this name."""
        batch = self.batches[number]
        self.fetch(batch)
        name = name or ("fail" if batch.end == "failed" else "settle")
        settled = [told_outcome(self.cells[cell]) for cell in batch.cells]
        brought = settled if name == "settle" else {"source": self.source.break_of(batch.keys)}
        self.out.remove(number)
        self.note(caller, {name: [number, brought] if self.with_outcomes else number}, "done")

    def history(self, **more):
        limits = {"maxBatchSize": self.limits.keys, "maxCells": self.limits.cells, "maxCalls": self.limits.calls}
        if self.limits.own is not None:
            limits["tableLimits"] = sorted(map(list, self.limits.own.items()))
        return {"history": 1, **limits, **more, "events": self.events}


def told_outcome(outcome):
    return {"value" if outcome.kind == "value" else "error": outcome.value}


def told_fault(words):
    """A fault, from the words that the program prints of it."""
    kind, _, rest = words.partition(" ")
    if not rest:
        return kind
    key, end = json.JSONDecoder().raw_decode(rest)
    text = json.loads(rest[end:])
    return {kind: [key, text if kind == "key" else {"source": text}]}


def path_of(evaluation, term, item=NO_ITEM):
    """The steps from a term to the leftmost part that gives its fault."""
    ((form, argument),) = term.items()
    if form == "object":
        parts = [(f".object{'.' + name if name.isalnum() else f'[{json.dumps(name)}]'}", argument[name], item) for name in sorted(argument)]
    elif form == "all":
        parts = [(f".all[{number}]", part, item) for number, part in enumerate(argument)]
    elif form in ("pick", "follow", "each", "over"):
        parts = [(f".{form}[0]", argument[0], item)]
        items = evaluation.explore(argument[0], item).value if form == "over" else None
        if isinstance(items, list):
            parts += [(f".over[1] at [{number}]", argument[1], Answer(False, one)) for number, one in enumerate(items)]
    else:
        parts = []
    for step, part, inner in parts:
        if evaluation.explore(part, inner).is_fault:
            return step + path_of(evaluation, part, inner)
    return ""


class Plan(threading.Thread):
    """A plan, which goes on for a turn whenever the driver says so, and has the attributes of a loader that an evaluation uses."""

    def __init__(self, loader, number, steps):
        super().__init__(daemon=True)
        self.loader, self.number, self.steps = loader, number, steps
        self.asked, self.part, self.answers, self.waits = 0, None, [], ()
        self.may_go, self.has_gone, self.has_ended = threading.Semaphore(0), threading.Semaphore(0), False

    def turn(self):
        self.may_go.release()
        self.has_gone.acquire()

    def pause(self):
        self.has_gone.release()
        self.may_go.acquire()

    def load_many(self, keys):
        self.loader.load_all(self.number, keys)
        cells = [(reply.get("fresh") or [reply.get("hit")])[0] for reply in self.loader.events[-1]["reply"]["many"]]
        self.pause()
        self.loader.send(self.number)
        self.waits = cells
        self.pause()
        self.waits = ()
        return {key: self.loader.cells[cell] for key, cell in zip(keys, cells)}

    def is_ready(self):
        return not self.has_ended and all(self.loader.cells[cell] is not None for cell in self.waits)

    def step(self, number, name, argument):
        if name == "prime":
            ((kind, value),) = argument[1].items()
            self.loader.give(self.number, tuple(argument[0]), Outcome("value" if kind == "value" else "key", value))
        elif name == "clear":
            self.loader.forget(self.number, tuple(argument))
        elif name == "clearAll":
            self.loader.forget_all(self.number)
        else:
            evaluation = Evaluation(self, argument)
            answer = evaluation.answer()
            told = {"step": number, "rounds": evaluation.rounds}
            if answer.is_fault:
                self.answers.append({**told, "fault": told_fault(answer.value), "at": "eval" + path_of(evaluation, argument)})
            else:
                self.answers.append({**told, "value": answer.value})

    def run(self):
        self.may_go.acquire()
        for number, step in enumerate(self.steps):
            ((name, argument),) = step.items()
            self.step(number, name, argument)
        self.has_ended = True
        self.has_gone.release()


def served(file, workers=3, seed=1):
    """The history of a plan file, whose plans and workers take turns by a seed."""
    draw, loader = random.Random(seed), Told(Source(file["tables"]), Limits.of(file))
    plans = [Plan(loader, number, steps) for number, steps in enumerate(file["plans"])]
    for plan in plans:
        plan.start()
    while True:
        ready = [plan for plan in plans if plan.is_ready()]
        if ready and (not loader.out or draw.random() < 0.8):
            draw.choice(ready).turn()
        elif loader.out:
            loader.finish(len(plans) + draw.randrange(workers), draw.choice(loader.out))
        else:
            return loader.history(workers=workers, plans=[plan.answers for plan in plans])


def scripted(script):
    """The history of a call script: its calls, also those that are refused."""
    sizes = dict(script["tableLimits"]) if "tableLimits" in script else {} if script["script"] == 2 else None
    loader = Told(Source([]), Limits(script.get("maxBatchSize", LIMIT), script.get("maxCells", LIMIT), LIMIT, sizes), False)
    for call in script["calls"]:
        ((name, argument),) = call.items()
        if name in ("settle", "fail"):
            begun, has_ended = argument < len(loader.batches), argument < loader.sent and argument not in loader.out
            refused = "NoBatch" if not begun else "NotSent" if argument >= loader.sent else "SettledBefore" if has_ended else None
            if refused:
                loader.note(0, call, {"refused": refused})
            else:
                breaks = {key[1]: "failed" for key in loader.batches[argument].keys} if name == "fail" else {}
                loader.source = Source([{"name": table, "rows": [], "breaks": breaks} for table, _ in loader.batches[argument].keys])
                loader.finish(0, argument, name)
        elif name in ("dispatch", "clearAll"):
            (loader.send if name == "dispatch" else loader.forget_all)(0)
        elif name == "loadMany":
            loader.load_all(0, [tuple(key) for key in argument])
        elif name == "prime":
            loader.give(0, tuple(argument), Outcome("value", None))
        else:
            (loader.load if name == "load" else loader.forget)(0, tuple(argument))
    return loader.history()


def hosted(calls, callers, tables, ids, seed=1):
    """The history of a host whose threads load keys at random. The host keeps its outcomes."""
    draw, limits = random.Random(seed), Limits(50, LIMIT, max(calls, 1))
    breaks = {f"k{number}": "down" for number in range(0, ids, 997)}
    loader = Told(Source([{"name": table, "rows": [], "breaks": breaks} for table in tables]), limits, False)
    while len(loader.events) + len(loader.out) + len(loader.collecting) + 1 < calls:
        caller, kind = draw.randrange(callers), draw.random()
        key = draw.choice(tables), f"k{min(draw.randrange(ids), draw.randrange(ids))}"
        if kind < 0.72 or not loader.events:
            loader.load(caller, key)
        elif kind < 0.78:
            loader.load_all(caller, [key, *((key[0], f"k{draw.randrange(ids)}") for _ in range(draw.randrange(12)))])
        elif kind < 0.80:
            loader.give(caller, key, Outcome("value", None))
        elif kind < 0.83:
            loader.forget(caller, key)
        elif kind < 0.8302:
            loader.forget_all(caller)
        elif kind < 0.9 and loader.collecting:
            loader.send(caller)
        elif loader.out:
            loader.finish(caller, draw.choice(loader.out))
    loader.send(0)
    while loader.out or len(loader.events) < calls:
        loader.finish(draw.randrange(callers), loader.out[0]) if loader.out else loader.forget(0, (tables[0], "k0"))
    return loader.history()


FAULTS = {
    "version": 3,
    "tables": [
        {"name": "user", "rows": [["ada", {"name": "Ada", "best": 7, "friends": ["bob", "eve"]}], ["bob", {"name": "Bob", "friends": "eve"}]]},
        {"name": "list", "rows": [["long", {"ids": ["x"] * 1_025}]], "errors": [["eve", "account closed"]]},
    ],
    "plans": [
        [
            {"eval": {"load": ["user", "zoe"]}},
            {"eval": {"load": ["shop", "s1"]}},
            {"eval": {"pick": [{"load": ["user", "ada"]}, "autor"]}},
            {"eval": {"follow": [{"load": ["user", "ada"]}, "best", "user"]}},
            {"eval": {"each": [{"load": ["user", "bob"]}, "friends", "user"]}},
            {"eval": {"each": [{"load": ["list", "long"]}, "ids", "user"]}},
            {"eval": {"over": [{"load": ["user", "ada"]}, {"item": True}]}},
            {"eval": {"object": {"a": {"value": 1}, "b": {"each": [{"load": ["user", "ada"]}, "friends", "list"]}}}},
            {"eval": {"over": [{"each": [{"load": ["user", "ada"]}, "friends", "user"]}, {"pick": [{"item": True}, "name"]}]}},
        ],
        [{"eval": {"load": ["user", "ada"]}}, {"eval": {"all": [{"load": ["down", "1"]}, {"load": ["down", "2"]}]}}],
        [{"prime": [["user", "eve"], {"error": "blocked"}]}, {"prime": [["user", "eve"], {"value": 1}]}, {"eval": {"load": ["user", "eve"]}}],
    ],
}
FAULTS["tables"].append({"name": "down", "rows": [["1", 1]], "breaks": [["2", "shard 3 is down"]]})

HOSTILE = [
    *("</script><script>window.broken=1</script>", "<img src=x onerror=window.broken=1>", "<!--<script>", "]]>", "&lt;b&gt;", 'a"b\\c\'d`e'),
    *("\u202eesrever\u202c", "\u200f\u05d0\u05d1\u05d2", "\u0627\u0644\u0639", "\u2028\u2029", "line\nfeed\ttab\u0000", "__proto__", "constructor"),
    *("${window.broken=1}", "javascript:window.broken=1", "%HISTORY%", "\U0001d11e \U0001f468\u200d\U0001f469\u200d\U0001f467", "x" * 250, " ", "/", "0"),
]


def hostile():
    """A plan file whose keys, texts and names try to break a page."""
    numbers = {"most": 2**64 - 1, "least": -(2**63), "odd": 2**53 + 1, "10": 1, "9": 2}
    rows = [[text, {"name": text, text: [text], "__proto__": numbers}] for text in HOSTILE[:14]]
    tables = [{"name": text[:64], "rows": rows, "errors": [["gone", text], ["away", HOSTILE[1]]]} for text in HOSTILE]
    tables.append({"name": "down", "rows": [], "breaks": [["1", HOSTILE[0]], ["2", HOSTILE[6]]]})
    steps = [{"eval": {"all": [{"load": [text[:64], text]}, {"load": [text[:64], "away"]}]}} for text in HOSTILE]
    others = [{"eval": {"object": {text: {"load": [text[:64], HOSTILE[2]]} for text in HOSTILE}}}, {"eval": {"load": ["down", "1"]}}]
    others += [{"eval": {"pick": [{"load": ["/", HOSTILE[0]]}, HOSTILE[0]]}}, {"eval": {"pick": [{"load": ["/", HOSTILE[6]]}, "none"]}}]
    return {"version": 3, "tables": tables, "plans": [steps, others, [{"eval": {"load": ["down", "2"]}}]]}


def shared_file():
    """16 plans, most of whose keys several of them load."""
    friends = [[f"u{(number + other) % 40}" for other in range(4)] for number in range(40)]
    rows = [[f"u{number}", {"name": f"User {number}", "best": f"u{number * 7 % 40}", "friends": friends[number]}] for number in range(40)]
    posts = [[f"p{number}", {"title": f"Post {number}", "author": f"u{number * 3 % 40}"}] for number in range(20)]

    def plan(number):
        first = {"load": ["user", f"u{number % 8}"]}
        return [
            {"eval": {"object": {"me": {"pick": [first, "name"]}, "post": {"follow": [{"load": ["post", f"p{number % 5}"]}, "author", "user"]}}}},
            *([{"clear": ["user", f"u{number}"]}] if number % 5 == 4 else [{"clearAll": True}] if number == 7 else []),
            {"eval": {"over": [{"each": [first, "friends", "user"]}, {"pick": [{"follow": [{"item": True}, "best", "user"]}, "name"]}]}},
        ]

    tables = [{"name": "user", "maxBatchSize": 12, "rows": rows}, {"name": "post", "rows": posts}]
    return {"version": 3, "tables": tables, "plans": [plan(number) for number in range(16)]}


def large_file():
    """Plans whose answers are above a megabyte together."""
    rows = [["r", {"text": "Lorem ipsum dolor sit amet. " * 12, "number": 1}], ["ids", {"ids": ["r"] * 1_024}]]
    steps = [{"eval": {"each": [{"load": ["row", "ids"]}, "ids", "row"]}}]
    return {"version": 1, "tables": [{"name": "row", "rows": rows}], "plans": [steps, steps * 2, steps]}


SCRIPT = {
    "script": 1,
    "maxBatchSize": 2,
    "maxCells": 6,
    "calls": [
        *({"load": ["user", "a"]}, {"load": ["user", "b"]}, {"load": ["post", "c"]}, {"load": ["user", "a"]}, {"settle": 0}, {"dispatch": True}),
        *({"settle": 9}, {"clear": ["user", "a"]}, {"load": ["user", "a"]}, {"fail": 0}, {"fail": 0}, {"settle": 1}, {"prime": ["user", "d"]}),
        *({"prime": ["user", "d"]}, {"clearAll": True}, {"loadMany": [["user", "a"], ["user", "e"]]}, {"loadMany": []}, {"load": ["user", "f"]}),
        {"dispatch": True},
    ],
}


def example(name):
    return json.loads((TOP / f"examples/{name}.json").read_text())


HISTORIES = {
    "page": lambda: served(example("page"), workers=1),
    "posts": lambda: served(example("posts"), workers=2),
    "outage": lambda: served(example("outage")),
    "faults": lambda: served(FAULTS, workers=2, seed=4),
    "plans": lambda: served(shared_file(), workers=4, seed=3),
    "script": lambda: scripted(SCRIPT),
    "host": lambda: hosted(400, 6, ["user", "post", "comment"], 60),
    "calls": lambda: hosted(65_536, 32, [f"table{number}" for number in range(7)], 1_500),
    "empty": lambda: served({"version": 1, "tables": [], "plans": [[]]}),
    "hostile": lambda: served(hostile(), workers=2),
    "answers": lambda: served(large_file()),
}


def main():
    """Writes the histories of these names, or all, to a folder."""
    folder, *names = sys.argv[1:]
    for name in names or HISTORIES:
        with open(f"{folder}/{name}.json", "w", encoding="utf-8") as file:
            json.dump(HISTORIES[name](), file, ensure_ascii=False, separators=(",", ":"))


if __name__ == "__main__":
    main()

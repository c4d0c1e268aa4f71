"""The loader against that of Debian's python3-promise, on the same scripts of calls: the same hits, the same batches, the same errors,
kept or forgotten.

Two things are told apart by the documentation and not by that package, and no script has them: a key that is loaded, cleared and loaded
again in one turn (there a batch has it twice), and a batch that fails after its key was loaded anew (there the newer load is forgotten).
"""

import asyncio
import random
import sys
import unittest

sys.path.append("/usr/lib/python3/dist-packages")

from promise import Promise  # noqa: E402
from promise.dataloader import DataLoader as PromiseLoader  # noqa: E402

from thrushscreen import DataLoader  # noqa: E402

IDS = ["a", "b", "c", "d", "e", "f", "g", "h"]
SCRIPTS = 400


class Down(Exception):
    """A batch as a whole fails."""


class Missing(Exception):
    """There is no value for one key."""


def answers(keys, broken):
    """What a batch is answered: a batch with the broken key fails, and a key with a letter from g on has an error."""
    if broken in keys:
        raise Down(broken)
    return [Missing(key) if key >= "g" else f"{key}!" for key in keys]


def script(seed):
    """Turns of calls. Each turn has the key at which a batch breaks in it."""
    choose = random.Random(seed)
    turns = []
    for _ in range(choose.randint(1, 6)):
        calls = [("clear", [key]) for key in IDS if choose.random() < 0.15]
        if choose.random() < 0.1:
            calls.append(("clear_all", []))
        for _ in range(choose.randint(1, 12)):
            name = choose.choice(["load", "load", "load", "load_many", "prime", "prime_error"])
            count = choose.randint(0, 5) if name == "load_many" else 1
            calls.append((name, [choose.choice(IDS) for _ in range(count)]))
        turns.append((choose.choice(IDS + [None] * 8), calls))
    return choose.choice([None, 1, 2, 3, 8]), turns


class Notes:
    """What is seen of a run: whether each load was a hit, the batches, and how each load ended."""

    def __init__(self, load):
        self.load_by = load
        self.seen = []
        self.lists = []
        self.batches = []
        self.ends = []

    def load(self, loader, key):
        is_hit, outcome = self.load_by(loader, key)
        self.seen.append(outcome)
        return is_hit


def call(loader, notes, name, keys):
    if name == "load":
        return notes.load(loader, keys[0])
    if name == "load_many":
        notes.lists.append(loader.load_many(keys))
        return [notes.load(loader, key) for key in keys]
    if name == "prime":
        loader.prime(keys[0], "primed")
    elif name == "prime_error":
        loader.prime(keys[0], Missing("primed"))
    elif name == "clear":
        loader.clear(keys[0])
    else:
        loader.clear_all()
    return None


def spelled(kind, what):
    return f"{kind.__name__}({what})" if isinstance(what, Exception) else what


def load_future(loader, key):
    hits = loader.counters.hits
    # Of what is held the desk is asked, and of a load not always.
    held = loader.held(key)
    if held:
        held.add_done_callback(asyncio.Future.exception)  # or asyncio prints an exception that nobody took
    future = loader.load(key)
    is_hit = loader.counters.hits > hits
    assert is_hit == bool(held), f"the load of {key!r} is {'' if is_hit else 'not '}a hit"
    return is_hit, future


async def by_futures(limit, turns):
    notes = Notes(load_future)
    broken = None

    async def batch_load_fn(keys):
        notes.batches.append(list(keys))
        return answers(keys, broken)

    loader = DataLoader(batch_load_fn, max_batch_size=limit)
    replies = []
    for broken, calls in turns:
        replies.append([call(loader, notes, name, keys) for name, keys in calls])
        await asyncio.gather(*notes.seen, *notes.lists, return_exceptions=True)
    for future in notes.seen:
        what = future.exception() or future.result()
        notes.ends.append(spelled(type(what), what))
    return replies, notes.batches, notes.ends


def load_promise(loader, key):
    is_hit = key in loader._promise_cache
    return is_hit, loader.load(key)


def by_promises(limit, turns):
    notes = Notes(load_promise)
    broken = None

    def batch_load_fn(keys):
        notes.batches.append(list(keys))
        return Promise.resolve(answers(keys, broken))

    loader = PromiseLoader(batch_load_fn, max_batch_size=limit)
    replies = []

    # A turn: jobs wait for its end.
    @Promise.safe
    def make(calls):
        replies.append([call(loader, notes, name, keys) for name, keys in calls])
        for promise in notes.seen:
            promise._wait()

    for broken, calls in turns:
        make(calls)
    for promise in notes.seen:
        what = promise.reason if promise.is_rejected else promise.get()
        notes.ends.append(spelled(type(what), what))
    return replies, notes.batches, notes.ends


class AgainstPromise(unittest.TestCase):
    def test_scripts_give_the_same(self):
        for seed in range(SCRIPTS):
            limit, turns = script(seed)
            with self.subTest(seed=seed):
                ours = asyncio.run(by_futures(limit, turns))
                theirs = by_promises(limit, turns)
                for what, one, other in zip(("replies", "batches", "ends"), ours, theirs):
                    self.assertEqual(one, other, what)


if __name__ == "__main__":
    unittest.main()

"""What a load costs in processor time: here, in Debian's python3-promise, and in a loader of plain Python (plain.py). Medians of runs that
take turns, and each over that of plain Python."""

import asyncio
import statistics
import sys
import time
import uuid

sys.path.append("/usr/lib/python3/dist-packages")

from plain import PlainLoader  # noqa: E402
from promise import Promise  # noqa: E402
from promise.dataloader import DataLoader as PromiseLoader  # noqa: E402

from thrushscreen import DataLoader  # noqa: E402

COUNT = 10_000
KEYS = {
    "str": [f"u{number}" for number in range(COUNT)],
    "int": list(range(COUNT)),
    "UUID": [uuid.UUID(int=number * 7_919) for number in range(COUNT)],
    "tuple": [("u", number) for number in range(COUNT)],
}
BATCH = 100
LOADERS = 2_000
RUNS = 11

clock = time.thread_time


async def batch_load_fn(keys):
    return keys


def promised(keys):
    return Promise.resolve(keys)


async def by_futures(kind, keys):
    """Nanoseconds of a fresh load, of a hit, and of a key of a load_many."""
    loader = kind(batch_load_fn, max_batch_size=BATCH)
    start = clock()
    await asyncio.gather(*[loader.load(key) for key in keys])
    loaded = clock()
    for key in keys:
        loader.load(key)
    hit = clock()
    other = kind(batch_load_fn, max_batch_size=BATCH)
    before = clock()
    await other.load_many(keys)
    return loaded - start, hit - loaded, clock() - before


@Promise.safe
def by_promises(keys):
    """The same."""
    loader = PromiseLoader(promised, max_batch_size=BATCH)
    start = clock()
    Promise.all([loader.load(key) for key in keys]).get()
    loaded = clock()
    for key in keys:
        loader.load(key)
    hit = clock()
    other = PromiseLoader(promised, max_batch_size=BATCH)
    before = clock()
    other.load_many(keys).get()
    return loaded - start, hit - loaded, clock() - before


async def one_key(kind):
    """Nanoseconds of loaders that are made, load one key, and are dropped."""
    start = clock()
    for _ in range(LOADERS):
        await kind(batch_load_fn).load("u")
    return clock() - start


def made(kind):
    """Nanoseconds of loaders that are made and dropped."""
    start = clock()
    for _ in range(LOADERS):
        kind(batch_load_fn)
    return clock() - start


def main():
    kinds = {"thrushscreen": DataLoader, "plain": PlainLoader}
    taken = {}

    def note(what, name, seconds, count):
        taken.setdefault(what, {}).setdefault(name, []).append(seconds / count * 1e9)

    for _ in range(RUNS):
        for of, keys in KEYS.items():
            runs = {name: asyncio.run(by_futures(kind, keys)) for name, kind in kinds.items()}
            runs["promise"] = by_promises(keys).get()
            for name, run in runs.items():
                for what, seconds in zip(("a fresh load", "a hit", "a key of a load_many"), run):
                    note(f"{what}, {of}", name, seconds, COUNT)
        for name, kind in kinds.items():
            note("a loader of one key", name, asyncio.run(one_key(kind)), LOADERS)
            note("a loader that is made", name, made(kind), LOADERS)
    for what, by in sorted(taken.items()):
        medians = {name: statistics.median(times) for name, times in by.items()}
        told = [f"{name} {median:,.0f} ns ({median / medians['plain']:.2f})" for name, median in medians.items()]
        print(f"{what}: {', '.join(told)}")


if __name__ == "__main__":
    main()

"""What a type checker takes of a program with loaders. It is never run."""

from __future__ import annotations

import asyncio
from collections.abc import Callable, Generator
from concurrent.futures import Future, ThreadPoolExecutor
from typing import Any

from thrushscreen import Counters, DataLoader, LoaderFull, threads
from thrushscreen.shared import Event, History, ThreadedDataLoader


async def fetch(keys: list[int]) -> list[str | BaseException]:
    return [KeyError(key) if key < 0 else str(key) for key in keys]


async def fetch_plain(keys: list[int]) -> list[str]:
    return [str(key) for key in keys]


def fetch_here(keys: list[int]) -> list[str | BaseException]:
    return [KeyError(key) if key < 0 else str(key) for key in keys]


def page(key: int) -> Generator[Any, Any, str]:
    one: str = yield threads.DataLoader(fetch_here).load(key)
    return one


class Users(DataLoader[int, str]):
    max_batch_size = 100
    max_cells = 1_000
    name = "users"

    async def batch_load_fn(self, keys: list[int]) -> list[str]:
        return [str(key) for key in keys]


def soon(send: Callable[[], None]) -> None:
    asyncio.get_running_loop().call_later(0.01, send)


def by_text(key: int) -> str:
    return str(key)


async def main() -> None:
    loader: DataLoader[int, str] = DataLoader(fetch, max_batch_size=10, get_cache_key=by_text, batch_schedule_fn=soon, name="a")
    plain = DataLoader(fetch_plain)
    futures: dict[str, asyncio.Future[str]] = {}
    mapped: DataLoader[int, str] = DataLoader(fetch, cache_map=futures, cache=True, batch=False)
    value: str = await loader.load(1)
    other: str = await plain.load(1)
    third: str = await Users().load(1)
    several: list[str | BaseException] = await loader.load_many([1, 2])
    raised: list[str] = await loader.load_many(range(3), return_exceptions=False)
    same: Users = Users().prime(1, "one").prime(2, KeyError(2)).clear(1).clear_all()
    held: asyncio.Future[str] | None = mapped.held(1)
    counters: Counters = same.counters
    ratio: float = counters.hits / counters.loads
    full: RuntimeError = LoaderFull()
    print(value, other, third, several, raised, held, ratio, full, loader.name)


class Pages(threads.DataLoader[int, str]):
    max_batch_size = 100

    def batch_load_fn(self, keys: list[int]) -> list[str]:
        return [str(key) for key in keys]


def in_a_thread() -> None:
    loader = Pages(cache_map={}, name="pages")
    value: str = loader.load(1).result()
    lengths: threads.Later[int] = loader.load(1).then(len)
    chained: threads.Later[str] = loader.load(1).then(lambda one: loader.load(len(one)))
    several: list[str | BaseException] = loader.load_many([1, 2]).result()
    raised: list[str] = loader.load_many([1, 2], return_exceptions=False).result()
    same: Pages = loader.prime(1, "one").prime(2, KeyError(2)).prime(3, loader.load(1)).clear(1).clear_all()
    held: threads.Later[str] | None = same.held(1)
    title: str = threads.run(page(1))
    error: BaseException | None = lengths.exception()
    counters: Counters = loader.counters
    print(value, chained.result(), several, raised, held, title, error, counters, chained.done(), threads.run(lengths) + 1)


class SharedUsers(ThreadedDataLoader[int, str]):
    max_batch_size = 100

    def batch_load_fn(self, keys: list[int]) -> list[str]:
        return [str(key) for key in keys]


def among_threads() -> None:
    with ThreadPoolExecutor() as executor:
        loader = ThreadedDataLoader(fetch_here, max_batch_size=10, get_cache_key=by_text, delay=0.01, executor=executor)
        with loader.calling(), loader.calling(of=1):
            future: Future[str] = loader.submit(1)
            value: str = loader.load(1, timeout=1)
        users = SharedUsers(name="users").prime(1, "one").prime(2, KeyError(2)).prime(3, future).clear(1).clear_all()
        several: list[str | BaseException] = users.load_many([1, 2])
        raised: list[str] = users.load_many(range(3), return_exceptions=False, timeout=1)
    history: History = loader.close()
    events: list[Event] = history.events
    print(value, future.result(), several, raised, events[0].answers, history.entries)

"""A data loader for asyncio, over the proved desk."""

from __future__ import annotations

import asyncio
from collections import deque
from collections.abc import Awaitable, Generator, Iterable, Sequence
from inspect import isawaitable
from types import CoroutineType
from typing import Any, Literal, TypeVar, Union, overload
from weakref import WeakKeyDictionary

from ._desk import Desk
from ._options import Options, checked

__all__ = ["DataLoader"]

K = TypeVar("K")
V = TypeVar("V")

# The most turns of an event loop that is always busy for which a batch waits, and the most without a load.
MOST_TURNS = 32
MOST_QUIET_TURNS = 4


class _Senders:
    """The tasks of an event loop that wait until it has nothing else ready."""

    count = 0
    may_send = False


_senders: WeakKeyDictionary[asyncio.AbstractEventLoop, _Senders] = WeakKeyDictionary()


class DataLoader(Options[K, V, Awaitable[Sequence[Union[V, BaseException]]], "asyncio.Future[V]"]):
    """Loads keys in batches, and each key once.

    The batch function gets the keys of a batch, in the order of their loads, and gives a value for each, in the same order. An
    exception in a value's place is the error of that key alone, and the loader keeps it like a value. If the function raises, each
    key of the batch has that error, and the loader forgets them, so that a later load fetches them again.

    Each load that waits has a future of its own: if you cancel it, you cancel no other. A loader belongs to the event loop of its first load.
    Each load that isn't a hit begins a *cell*, the place of its outcome, and so does each prime that holds a value. A loader begins
    at most ``max_cells`` cells: make one for each request, or call ``clear_all`` between jobs. It counts from 0 again when it holds no
    key and waits for no batch.

    A call of ``load``, ``load_many`` or ``prime`` raises at once if your ``cache_map`` or your ``batch_schedule_fn`` does:

    - A ``load`` leaves the key unfetched and uncounted, but has used one of ``max_cells`` and one place in the batch. A ``prime`` has
      used one of ``max_cells``.
    - A ``load_many`` with a ``cache_map``, or in a subclass with its own ``load``, leaves the loads before the one that raised begun.
      Any other begins none; if ``batch_schedule_fn`` raised, each new key has used a cell and a place.
    - Loads that your ``batch_schedule_fn`` makes before it raises end with what it raises, if they weren't sent.

    Your ``cache_map`` must either store or raise: after an assignment that does both, later loads of that key wait for ever.
    """

    # `load(key)`, `held(key)`, `clear(key)` and `clear_all()` are the desk's.

    @overload
    def load_many(
        self, keys: Iterable[K], *, return_exceptions: Literal[True] = ...
    ) -> asyncio.Future[list[V | BaseException]]: ...

    @overload
    def load_many(self, keys: Iterable[K], *, return_exceptions: Literal[False]) -> asyncio.Future[list[V]]: ...

    def load_many(self, keys: Iterable[K], *, return_exceptions: bool = True) -> asyncio.Future[Any]:
        """Loads the keys: a future of the value or the exception of each, in order.

        :param return_exceptions: if it is false, the future has the first exception for its own.
        """
        futures: Iterable[Awaitable[V]]
        if type(self).load is Desk.load and self.cache_map is None:
            futures = self._load_all(keys)
        else:
            futures = [self.load(key) for key in keys]
        return asyncio.gather(*futures, return_exceptions=return_exceptions)

    def _is_future(self, value: object) -> bool:
        return asyncio.isfuture(value)

    async def _fetch(self, batches: list[tuple[int, list[K]]]) -> None:
        """Fetches the only batch of a list, and ends it. If there is none, it sends what is collected first, once callers that are a few
        tasks behind have made their loads. The desk has tasks of this, and ends what they leave: it isn't sent, or not fetched."""
        if not batches:
            ready = self._look(batches)
            if ready is batches:
                # It is an eager task, within the load that has begun it.
                await _NEXT_TURN
                ready = self._look(batches)
            if ready or _senders or type(ready) is not deque:
                await self._others(ready)
            self._send(batches)
            if len(batches) != 1:
                self._fetch_each(batches)
                return
        try:
            fetching = self.batch_load_fn(batches[0][1])
            if type(fetching) is not CoroutineType:
                _check_fetching(fetching)
            answer = await fetching
            self._settle(batches, answer if type(answer) is list else checked(answer))
        except GeneratorExit:
            # The event loop is gone, and who waited with it. Or the batch function has raised it, and the task ends with that.
            raise
        except BaseException as fault:
            self._fail(batches, fault)
            if not isinstance(fault, Exception):
                raise

    async def _others(self, ready: object) -> None:
        """Waits until the event loop has nothing ready but senders, which then all send. A loop that is busy with other things is
        waited for while it brings loads, and for a few turns more."""
        loop = self._loop
        if not isinstance(ready, deque):
            # A loop that isn't asyncio's own doesn't say what it has ready.
            await _NEXT_TURN
            return
        senders = _senders.setdefault(loop, _Senders())
        senders.count += 1
        cells, quiet, turns = self._cells, 0, 0
        try:
            while not senders.may_send and quiet < MOST_QUIET_TURNS and turns < MOST_TURNS:
                if len(ready) < senders.count:
                    senders.may_send = True
                    _senders.pop(loop, None)
                # Those that have waited before send first.
                await _NEXT_TURN
                turns += 1
                quiet = quiet + 1 if self._cells == cells else 0
                cells = self._cells
        finally:
            senders.count -= 1
            if not senders.count and _senders.get(loop) is senders:
                _senders.pop(loop, None)


class _Turn:
    """What is awaited until the next turn of the event loop."""

    def __await__(self) -> Generator[None, None, None]:
        yield


_NEXT_TURN = _Turn()


def _check_fetching(fetching: object) -> None:
    """Refuses what can't be awaited."""
    if not isawaitable(fetching):
        raise TypeError(f"a batch function is an async def, or gives another awaitable; this one gave {type(fetching).__name__}")

"""A data loader that threads share: whichever thread sends a batch fetches it, and all that wait for its keys get the outcomes."""

from __future__ import annotations

import json
import threading
from collections import deque
from collections.abc import Callable, Hashable, Iterable, Iterator, Sequence
from concurrent.futures import CancelledError, Executor, Future
from concurrent.futures import TimeoutError as Late
from contextlib import contextmanager
from itertools import count
from math import inf
from time import monotonic
from typing import TYPE_CHECKING, Any, Generic, Literal, NamedTuple, TypeVar, Union, cast, overload
from weakref import WeakSet

from ._options import LARGEST_LIMIT, _check_function, _check_limit, _check_type, fetched, unhashable
from ._shared import Shared

__all__ = ["Answer", "Entry", "Event", "History", "ThreadedDataLoader"]

K = TypeVar("K")
V = TypeVar("V")
Loader = TypeVar("Loader", bound="ThreadedDataLoader[Any, Any]")

# The names of calls, by their numbers in the library; and how many callers a loader has. Threads past these share a number.
CALLS = ("load", "load_many", "prime", "clear", "clear_all", "dispatch", "settle", "fail")
CALLERS = 32


class Answer(NamedTuple):
    """A key of a call, and what was answered to it."""

    key: Any
    """The key as it was first given."""
    is_fresh: bool
    """Whether a cell began with it: of a load, or of a prime of a key that wasn't held."""
    cell: int | None
    """The cell, if the call is a load or began one."""
    batch: int | None
    """The batch that a fresh load joined."""
    number: int
    """The number of the key: what has one number is one key."""


class Event(NamedTuple):
    """A call of the history."""

    caller: int
    """Which caller made it: a thread, or one of several that share a number."""
    call: str
    """Its name, or ``settle`` or ``fail`` for the end of a batch."""
    answers: tuple[Answer, ...]
    """Its keys."""
    batches: range
    """The batches that it sent or ended."""


class Entry(NamedTuple):
    """What a caller did: it made the call at a place of the history, or it read the outcome of a cell, which the event there ended."""

    at: int
    cell: int | None


class History(NamedTuple):
    """What a closed loader did. A loader of one thread could have had it."""

    events: list[Event]
    entries: list[list[Entry]]
    """Of each caller, in its order."""
    limits: dict[str, int]
    """The limits of the loader, by the names that the program ``plans`` has for them."""

    def to_json(self) -> str:
        """What ``plans --history`` draws: two lines of JSON, with the calls and what each was answered. A key has the text that ``str``
        gives it."""
        texts = _Texts()
        calls = [_call(event, texts) for event in self.events]
        answers = [[event.caller, *_numbers(event)] for event in self.events]
        return "".join(json.dumps(line, separators=(",", ":")) + "\n" for line in ({"script": 1, **self.limits, "calls": calls}, answers))


class _Texts:
    """The texts of keys, by their numbers. No two have one: behind that of the second is its number."""

    def __init__(self) -> None:
        self._texts: dict[int, str] = {}
        self._taken: set[str] = set()

    def key(self, answer: Answer) -> list[str]:
        """A key as ``plans`` reads it: a table, and an id of 1 to 256 bytes."""
        if answer.number not in self._texts:
            text = str(answer.key).encode(errors="replace")[:200].decode(errors="ignore")
            while not text or text in self._taken:
                text = f"{text} #{answer.number}"
            self._taken.add(text)
            self._texts[answer.number] = text
        return ["key", self._texts[answer.number]]


def _call(event: Event, texts: _Texts) -> dict[str, Any]:
    """An event as a call of a script."""
    first, *rest = event.call.split("_")
    name, keys = first + "".join(map(str.title, rest)), [texts.key(answer) for answer in event.answers]
    if event.call in ("settle", "fail"):
        return {name: event.batches[0]}
    return {name: True if event.call in ("clear_all", "dispatch") else keys if event.call == "load_many" else keys[0]}


def _numbers(event: Event) -> list[int]:
    """What it was answered: for each key whether a cell begins with it, the cell and the batch; or the batches that were sent."""
    if event.call in ("load", "load_many", "prime"):
        return [number for answer in event.answers for number in (int(answer.is_fresh), answer.cell or 0, answer.batch or 0)]
    return [*event.batches] if event.call == "dispatch" else []


class _Error(NamedTuple):
    """An outcome that is an error, with the traceback that it came with."""

    error: BaseException
    traceback: Any


class _Empty:
    """What a cell shows before its outcome."""


EMPTY = _Empty()


def _outcome(given: object) -> object:
    """What a cell keeps of a value or an exception. What would end the thread that waits is the cause of another error."""
    if not isinstance(given, BaseException):
        return given
    if isinstance(given, (StopIteration, CancelledError)) or not isinstance(given, Exception):
        wrapped = RuntimeError(f"{type(given).__name__} has ended the batch function, or is in a value's place")
        wrapped.__cause__ = given
        given = wrapped
    return _Error(given, given.__traceback__)


def _outcome_of(future: Future[Any]) -> object:
    """What a cell keeps of what a future has ended with."""
    if not future.done():
        raise ValueError("a key is primed with a future that has ended, and this one hasn't")
    error = CancelledError() if future.cancelled() else future.exception()
    return _outcome(future.result() if error is None else error)


def _given(outcome: object) -> Any:
    """The value of an outcome, or its error is raised, each time with the same traceback."""
    if isinstance(outcome, _Error):
        try:
            raise outcome.error.with_traceback(outcome.traceback)
        finally:
            del outcome
    return outcome


class _Load(Future[V]):
    """A load: a future whose `result` sends what is collected once that is due, as `load` does."""

    def __init__(self, loader: ThreadedDataLoader[Any, V], caller: int, cell: int, ticket: int) -> None:
        super().__init__()
        self._loader, self._caller, self._cell, self._ticket = loader, caller, cell, ticket

    def result(self, timeout: float | None = None) -> V:
        """The value, or its error is raised."""
        return cast(V, _given(self._loader._read(self._caller, self._cell, self._ticket, timeout, self.cancelled)))

    def exception(self, timeout: float | None = None) -> BaseException | None:
        """The error that `result` raises, or None."""
        outcome = self._loader._read(self._caller, self._cell, self._ticket, timeout, self.cancelled)
        return outcome.error if isinstance(outcome, _Error) else None

    def cancel(self) -> bool:
        """Cancels this load alone, unless its outcome is there: whether it did."""
        is_cancelled = super().cancel()
        if is_cancelled:
            self._loader._wake()
        return is_cancelled

    def _end(self, outcome: object) -> None:
        """Ends the future, unless it was cancelled. One thread alone does so."""
        if self.set_running_or_notify_cancel():
            if isinstance(outcome, _Error):
                self.set_exception(outcome.error)
            else:
                self.set_result(cast(V, outcome))


class _Wait(NamedTuple):
    """A thread that waits: for which cell of which loader, and what wakes it."""

    loader: ThreadedDataLoader[Any, Any]
    cell: int
    woken: threading.Event

    def is_blocked(self) -> bool:
        return self.loader._look(self.cell) is EMPTY


class _Here(threading.local):
    """The loaders of which a thread is inside `calling`."""

    def __init__(self) -> None:
        self.loaders: WeakSet[ThreadedDataLoader[Any, Any]] = WeakSet()


# The waits of all threads, whatever their loaders: who waits by one loader asks nothing of another.
_waits: dict[int, _Wait] = {}
_here = _Here()


class _Kind(NamedTuple):
    """Threads inside `calling` that are of as many: the place of the next one, and the places of those that have come in."""

    places: Iterator[int]
    come: set[int]


class _Thread(threading.local):
    """What a loader knows of a thread: its number in the history, and the cells that it fetches."""

    def __init__(self, numbers: Iterator[int]) -> None:
        self.caller = next(numbers) % CALLERS
        self.fetching: set[int] = set()


class ThreadedDataLoader(Generic[K, V]):
    """As ``thrushscreen.DataLoader``, but threads share it, ``load`` waits, and the batch function is a plain one.

    What is collected is sent once each thread inside ``calling()`` waits, or ``delay`` seconds after a load began to wait, or by
    ``dispatch()``. Whoever sends calls the batch function, in its own thread or on the ``executor``. A loader is made for a request: it
    gives no cell back.
    """

    # What a loader isn't given, it has of its class.
    batch_load_fn: Callable[[list[K]], Sequence[Union[V, BaseException]]]
    batch: bool = True
    max_batch_size: int | None = None
    cache: bool = True
    get_cache_key: Callable[[K], Hashable] | None = None
    name: str | None = None
    max_cells: int = LARGEST_LIMIT
    max_calls: int = LARGEST_LIMIT
    delay: float = 0.002
    executor: Executor | None = None

    _shared: Shared

    def __init__(
        self,
        batch_load_fn: Callable[[list[K]], Sequence[Union[V, BaseException]]] | None = None,
        *,
        batch: bool | None = None,
        max_batch_size: int | None = None,
        cache: bool | None = None,
        get_cache_key: Callable[[K], Hashable] | None = None,
        name: str | None = None,
        max_cells: int | None = None,
        max_calls: int | None = None,
        delay: float | None = None,
        executor: Executor | None = None,
    ) -> None:
        """A loader with this batch function, or with that of a subclass.

        :param batch: whether one call of your function fetches several keys.
        :param max_batch_size: the most keys of a batch.
        :param cache: whether a second load of a key is a hit. Without it each load is fetched.
        :param get_cache_key: makes of a key the hashable by which the loader remembers it.
        :param name: a name, which ``repr`` shows.
        :param max_cells: the most cells that the loader begins.
        :param max_calls: the most calls of the history.
        :param delay: after how many seconds of waiting a load is sent; ``math.inf`` is never.
        :param executor: what calls the batch function in the place of the thread that sends.
        """
        given = {name: value for name, value in locals().items() if name != "self" and value is not None}
        if "_shared" in vars(self):
            raise RuntimeError("the loader is open already")
        for option, value in given.items():
            setattr(self, option, value)
        self._check_options()
        size = (self.max_batch_size or LARGEST_LIMIT) if self.batch else 1
        self._shared = Shared(size, self.max_cells, self.max_calls, CALLERS)
        self._limits = {"maxBatchSize": size, "maxCells": self.max_cells, "maxCalls": self.max_calls}
        self._next_key = count()
        self._numbers: dict[Hashable, int] = {}
        self._keys: dict[int, K] = {}
        self._mine = _Thread(count())
        self._inside: dict[int, tuple[int, int]] = {}  # Of how many each thread is one, and how many of these come in by its group's end.
        self._kinds: dict[int, _Kind] = {}
        self._waiting: dict[int, _Wait] = {}
        self._loads: dict[int, deque[_Load[V]]] = {}  # Those of cells that are empty.
        self._fault: BaseException | None = None

    def _check_options(self) -> None:
        if not callable(getattr(self, "batch_load_fn", None)):
            raise TypeError("a loader needs a batch function")
        if self.get_cache_key is not None:
            _check_function("get_cache_key", self.get_cache_key)
        for option in ("batch", "cache"):
            _check_type(option, getattr(self, option), bool)
        if self.name is not None:
            _check_type("name", self.name, str)
        if self.executor is not None:
            _check_type("executor", self.executor, Executor)
        if self.max_batch_size is not None:
            _check_limit("max_batch_size", self.max_batch_size)
        _check_limit("max_cells", self.max_cells)
        _check_limit("max_calls", self.max_calls)
        if type(self.delay) is not int:
            _check_type("delay", self.delay, float)
        if not self.delay >= 0:
            raise ValueError(f"delay is 0 seconds or more, and not {self.delay}")

    if not TYPE_CHECKING:  # A type checker would take each name that is missing.

        def __getattr__(self, name):
            if name in ("_shared", "_mine", "_kinds"):
                raise RuntimeError("the loader is not open: a subclass calls ThreadedDataLoader.__init__")
            raise AttributeError(f"{type(self).__name__} has no {name}")

    def __repr__(self) -> str:
        return f"<{type(self).__name__} {self.name!r}>" if self.name is not None else super().__repr__()

    # What callers ask.

    def load(self, key: K, /, *, timeout: float | None = None) -> V:
        """Loads a key and waits for its value. An error is raised; so is a ``TimeoutError`` after so many seconds."""
        caller = self._mine.caller
        cell, ticket, _ = self._shared.load(caller, self._number(key))
        return cast(V, _given(self._read(caller, cell, ticket, timeout)))

    def submit(self, key: K, /) -> Future[V]:
        """Loads a key: a future of its own. Its ``result`` and ``exception`` send as ``load`` does; other waits for it don't."""
        caller = self._mine.caller
        cell, ticket, _ = self._shared.load(caller, self._number(key))
        load = _Load(self, caller, cell, ticket)
        self._add(load)
        return load

    @overload
    def load_many(
        self, keys: Iterable[K], /, *, return_exceptions: Literal[True] = ..., timeout: float | None = ...
    ) -> list[V | BaseException]: ...
    @overload
    def load_many(self, keys: Iterable[K], /, *, return_exceptions: Literal[False], timeout: float | None = ...) -> list[V]: ...
    def load_many(self, keys: Iterable[K], /, *, return_exceptions: bool = True, timeout: float | None = None) -> Any:
        """Loads the keys as one call: the value or the exception of each, in order; or the first exception is raised, if they aren't
        returned."""
        caller, deadline = self._mine.caller, None if timeout is None else monotonic() + timeout
        given = self._shared.load_many(caller, [self._number(key) for key in keys])
        outcomes = []
        for cell, ticket, _ in given:
            outcomes.append(self._read(caller, cell, ticket, None if deadline is None else max(deadline - monotonic(), 0)))
        if not return_exceptions:
            return [_given(outcome) for outcome in outcomes]
        return [outcome.error if isinstance(outcome, _Error) else outcome for outcome in outcomes]

    def prime(self: Loader, key: K, value: V | BaseException | Future[V], /) -> Loader:
        """Holds a value for the key, unless one is held. It may be an exception, or a future of either that has ended."""
        outcome = _outcome_of(value) if isinstance(value, Future) else _outcome(value)
        self._shared.prime(self._mine.caller, self._number(key), outcome)
        return self

    def clear(self: Loader, key: K, /) -> Loader:
        """Forgets the key, so that its next load is fetched."""
        self._shared.clear(self._mine.caller, self._number(key))
        return self

    def clear_all(self: Loader) -> Loader:
        """Forgets all keys."""
        self._shared.clear_all(self._mine.caller)
        return self

    def dispatch(self) -> None:
        """Sends what is collected, and fetches it, unless there is an executor: then that does."""
        jobs: list[tuple[int, list[int], list[int]]] = []
        try:
            self._shared.dispatch(self._mine.caller, jobs)
            while jobs:
                if self.executor is None:
                    self._fetch(jobs[0])
                else:
                    self._hand_over(jobs[0], self.executor)
                del jobs[0]
        finally:
            for job in jobs:
                self._fail(job, RuntimeError("whoever sent the batch was interrupted"))

    @contextmanager
    def calling(self, *, of: int = 1) -> Iterator[None]:
        """While a thread is inside, it is one of those that load: once all of them wait, what is collected is sent.

        :param of: of how many threads it is one, which are inside at once. Until the last of them has come in, what is collected isn't
            sent so. Those that have left by then count too. Whoever comes in later is the first of as many anew.
        """
        _check_limit("of", of)
        ident, place = threading.get_ident(), -1
        kind = self._kinds.setdefault(of, _Kind(count(), set()))
        is_outer = ident not in self._inside
        try:
            if is_outer:
                place = next(kind.places)
                self._inside[ident] = of, place - place % of + of
                kind.come.add(place)
                _here.loaders.add(self)
            yield
        finally:
            if place >= 0:
                kind.come.add(place)
            if is_outer:
                self._inside.pop(ident, None)
                _here.loaders.discard(self)
                self._wake_if_all_wait()

    def close(self) -> History:
        """Closes the loader, once each batch has ended: its history. From then on its calls raise."""
        self._shared.close()
        events = [self._event(*event) for event in iter(map(self._shared.event, count()).__next__, None)]
        entries = [[Entry(at, None if is_call else cell) for is_call, at, cell in self._entries(caller)] for caller in range(CALLERS)]
        return History(events, entries, self._limits)

    # Keys.

    def _number(self, key: K) -> int:
        """The number of a key, by which the library knows it. The dict says which keys are one."""
        if key is None:
            raise TypeError("a key is a value, and not None")
        number = next(self._next_key)
        if self.cache:
            cache_key: Any = key if self.get_cache_key is None else self.get_cache_key(key)
            try:
                number = self._numbers.setdefault(cache_key, number)
            except TypeError as fault:
                raise unhashable(cache_key) or fault from None
        self._keys.setdefault(number, key)
        return number

    # Loads and waits. A cell shows its outcome before its loads end, and a load is there before its cell is looked at once more: so
    # whoever comes last ends it.

    def _add(self, load: _Load[V]) -> None:
        """Has a load end with its cell."""
        outcome = self._look(load._cell)
        if outcome is not EMPTY:
            return load._end(outcome)
        loads = self._loads.setdefault(load._cell, deque())
        loads.append(load)
        if (outcome := self._look(load._cell)) is not EMPTY:
            self._end_loads(loads, outcome)

    def _look(self, cell: int) -> object:
        """What a cell shows. If the loader had to stop, an empty one shows why."""
        outcome = self._shared.look(cell, EMPTY)
        return _outcome(self._fault) if outcome is EMPTY and self._fault is not None else outcome

    def _end_loads(self, loads: deque[_Load[V]], outcome: object) -> None:
        while loads:
            try:
                load = loads.popleft()
            except IndexError:
                break
            load._end(outcome)

    def _read(
        self, caller: int, cell: int, ticket: int, timeout: float | None, is_cancelled: Callable[[], bool] = lambda: False
    ) -> object:
        """Waits for the outcome of a load, and notes in the history that the caller has it. A load that was cancelled has none."""
        outcome = self._look(cell)
        if outcome is EMPTY:
            outcome = self._wait(cell, monotonic() + (inf if timeout is None else timeout), is_cancelled)
        if is_cancelled():
            raise CancelledError
        self._shared.saw(caller, ticket)
        return outcome

    def _wait(self, cell: int, late: float, is_cancelled: Callable[[], bool]) -> object:
        """Waits until a cell shows its outcome, or the load is cancelled. What is due meanwhile it sends."""
        if cell in self._mine.fetching:
            raise RuntimeError("the batch function waits for a key of its own batch")
        ident, wait, due = threading.get_ident(), _Wait(self, cell, threading.Event()), monotonic() + self.delay
        outer = _waits.get(ident)
        try:
            while True:
                wait.woken.clear()
                self._waiting[id(wait)] = _waits[ident] = wait
                for other in list(_here.loaders):
                    if other is not self:
                        other._wake_if_all_wait()
                if (outcome := self._look(cell)) is not EMPTY or is_cancelled():
                    return outcome
                now = monotonic()
                if now >= late:
                    raise Late
                if (now >= due or self._all_wait()) and self._shared.collects():
                    del _waits[ident]
                    self.dispatch()
                else:
                    left = min(late, due if now < due else inf) - now
                    wait.woken.wait(None if left == inf else left)
        finally:
            self._waiting.pop(id(wait), None)
            if outer is None:
                _waits.pop(ident, None)
            else:
                _waits[ident] = outer

    def _all_wait(self) -> bool:
        """Whether threads are inside, the oldest group of each kind has come in, and each thread waits for a cell that is empty."""
        come = {of: len(kind.come) for of, kind in self._kinds.copy().items()}
        inside = self._inside.copy()  # After the counts: who is counted is inside already.
        waits = [_waits.get(ident) for ident in inside]
        whole = {of for of, needed in inside.values() if come.get(of, 0) >= needed}
        is_whole = all(of in whole for of, _ in inside.values())
        return bool(waits) and is_whole and all(wait is not None and wait.is_blocked() for wait in waits)

    def _wake_if_all_wait(self) -> None:
        if self._waiting and self._all_wait() and self._shared.collects():
            self._wake()

    def _wake(self) -> None:
        """Has each thread that waits look again."""
        for wait in list(self._waiting.values()):
            wait.woken.set()

    # Batches.

    def _hand_over(self, job: tuple[int, list[int], list[int]], executor: Executor) -> None:
        """Has an executor fetch a batch. If it doesn't, the batch fails."""

        def fail_if_cancelled(done: Future[None]) -> None:
            if done.cancelled():
                self._fail(job, RuntimeError("the executor has cancelled the batch"))

        try:
            executor.submit(self._fetch, job).add_done_callback(fail_if_cancelled)
        except RuntimeError as fault:
            self._fail(job, fault)

    def _fetch(self, job: tuple[int, list[int], list[int]]) -> None:
        """Fetches a batch, and ends it."""
        batch, cells, numbers = job
        mine = self._mine
        mine.fetching.update(cells)
        try:
            answer = fetched(self.batch_load_fn, [self._keys[number] for number in numbers])
            if len(answer) != len(cells):
                raise TypeError(f"a batch function answers a value for each key: {len(cells)}, and not {len(answer)}")
            outcomes = [_outcome(given) for given in answer]
            self._shared.settle(mine.caller, batch, outcomes)
        except BaseException as fault:
            self._fail(job, fault)
            if not isinstance(fault, Exception):
                raise
        else:
            self._show(cells)
        finally:
            mine.fetching.difference_update(cells)

    def _fail(self, job: tuple[int, list[int], list[int]], fault: BaseException) -> None:
        """Fails a batch. If even that is refused twice, the loader stops, and each load that waits has the fault."""
        batch, cells, _ = job
        for _ in range(2):
            try:
                self._shared.fail(self._mine.caller, batch, _outcome(fault))
                return self._show(cells)
            except (MemoryError, RuntimeError) as refused:
                last = refused
        self._fault = last
        self._shared.stop()
        self._show(list(self._loads))

    def _show(self, cells: Iterable[int]) -> None:
        """Wakes who waits for cells that have an outcome, and then ends their loads: a callback of one may wait itself."""
        self._wake()
        for cell in cells:
            self._end_loads(self._loads.pop(cell, deque()), self._look(cell))

    # The history.

    def _event(self, caller: int, call: int, batch: int, batches: int, keys: list[tuple[int, bool, int, int]]) -> Event:
        is_load = CALLS[call] in ("load", "load_many")
        answers = tuple(
            Answer(self._keys[number], is_fresh, cell if is_load or is_fresh else None, at if is_load and is_fresh else None, number)
            for number, is_fresh, cell, at in keys
        )
        return Event(caller, CALLS[call], answers, range(batch, batch + batches))

    def _entries(self, caller: int) -> Iterator[tuple[bool, int, int]]:
        for index in count():
            if (entry := self._shared.entry(caller, index)) is None:
                return
            yield entry


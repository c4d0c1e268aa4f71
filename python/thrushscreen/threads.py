"""A data loader for threads without an event loop: a thread fetches what it has loaded in rounds, once it asks for an outcome."""

from __future__ import annotations

import threading
from collections import deque
from collections.abc import Callable, Generator, Iterable, MutableMapping, Sequence
from inspect import GEN_CREATED, getgeneratorstate
from types import GeneratorType
from typing import Any, Generic, Literal, TypeVar, Union, overload
from weakref import ref

from ._options import F, K, Options, V, checked_map, fetched

__all__ = ["DataLoader", "Later", "run"]

V_co = TypeVar("V_co", covariant=True)


class _Place:
    """Where an outcome comes, and the calls that wait for it: what the desk has in a future's place. It knows no loader."""

    is_done = False
    value: Any = None
    error: BaseException | None = None
    waits: Later[Any]

    def __init__(self) -> None:
        self.calls: deque[Callable[[_Place], object]] = deque()

    def set_result(self, value: object) -> None:
        self.value, self.is_done = value, True
        if self.calls:
            _threads.rounds.due.append(self)

    def set_exception(self, error: BaseException | type[BaseException]) -> None:
        self.error = error() if isinstance(error, type) else error
        self.traceback = self.error.__traceback__
        self.set_result(None)

    def exception(self) -> BaseException | None:
        return None if self.error is None else self.error.with_traceback(self.traceback)

    def result(self) -> Any:
        if self.error is not None:
            raise self.error.with_traceback(self.traceback)
        return self.value

    def when_done(self, call: Callable[[_Place], object]) -> None:
        self.calls.append(call)
        if self.is_done:
            _threads.rounds.due.append(self)


class _Rounds:
    """What is due in a thread, and what its loaders have collected. It keeps no loader: with one goes what it has collected."""

    create_future = _Place  # By this the desk makes futures.

    def __init__(self) -> None:
        self.name = threading.current_thread().name
        self.due: deque[_Place] = deque()
        self.collected: list[tuple[ref[DataLoader[Any, Any]], list[Any]]] = []
        self.going = (False for _ in ())

    def collect(self, loader: DataLoader[Any, Any], batches: list[Any]) -> None:
        """Notes a list whose batches are to be fetched. If it is empty, the loader is to send what it has collected."""
        self.collected.append((ref(loader), batches))

    def fetch(self) -> bool:
        """Sends whatever is collected, and then fetches it: whether there was anything. What an interrupt leaves is for the next call."""
        known = ((weak(), batches) for weak, batches in self.collected)
        under_way = [(loader, batches) for loader, batches in known if loader is not None and (batches or loader._sending is batches)]
        self.collected = [(ref(loader), batches) for loader, batches in under_way]
        for loader, batches in under_way:
            loader._send(batches)
        for loader, batches in under_way:
            loader._fetch_here(batches)
        return bool(under_way)

    def call(self) -> bool:
        """Makes a call that is due: whether something was."""
        is_due = bool(self.due)
        if is_due:
            ended = self.due[0]
            ended.calls.popleft()(ended) if ended.calls else self.due.popleft()
        return is_due

    def go_on(self, place: _Place) -> None:
        """Makes the calls that are due, and then a round, until the place has its outcome and no call is due. What is called meanwhile and
        waits itself has rounds made before other calls, so that they don't nest."""
        if self.going.gi_running:
            has_ended = all(self.fetch() or self.call() for _ in iter(lambda: place.is_done, True))
        else:
            self.going = (self.call() or self.fetch() for _ in iter(lambda: place.is_done and not self.due, True))
            has_ended = all(self.going)
        if not has_ended:
            raise RuntimeError("nothing is under way that ends this: it waits for itself, isn't sent, or was interrupted")


class _Threads(threading.local):
    def __init__(self) -> None:
        self.rounds = _Rounds()


_threads = _Threads()


class Later(Generic[V_co]):
    """An outcome that comes when its thread asks for it. It belongs to the thread in which it was made."""

    def __init__(self, place: _Place, rounds: _Rounds, keeps: object) -> None:
        self._place, self._rounds, self._keeps = place, rounds, keeps  # The loader that is kept has to fetch it.

    def done(self) -> bool:
        """Whether the outcome is there."""
        return self._place.is_done

    def exception(self) -> BaseException | None:
        """The error that `result` raises, or None."""
        self._checked()._rounds.go_on(self._place)
        return self._place.exception()

    def result(self) -> V_co:
        """The value. If it isn't there, this thread's loaders first send and fetch what they have collected. An error is raised."""
        self.exception()
        return self._place.result()  # type: ignore[no-any-return]

    def then(self, call: Callable[[V_co], Later[F] | F]) -> Later[F]:
        """What the call makes of the value, once that is there: its own outcome if it gives a Later. An error passes the call by."""
        return _begin(_after(self._checked()._place, call), self)

    def add_done_callback(self, call: Callable[[Any], object]) -> None:
        """Has the call made with this Later, once the outcome is there and the thread asks for one."""
        self._checked()._place.when_done(lambda _: call(self))

    def _checked(self) -> Later[V_co]:
        """This Later, if it is of this thread."""
        if self._rounds is not _threads.rounds:
            raise RuntimeError(f"this Later is of another thread: of {self._rounds.name}, and not of {_threads.rounds.name}")
        return self


def run(asked: Later[V] | Generator[Any, Any, V]) -> V:
    """The outcome of a Later, or of a generator that yields what it waits for: a Later, a generator, or a list of these. It gets the value
    of each, or the first error once all of a list have ended. Whatever can be asked at once is one batch."""
    return _later(asked).result()  # type: ignore[no-any-return]


def _later(asked: object) -> Later[Any]:
    if isinstance(asked, Later):
        return asked._checked()
    if isinstance(asked, Generator):
        if isinstance(asked, GeneratorType) and getgeneratorstate(asked) != GEN_CREATED:
            raise RuntimeError("a generator is waited for once, before it has begun")
        return _begin(asked, None)
    if isinstance(asked, (list, tuple)):
        laters = [_later(each) for each in asked]
        return _begin(_all([later._place for later in laters], False), laters)
    raise TypeError(f"a Later, a generator or a list of these can be waited for, and not {type(asked).__name__}")


def _begin(generator: Generator[Any, Any, Any], keeps: object) -> Later[Any]:
    """Takes a generator to its first yield: the Later of what it will give."""
    place = _Place()
    _step(place, generator, None)
    return Later(place, _threads.rounds, keeps)


def _step(place: _Place, generator: Generator[Any, Any, Any], ended: _Place | None, error: BaseException | None = None) -> None:
    """Takes a generator to its next yield with an error, or with the outcome of what it waited for. If that is a place, it looks itself."""
    try:
        error = error if ended is None else ended.exception()
        asked = generator.send(ended and ended.value) if error is None else generator.throw(error)
        if isinstance(asked, _Place):
            return asked.when_done(lambda _: _step(place, generator, None))
        try:
            place.waits = _later(asked)
        except (TypeError, RuntimeError) as fault:
            return _step(place, generator, None, fault)
        place.waits._place.when_done(lambda ended: _step(place, generator, ended))
    except StopIteration as end:
        place.set_result(end.value)
    except BaseException as fault:
        place.set_exception(fault if isinstance(fault, Exception) else RuntimeError(f"{type(fault).__name__} has ended it"))
        if not isinstance(fault, Exception):
            raise


def _after(place: _Place, call: Callable[[Any], Any]) -> Generator[Any, Any, Any]:
    yield place
    made = call(place.result())
    return (yield made) if isinstance(made, Later) else made


def _all(places: list[_Place], are_errors_values: bool) -> Generator[Any, Any, list[Any]]:
    """Waits for all. Then it gives their values, or raises the first error, unless errors are values too."""
    for place in places:
        if not place.is_done:
            yield place
    return [place.error if are_errors_values and place.error is not None else place.result() for place in places]


class _Map:
    """A cache map as the desk uses it, which has a place for each Later."""

    def __init__(self, given: MutableMapping[Any, Later[Any]]) -> None:
        self.given, self.pop, self.clear = checked_map(given), given.pop, given.clear

    def get(self, key: object, default: None) -> _Place | None:
        later = self.given.get(key, default)
        return None if later is None else _later(later)._place

    def __setitem__(self, key: object, place: _Place) -> None:
        self.given[key] = Later(place, _threads.rounds, None)


class DataLoader(Options[K, V, Sequence[Union[V, BaseException]], Later[V]]):
    """As ``thrushscreen.DataLoader``, but its batch function is a plain one, and its loads give Laters."""

    def _open(self, *_: Any) -> None:
        super()._open(lambda: _threads.rounds, None if self.cache_map is None else _Map(self.cache_map))

    def load(self, key: K, /) -> Later[V]:
        """Loads a key: the Later of its value, or of its error."""
        return Later(super().load(key), self._loop, self)  # type: ignore[arg-type]

    def held(self, key: K, /) -> Later[V] | None:
        """The Later of what is held for the key, or None. It loads nothing."""
        place: Any = super().held(key)
        return None if place is None else Later(place, self._loop, self)

    @overload
    def load_many(self, keys: Iterable[K], *, return_exceptions: Literal[True] = ...) -> Later[list[V | BaseException]]: ...
    @overload
    def load_many(self, keys: Iterable[K], *, return_exceptions: Literal[False]) -> Later[list[V]]: ...
    def load_many(self, keys: Iterable[K], *, return_exceptions: bool = True) -> Later[Any]:
        """Loads the keys: the Later of the value or the exception of each, in order, or with the first exception if they aren't returned."""
        if type(self).load is not DataLoader.load or self.cache_map is not None:
            laters = [self.load(key) for key in keys]
            return _begin(_all([later._place for later in laters], return_exceptions), laters)
        return _begin(_all(self._load_all(keys), return_exceptions), self)  # type: ignore[arg-type]

    def _is_future(self, value: object) -> bool:
        return isinstance(value, Later) and value._checked() is value

    def _fetch(self, batches: list[Any]) -> None:
        """Fetches the only batch of a list, and ends it. The desk ends what this leaves."""
        self._settle(batches, fetched(self.batch_load_fn, batches[0][1]))

"""The options of a loader and its counters, for each kind of it."""

from __future__ import annotations

from collections.abc import Callable, Hashable, MutableMapping, Sequence
from functools import wraps
from types import CoroutineType
from typing import Any, NamedTuple, TypeVar

from ._desk import Desk

K = TypeVar("K")
V = TypeVar("V")
A = TypeVar("A")
F = TypeVar("F")
Loader = TypeVar("Loader", bound="Options[Any, Any, Any, Any]")
Init = TypeVar("Init", bound=Callable[..., None])

# The most keys of a batch, and the most cells of a loader.
LARGEST_LIMIT = 65_536


def _quicker(init: Init) -> Init:
    """The same `__init__`, which takes less time for a loader without options: Python looks up the default of each one by its name."""

    @wraps(init)
    def quicker(self: Options[Any, Any, Any, Any], batch_load_fn: Any = None, **options: Any) -> None:
        if options:
            init(self, batch_load_fn, **options)
        else:
            if batch_load_fn is not None:
                self.batch_load_fn = batch_load_fn
            self._open()

    return quicker  # type: ignore[return-value]


class Counters(NamedTuple):
    """What a loader has done since it was made."""

    loads: int
    """Keys that were loaded, each as often as it was."""
    hits: int
    """Loads among them that found their key."""
    batches: int
    """Batches that were sent to the batch function."""
    keys: int
    """Keys that these batches had."""
    failures: int
    """Batches that failed as a whole."""


class Options(Desk[K, V, A, F]):
    """A loader of these keys and values whose batch function gives an `A`, and whose loads give an `F`."""

    # What a loader isn't given, it has of its class.
    batch_load_fn: Callable[[list[K]], A]
    batch: bool = True
    max_batch_size: int | None = None
    cache: bool = True
    get_cache_key: Callable[[K], Hashable] | None = None
    cache_map: MutableMapping[Any, F] | None = None
    batch_schedule_fn: Callable[[Callable[[], None]], object] | None = None
    name: str | None = None
    max_cells: int = LARGEST_LIMIT

    @_quicker
    def __init__(
        self,
        batch_load_fn: Callable[[list[K]], A] | None = None,
        *,
        batch: bool | None = None,
        max_batch_size: int | None = None,
        cache: bool | None = None,
        get_cache_key: Callable[[K], Hashable] | None = None,
        cache_map: MutableMapping[Any, F] | None = None,
        batch_schedule_fn: Callable[[Callable[[], None]], object] | None = None,
        name: str | None = None,
        max_cells: int | None = None,
    ) -> None:
        """A loader with this batch function, or with that of a subclass. Once you have made it, a new value of its limits, ``batch``,
        ``cache``, ``cache_map`` or ``get_cache_key`` has no effect.

        :param batch: whether one call of your function fetches several keys.
        :param max_batch_size: the most keys of a batch.
        :param cache: whether a second load of a key is a hit. Without it each load is fetched.
        :param get_cache_key: makes of a key the hashable by which the loader remembers it.
        :param cache_map: a mapping that remembers the futures of keys in the loader's place. It belongs to one loader.
        :param batch_schedule_fn: your function of one argument, ``send``. Call ``send()``, now or later, to send what is collected.
        :param name: a name, which ``repr`` shows.
        :param max_cells: the most cells that the loader begins.
        """
        if batch_load_fn is not None:
            self.batch_load_fn = batch_load_fn
        if batch is not None:
            self.batch = batch
        if max_batch_size is not None:
            self.max_batch_size = max_batch_size
        if cache is not None:
            self.cache = cache
        if get_cache_key is not None:
            self.get_cache_key = get_cache_key
        if cache_map is not None:
            self.cache_map = cache_map
        if batch_schedule_fn is not None:
            self.batch_schedule_fn = batch_schedule_fn
        if name is not None:
            self.name = name
        if max_cells is not None:
            self.max_cells = max_cells
        self._open()

    def _check_options(self) -> None:
        """Refuses options that aren't what they should be."""
        if not callable(getattr(self, "batch_load_fn", None)):
            raise TypeError("a loader needs a batch function")
        for option in ("get_cache_key", "batch_schedule_fn"):
            if getattr(self, option) is not None:
                _check_function(option, getattr(self, option))
        if self.cache_map is not None:
            checked_map(self.cache_map)
        for option in ("batch", "cache"):
            _check_type(option, getattr(self, option), bool)
        if self.name is not None:
            _check_type("name", self.name, str)
        if self.max_batch_size is not None:
            _check_limit("max_batch_size", self.max_batch_size)
        _check_limit("max_cells", self.max_cells)

    def __repr__(self) -> str:
        return f"<{type(self).__name__} {self.name!r}>" if self.name is not None else super().__repr__()

    def prime(self: Loader, key: K, value: V | BaseException | F) -> Loader:
        """Holds a value for the key, unless one is held. It may be an exception, or a future of either."""
        self._prime(key, value, self._is_future(value))
        return self

    def _is_future(self, value: object) -> bool:
        """Whether it is what loads give."""
        raise NotImplementedError

    @property
    def counters(self) -> Counters:
        """What the loader has done so far."""
        return Counters(*self._counts)


def checked(answer: Any) -> Sequence[Any]:
    """The answer of a batch function, unless it is no sequence, or one of something else than values."""
    is_sequence = hasattr(answer, "__len__") and hasattr(answer, "__getitem__") and not hasattr(answer, "keys")
    if not is_sequence or isinstance(answer, (str, bytes, bytearray, memoryview)):
        raise TypeError(f"a batch function answers a list of values; this one answered {type(answer).__name__}")
    return answer  # type: ignore[no-any-return]


def fetched(batch_load_fn: Callable[[list[Any]], object], keys: list[Any]) -> Sequence[Any]:
    """What a plain batch function answers."""
    answer = batch_load_fn(keys)
    if isinstance(answer, CoroutineType):
        answer.close()  # Python would warn that nobody awaits it.
        raise TypeError("the batch function is an async def: give a plain function, or use thrushscreen.DataLoader")
    return checked(answer)


def unhashable(key: object) -> TypeError | None:
    """What a call raises for a key that doesn't hash."""
    try:
        hash(key)
    except TypeError:
        return TypeError(f"a key is hashable, and {type(key).__name__} isn't: give get_cache_key")
    return None


def _check_type(option: str, given: object, wanted: type) -> None:
    if not isinstance(given, wanted) or (isinstance(given, bool) and wanted is not bool):
        raise TypeError(f"{option} is of type {wanted.__name__}, and not {type(given).__name__}")


def _check_limit(option: str, given: int) -> None:
    _check_type(option, given, int)
    if not 1 <= given <= LARGEST_LIMIT:
        raise ValueError(f"{option} is 1 to {LARGEST_LIMIT}, and not {given}")


def _check_function(option: str, given: object) -> None:
    if not callable(given):
        raise TypeError(f"{option} is a function, and not of type {type(given).__name__}")


def checked_map(given: Any) -> MutableMapping[Any, Any]:
    for method in ("get", "__setitem__", "pop", "clear"):
        if not callable(getattr(given, method, None)):
            raise TypeError(f"cache_map is a mapping, and {type(given).__name__} has no {method}")
    return given  # type: ignore[no-any-return]

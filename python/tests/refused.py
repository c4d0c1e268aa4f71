"""Makes calls of a loader of which each is refused each growth of CPython's own in turn. Each raises MemoryError or gives its own
answer, no load is left waiting, and the loader answers as it should behind it. It prints how many growths were refused.

A growth is refused once, and then once with each that follows. Only the calls themselves are refused, not the event loop.
"""

import asyncio
import sys

import _testcapi

from thrushscreen import DataLoader, threads

# After so many seconds what waits is taken to wait for ever.
LONGEST = 20

# The most growths of a call.
MOST = 400


def refused(call, first, last):
    """Makes a call while growths from the first to the last one are refused: what it gives or raises."""
    _testcapi.set_nomemory(first, last)
    try:
        return call()
    except BaseException as fault:
        # CPython has sixteen MemoryErrors that take no memory: none is kept by a frame.
        return fault.with_traceback(None)
    finally:
        _testcapi.remove_mem_hooks()


class Called:
    """A loader whose calls are refused growths, and what has what it collects sent."""

    def __init__(self, options):
        self.sends = []
        self.loader = DataLoader(self.fetch, batch_schedule_fn=self.sends.append, **options)

    async def fetch(self, keys):
        return [KeyError(key) if key == "bad" else f"{key}!" for key in keys]

    def send(self):
        while self.sends:
            self.sends.pop()()

    async def outcomes(self, futures):
        """What futures end with, within a limit of time."""
        return await asyncio.wait_for(asyncio.gather(*futures, return_exceptions=True), LONGEST)


KEYS = ["a", ("b", 1), 3, "bad"]

CALLS = {
    "load": lambda of: of.loader.load("new"),
    "load of a held key": lambda of: of.loader.load("a"),
    "load of a primed key": lambda of: of.loader.load("primed"),
    "load of a collected key": lambda of: of.loader.load("collected"),
    "load of another key": lambda of: of.loader.load(("x", "y")),
    "load_many": lambda of: of.loader._load_all(["new", "a", ("x", "y"), "collected", "new"]),
    "held": lambda of: of.loader.held("a"),
    "held of a primed key": lambda of: of.loader.held("primed"),
    "prime": lambda of: of.loader.prime("other", 5),
    "prime of an error": lambda of: of.loader.prime("other", KeyError("other")),
    "prime of a future": lambda of: of.loader.prime("other", of.future),
    "clear": lambda of: of.loader.clear("a"),
    "clear of a collected key": lambda of: of.loader.clear("collected"),
    "clear_all": lambda of: of.loader.clear_all(),
    "counters": lambda of: of.loader.counters,
    "send": lambda of: of.send(),
    "a loader": lambda of: DataLoader(of.fetch),
}


def is_memory(outcome):
    return isinstance(outcome, MemoryError) or isinstance(outcome, (RuntimeError, SystemError)) and isinstance(outcome.__cause__, MemoryError)


async def check(name, first, last, options):
    """Whether the call met a refusal; and what is wrong."""
    of = Called(options)
    of.future = asyncio.get_running_loop().create_future()
    loads = [of.loader.load(key) for key in KEYS]
    of.send()
    await of.outcomes(loads)
    of.loader.prime("primed", 6)
    before = [of.loader.load("collected"), of.loader.load("collected")]
    answer = refused(lambda: CALLS[name](of), first, last)
    if isinstance(answer, BaseException) and not isinstance(answer, MemoryError):
        raise AssertionError(f"{name}, growth {first}: it raises {answer!r}")
    of.future.set_result(5)
    of.send()
    futures = [*before, *(answer if isinstance(answer, list) else [answer] if asyncio.isfuture(answer) else [])]
    for outcome in await of.outcomes(futures):
        if isinstance(outcome, BaseException) and not is_memory(outcome) and not isinstance(outcome, KeyError):
            raise AssertionError(f"{name}, growth {first}: a load ends with {outcome!r}")
    # The loader answers.
    keys = [*KEYS, "collected", "new", ("x", "y"), "next"]
    loads = [of.loader.load(key) for key in keys]
    of.send()
    outcomes = await of.outcomes(loads)
    wanted = [repr(KeyError("bad")) if key == "bad" else repr(f"{key}!") for key in keys]
    if [repr(outcome) for outcome in outcomes] != wanted:
        raise AssertionError(f"{name}, growth {first}: the loader answers {outcomes}")
    return isinstance(answer, MemoryError)


class Answered(DataLoader):
    """A loader that is refused growths of the calls that end a batch."""

    first = last = 0
    is_failed = None

    async def batch_load_fn(self, keys):
        return ["A", "B", StopIteration("c")]

    def _settle(self, batches, answer):
        settle, fail = super()._settle, super()._fail
        outcome = refused(lambda: settle(batches, answer), self.first, self.last)
        self.is_failed = isinstance(outcome, MemoryError)
        if self.is_failed:
            outcome = refused(lambda: fail(batches, OSError("down")), self.first, self.last)
        assert outcome is None, outcome
        assert batches == []


async def check_answer(first, last):
    """The same of the answer of a batch."""
    loader = Answered()
    loader.first, loader.last = first, last
    loads = [loader.load(key) for key in ("a", "b", "b", "c")]
    while loader.is_failed is None:
        await asyncio.sleep(0)
    for load, wanted in zip(loads, ("A", "B", "B", RuntimeError)):
        assert load.done()
        error = load.exception()
        assert isinstance(error, (OSError, MemoryError)) or (type(error) if error else load.result()) == wanted, (load, first, last)
    return first < 20


def fetch_here(keys):
    return [KeyError(key) if key == "bad" else f"{key}!" for key in keys]


def follows(loader):
    one = yield loader.load("new")
    return (yield [loader.load(one), loader.load_many([one, "collected"])])


# The same of the class for threads, each with its own answer.
IN_THREADS = {
    "load": (lambda loader: loader.load("new").result(), "new!"),
    "load of a held key": (lambda loader: loader.load("a").result(), "a!"),
    "load of a primed key": (lambda loader: loader.load("primed").result(), 6),
    "load of a key with an error": (lambda loader: repr(loader.load("bad").exception()), "KeyError('bad')"),
    "load_many": (lambda loader: loader.load_many(["new", "a", "collected", "new"]).result(), ["new!", "a!", "collected!", "new!"]),
    "held": (lambda loader: loader.held("a").result(), "a!"),
    "prime": (lambda loader: loader.prime("other", 5).load("other").result(), 5),
    "prime of a Later": (lambda loader: loader.prime("other", loader.load("new")).load("other").result(), "new!"),
    "then": (lambda loader: loader.load("new").then(loader.load).then(len).result(), 5),
    "run": (lambda loader: threads.run(follows(loader)), ["new!!", ["new!!", "collected!"]]),
    "a loader": (lambda loader: threads.DataLoader(fetch_here).load(1).result(), "1!"),
}


async def check_in_threads(name, first, last):
    """The same of a call of the class for threads. What waits for it may have lost that, and then says so."""
    threads._threads.rounds = threads._Rounds()
    loader = threads.DataLoader(fetch_here)
    loader.load_many(["a", "bad"]).result()
    collected = loader.prime("primed", 6).load("collected")
    call, own = IN_THREADS[name]
    answer = refused(lambda: call(loader), first, last)
    lost = isinstance(answer, RuntimeError) and "nothing is under way" in str(answer)
    if answer != own and "MemoryError" not in repr(answer) and not lost:
        raise AssertionError(f"{name} in a thread, growth {first}: it gives {answer!r}")
    if not is_memory(outcome := collected.exception()) and collected._place.value != "collected!":
        raise AssertionError(f"{name} in a thread, growth {first}: a load ends with {outcome!r}, {collected._place.value}")
    for _ in range(2):
        answers = loader.load_many(["a", "new", "collected", "next"]).result()
        if answers != ["a!", "new!", "collected!", "next!"]:
            raise AssertionError(f"{name} in a thread, growth {first}: the loader answers {answers}")
        loader.clear_all()
    return answer != own


def is_met(coroutine):
    """Runs one check in a loop of its own: whether it met a refusal."""
    loop = asyncio.new_event_loop()
    # The loop would report what a task that is dropped has raised.
    loop.set_exception_handler(lambda *_: None)
    try:
        return loop.run_until_complete(coroutine)
    finally:
        for task in asyncio.all_tasks(loop):
            task.cancel()
        loop.run_until_complete(asyncio.sleep(0))
        loop.close()


def main():
    count = 0
    sys.unraisablehook = lambda _: None
    for options in ({}, {"max_batch_size": 1}, {"cache": False}, {"get_cache_key": repr}):
        for name in [*CALLS, None]:
            for first in range(1, MOST):
                met = False
                for last in (first + 1, 0):
                    met = is_met(check(name, first, last, options) if name else check_answer(first, last)) or met
                count += met
                if not met and first > 30:
                    break
    # Other versions, 3.10, 3.12 and 3.13 among them, end or crash by themselves where they get no memory for a generator.
    for name in IN_THREADS if sys.version_info[:2] == (3, 11) else ():
        for first in range(1, MOST):
            # Once only: CPython itself ends where its own code can't make an exception.
            met = is_met(check_in_threads(name, first, first + 1))
            count += met
            if not met and first > 60:
                break
    assert count > 50, count
    print(f"{count} growths refused")


main()

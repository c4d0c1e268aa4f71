"""The tests of the asyncio class as tests of that for threads: their coroutines are driven as generators are, in rounds.

A module of tests is read once more with the names of here in the place of its imports. So its coroutines await Laters, and its batch
functions are plain ones, which ask for a result if theirs await something.
"""

import inspect
import pathlib
import re
import types
import unittest as plain_unittest

from thrushscreen import threads

TESTS = pathlib.Path(__file__).resolve().parent

# What replaces an import of a module of tests.
REPLACED = {
    r"^import asyncio$": "from in_threads import asyncio",
    r"^import unittest$": "from in_threads import unittest",
    r"^from thrushscreen import DataLoader\b": "from in_threads import DataLoader\nfrom thrushscreen import Counters",
    r"^from test_nothing_hangs import .*$": "from in_threads import soon, turns",
}


def awaited(later):
    return (yield later)


threads.Later.__await__ = awaited


@types.coroutine
def resumed(coroutine, asked):
    """The rest of a coroutine, which has asked for this."""
    while True:
        try:
            given = yield asked
        except BaseException as fault:
            step, given = coroutine.throw, fault
        else:
            step = coroutine.send
        try:
            asked = step(given)
        except StopIteration as end:
            return end.value


def begun(coroutine):
    """What a coroutine gives, at once or later."""
    try:
        asked = coroutine.send(None)
    except StopIteration as end:
        return end.value
    return threads._begin(resumed(coroutine, asked), None)


def given_by(coroutine):
    """What a coroutine gives, waited for."""
    given = begun(coroutine)
    return given.result() if isinstance(given, threads.Later) else given


def later_of(given):
    """The Later of a coroutine, of what it gives, or of one that is there."""
    given = begun(given) if inspect.iscoroutine(given) else given
    if isinstance(given, threads.Later):
        return given
    given, made = Given(), given
    given.set_result(made)
    return given


def as_plain(function):
    """A batch function that is no coroutine."""
    if not inspect.iscoroutinefunction(function) and not inspect.iscoroutinefunction(getattr(type(function), "__call__", None)):
        return function
    return lambda *arguments: given_by(function(*arguments))


class DataLoader(threads.DataLoader):
    """That for threads, with the batch functions of the other one."""

    def __init_subclass__(cls, **options):
        super().__init_subclass__(**options)
        if inspect.isfunction(cls.__dict__.get("batch_load_fn")):
            own = cls.batch_load_fn
            cls.batch_load_fn = lambda self, keys: given_by(own(self, keys))
            cls.batch_load_fn.__isabstractmethod__ = getattr(own, "__isabstractmethod__", False)
        elif isinstance(cls.__dict__.get("batch_load_fn"), staticmethod):
            cls.batch_load_fn = staticmethod(as_plain(cls.batch_load_fn))

    def __init__(self, batch_load_fn=None, **options):
        super().__init__(as_plain(batch_load_fn), **options)


class Given(threads.Later):
    """A Later whose outcome is given to it."""

    def __init__(self):
        super().__init__(threads._Place(), threads._threads.rounds, None)

    def set_result(self, value):
        self._place.set_result(value)

    def set_exception(self, error):
        self._place.set_exception(error)


class Loop:
    """What a test asks of its event loop."""

    create_future = Given

    def call_soon(self, call):
        later_of(None).add_done_callback(lambda _: call())


class Event:
    def __init__(self):
        self.is_set = Given()

    def set(self):
        self.is_set.set_result(True)

    async def wait(self):
        await self.is_set


def run(coroutine):
    threads._threads.rounds = threads._Rounds()
    return later_of(coroutine).result()


async def soon(asked):
    return await later_of(asked)


async def turns(count):
    for _ in range(count):
        await sleep(0)


async def sleep(_):
    """A turn: whatever is collected is fetched."""
    threads._threads.rounds.fetch()
    await later_of(None)


def gather(*asked, return_exceptions=False):
    laters = [later_of(each) for each in asked]
    return threads._begin(threads._all([later._place for later in laters], return_exceptions), laters)


class TestCase(plain_unittest.TestCase):
    def _callTestMethod(self, method):
        made = method()
        if inspect.iscoroutine(made):
            run(made)


asyncio = types.SimpleNamespace(
    Event=Event, Future=threads.Later, ensure_future=later_of, gather=gather, get_running_loop=Loop, run=run, sleep=sleep
)
unittest = types.SimpleNamespace(IsolatedAsyncioTestCase=TestCase, TestCase=TestCase)


def module(name, without):
    """A module of tests, read so, without some of its tests."""
    source = (TESTS / f"{name}.py").read_text()
    for pattern, line in REPLACED.items():
        source = re.sub(pattern, line, source, flags=re.MULTILINE)
    made = types.ModuleType(f"threads_{name}")
    exec(compile(source, TESTS / f"{name}.py", "exec"), made.__dict__)
    cases = [case for case in vars(made).values() if isinstance(case, type) and issubclass(case, TestCase)]
    for test in without:
        delattr(next(case for case in cases if test in vars(case)), test)
    return made

"""What is cancelled, raises, comes from elsewhere or answers something strange: no load is left waiting, and no key is spoiled.

``soon`` stands where a fault would wait for ever.
"""

import asyncio
import contextlib
import gc
import sys
import threading
import unittest
import weakref

from thrushscreen import Counters, DataLoader, LoaderFull

# After so many seconds what waits is taken to wait for ever.
LONGEST = 20


async def soon(awaitable):
    return await asyncio.wait_for(awaitable, LONGEST)


async def turns(count=9):
    """Waits for so many turns of the loop: more than a batch takes to be sent and fetched."""
    for _ in range(count):
        await asyncio.sleep(0)


class Gated:
    """A batch function that waits for its gate, and notes the batches."""

    def __init__(self):
        self.gate = asyncio.Event()
        self.batches = []

    async def __call__(self, keys):
        self.batches.append(list(keys))
        await self.gate.wait()
        return [f"{key}!" for key in keys]


class Cancelled(unittest.IsolatedAsyncioTestCase):
    async def test_a_waiter_that_times_out_leaves_the_others(self):
        gated = Gated()
        loader = DataLoader(gated)
        sibling = loader.load(1)
        with self.assertRaises(asyncio.TimeoutError):
            await asyncio.wait_for(loader.load(1), 0.001)
        later = loader.load(1)
        gated.gate.set()
        self.assertEqual(await soon(sibling), "1!")
        self.assertEqual(await soon(later), "1!")
        self.assertEqual(await soon(loader.load(1)), "1!")
        self.assertEqual(gated.batches, [[1]])

    async def test_the_first_waiter_is_no_more_than_the_others(self):
        for which in range(3):
            gated = Gated()
            loader = DataLoader(gated)
            waiters = [loader.load(1) for _ in range(3)]
            await turns()
            waiters.pop(which).cancel()
            gated.gate.set()
            self.assertEqual(await soon(asyncio.gather(*waiters)), ["1!", "1!"])
            self.assertEqual(await soon(loader.load(1)), "1!")

    async def test_a_cancelled_task_leaves_the_others(self):
        gated = Gated()
        loader = DataLoader(gated)

        async def resolve():
            return await loader.load(1)

        first, second = asyncio.ensure_future(resolve()), asyncio.ensure_future(resolve())
        await turns()
        first.cancel()
        await turns()
        gated.gate.set()
        self.assertEqual(await soon(second), "1!")
        self.assertTrue(first.cancelled())

    async def test_a_cancelled_load_many_leaves_the_others(self):
        gated = Gated()
        loader = DataLoader(gated)
        one, many = loader.load(1), loader.load_many([1, 2])
        await turns()
        many.cancel()
        two = loader.load(2)
        gated.gate.set()
        self.assertEqual(await soon(asyncio.gather(one, two)), ["1!", "2!"])
        with self.assertRaises(asyncio.CancelledError):
            await many

    async def test_a_batch_without_waiters_ends(self):
        gated = Gated()
        loader = DataLoader(gated)
        loader.load(1).cancel()
        loader.load(2).cancel()
        await turns()
        self.assertEqual(gated.batches, [[1, 2]])
        gated.gate.set()
        await turns()
        self.assertEqual(loader.load(1).result(), "1!")
        self.assertEqual(await soon(loader.load_many([1, 2])), ["1!", "2!"])
        self.assertEqual(gated.batches, [[1, 2]])

    async def test_a_batch_without_waiters_fails(self):
        fails = [OSError("down"), None]

        async def batch_load_fn(keys):
            fault = fails.pop(0)
            if fault is not None:
                raise fault
            return keys

        loader = DataLoader(batch_load_fn)
        loader.load(1).cancel()
        await turns()
        self.assertEqual(await soon(loader.load(1)), 1)

    async def test_the_error_of_a_key_without_waiters_stays(self):
        async def batch_load_fn(keys):
            return [KeyError(key) for key in keys]

        loader = DataLoader(batch_load_fn)
        loader.load(1).cancel()
        await turns()
        for _ in range(2):
            with self.assertRaises(KeyError):
                await soon(loader.load(1))
        self.assertEqual(loader.counters.batches, 1)

    async def test_a_future_that_its_owner_ends_is_its_own(self):
        gated = Gated()
        loader = DataLoader(gated)
        mine, other = loader.load(1), loader.load(1)
        mine.set_result("mine")
        gated.gate.set()
        self.assertEqual(await soon(other), "1!")
        self.assertEqual(await soon(loader.load(1)), "1!")

    async def fetches(self):
        """The tasks that aren't this test's."""
        return [task for task in asyncio.all_tasks() if task is not asyncio.current_task()]

    async def test_a_cancelled_fetch_ends_its_waiters(self):
        """Before its first step, while it collects, before it fetches, and while it fetches."""
        for count in range(12):
            for options in ({}, {"max_batch_size": 1}):
                with self.subTest(turns=count, **options):
                    gated = Gated()
                    loader = DataLoader(gated, **options)
                    waiters = [loader.load(1), loader.load(2), loader.load(2)]
                    await turns(count)
                    for task in await self.fetches():
                        task.cancel()
                    told = "a batch function gave Cancelled" if gated.batches else "cancelled before it called the batch function"
                    for outcome in await soon(asyncio.gather(*waiters, return_exceptions=True)):
                        self.assertIsInstance(outcome, Exception)
                        self.assertIn(told, str(outcome))
                        self.assertIsInstance(outcome.__cause__, asyncio.CancelledError)
                    gated.gate.set()
                    self.assertEqual(await soon(loader.load_many([1, 2, 3])), ["1!", "2!", "3!"])

    async def test_a_fetch_that_awaits_what_is_cancelled_ends_its_waiters(self):
        cancelled = asyncio.get_running_loop().create_future()
        cancelled.cancel()

        async def batch_load_fn(keys):
            return [await cancelled for _ in keys]

        loader = DataLoader(batch_load_fn)
        for outcome in await soon(asyncio.gather(loader.load(1), loader.load(1), loader.load(2), return_exceptions=True)):
            self.assertIsInstance(outcome, RuntimeError)
            self.assertIsInstance(outcome.__cause__, asyncio.CancelledError)
        self.assertIsNone(loader.held(1))


    async def test_a_fetch_that_is_cancelled_before_its_first_step_ends_its_waiters(self):
        gated = Gated()
        sends = []
        loader = DataLoader(gated, max_batch_size=1, batch_schedule_fn=sends.append)
        waiters = [loader.load(1), loader.load(2)]
        sends.pop()()
        for task in await self.fetches():
            task.cancel()
        for outcome in await soon(asyncio.gather(*waiters, return_exceptions=True)):
            self.assertIsInstance(outcome, RuntimeError)
            self.assertIn("cancelled before it called the batch function", str(outcome))
        self.assertEqual(gated.batches, [])
        self.assertIsNone(loader.held(1))

    async def test_a_cache_map_forgets_what_is_cancelled_before_it_is_sent(self):
        gated = Gated()
        gated.gate.set()
        cache_map = {}
        loader = DataLoader(gated, cache_map=cache_map)
        load = loader.load(1)
        for task in await self.fetches():
            task.cancel()
        with self.assertRaises(RuntimeError):
            await soon(load)
        self.assertEqual(cache_map, {})
        self.assertEqual(await soon(loader.load(1)), "1!")

    async def test_waiters_over_a_cache_map_are_apart(self):
        gated = Gated()
        cache_map = {}
        loader = DataLoader(gated, cache_map=cache_map)
        first, second, third = loader.load(1), loader.load(1), loader.load_many([1, 1])
        first.cancel()
        third.cancel()
        await turns()
        gated.gate.set()
        self.assertEqual(await soon(second), "1!")
        self.assertEqual(await soon(loader.load(1)), "1!")
        self.assertEqual(cache_map[1].result(), "1!")
        with self.assertRaises(asyncio.CancelledError):
            await third

    async def test_a_fetch_goes_on_though_nobody_else_knows_what_it_awaits(self):
        awaited = []

        async def batch_load_fn(keys):
            future = asyncio.get_running_loop().create_future()
            awaited.append(weakref.ref(future))
            return [await future for _ in keys]

        for options in ({}, {"batch_schedule_fn": lambda send: send()}):
            loader = DataLoader(batch_load_fn, **options)
            load = loader.load(1)
            await turns()
            gc.collect()
            future = awaited.pop()()
            self.assertIsNotNone(future)
            future.set_result("one")
            self.assertEqual(await soon(load), "one")


class Raised(unittest.IsolatedAsyncioTestCase):
    async def test_exceptions_that_a_future_cannot_hold_are_wrapped(self):
        for strange in (StopIteration("no row"), asyncio.CancelledError("no row"), GeneratorExit("no row")):
            with self.subTest(strange=type(strange)):

                async def batch_load_fn(keys, strange=strange):
                    return [strange if key == 2 else key for key in keys]

                loader = DataLoader(batch_load_fn)
                one, two, three = await soon(
                    asyncio.gather(loader.load(1), loader.load(2), loader.load(3), return_exceptions=True)
                )
                self.assertEqual((one, three), (1, 3))
                self.assertIsInstance(two, RuntimeError)
                self.assertIs(two.__cause__, strange)
                # It is the error of that key, and stays.
                with self.assertRaises(RuntimeError):
                    await soon(loader.load(2))
                self.assertEqual(loader.counters.batches, 1)
                loader.prime(4, strange)
                with self.assertRaises(RuntimeError):
                    await soon(loader.load(4))

    async def test_whatever_a_batch_function_raises_ends_its_waiters(self):
        class Odd(BaseException):
            """No Exception."""

        asyncio.get_running_loop().set_exception_handler(lambda *_: None)
        for raised in (OSError(), StopIteration(), asyncio.CancelledError(), StopAsyncIteration(), Odd()):
            for is_at_once in (False, True):
                with self.subTest(raised=type(raised), is_at_once=is_at_once):
                    fails = [True, False]

                    async def late(keys, fails=fails, raised=raised):
                        await asyncio.sleep(0)
                        if fails.pop(0):
                            raise raised
                        return keys

                    def early(keys, fails=fails, raised=raised):
                        if fails.pop(0):
                            raise raised

                        async def answer():
                            return keys

                        return answer()

                    loader = DataLoader(early if is_at_once else late)
                    for outcome in await soon(asyncio.gather(loader.load(1), loader.load(2), return_exceptions=True)):
                        self.assertIsInstance(outcome, BaseException)
                    self.assertEqual(await soon(loader.load_many([1, 2])), [1, 2])
                    self.assertEqual(loader.counters.failures, 1)

    async def test_keys_that_raise_leave_the_loader_as_it_was(self):
        def get_cache_key(key):
            if key == 3:
                raise KeyError(key)
            return key

        batches = []

        async def batch_load_fn(keys):
            batches.append(list(keys))
            return keys

        loader = DataLoader(batch_load_fn, get_cache_key=get_cache_key)
        first = loader.load(1)
        for keys in ([2, 3], [2, None], [2, []]):
            with self.assertRaises((KeyError, TypeError)):
                loader.load_many(keys)
            with self.assertRaises((KeyError, TypeError)):
                loader.load(keys[1])
        self.assertIsNone(loader.held(2))
        self.assertEqual(await soon(first), 1)
        self.assertEqual(await soon(loader.load_many([1, 2])), [1, 2])
        self.assertEqual(batches, [[1], [2]])

    async def test_a_full_loader_begins_no_key_of_several(self):
        batches = []

        async def batch_load_fn(keys):
            batches.append(list(keys))
            return keys

        loader = DataLoader(batch_load_fn, max_cells=2)
        with self.assertRaises(LoaderFull):
            loader.load_many([1, 2, 3])
        self.assertEqual(await soon(loader.load_many([1, 2])), [1, 2])
        self.assertEqual(batches, [[1, 2]])

    async def test_a_schedule_that_raises_forgets_the_keys(self):
        callbacks = []
        fails = [True, True, False]
        batches = []

        def batch_schedule_fn(send):
            if fails.pop(0):
                raise OSError("no timer")
            callbacks.append(send)

        async def batch_load_fn(keys):
            batches.append(list(keys))
            return keys

        loader = DataLoader(batch_load_fn, batch_schedule_fn=batch_schedule_fn)
        with self.assertRaises(OSError):
            loader.load(1)
        with self.assertRaises(OSError):
            loader.load_many([1, 2])
        self.assertIsNone(loader.held(1))
        self.assertEqual(loader.counters, Counters(0, 0, 0, 0, 0))
        loads = [loader.load(1), loader.load(3)]
        callbacks[0]()
        self.assertEqual(await soon(asyncio.gather(*loads)), [1, 3])
        self.assertEqual(batches, [[1, 3]])
        self.assertEqual(loader.counters, Counters(loads=2, hits=0, batches=1, keys=2, failures=0))

    async def test_a_schedule_that_loads_and_raises_ends_what_it_has_loaded(self):
        batches = []

        async def batch_load_fn(keys):
            batches.append(list(keys))
            return keys

        for is_mapped in (False, True):
            for is_sent in (False, True):
                with self.subTest(is_mapped=is_mapped, is_sent=is_sent):
                    loads = []

                    def batch_schedule_fn(send, loads=loads, is_sent=is_sent):
                        if loads:
                            send()
                            return
                        loads += [loader.load(1), loader.load(1), loader.load(2), loader.load_many([1, 3])]
                        if is_sent:
                            send()
                        raise OSError("no timer")

                    batches.clear()
                    loader = DataLoader(batch_load_fn, batch_schedule_fn=batch_schedule_fn, cache_map={} if is_mapped else None)
                    with self.assertRaisesRegex(OSError, "no timer"):
                        loader.load(1)
                    outcomes = await soon(asyncio.gather(*loads, return_exceptions=True))
                    if is_sent:
                        self.assertEqual(outcomes, [1, 1, 2, [1, 3]])
                    else:
                        self.assertEqual([str(outcome) for outcome in [*outcomes[:3], *outcomes[3]]], ["no timer"] * 5)
                    self.assertEqual(await soon(loader.load_many([1, 2, 3])), [1, 2, 3])
                    self.assertEqual([key for batch in batches for key in batch], [1, 2, 3])

    async def test_a_call_that_raises_leaves_no_future_behind(self):
        gate = asyncio.Event()
        fails = [False, True]
        reports = []

        def batch_schedule_fn(send):
            if fails.pop(0):
                raise OSError("no timer")
            send()

        async def batch_load_fn(keys):
            await gate.wait()
            raise OSError("down")

        loader = DataLoader(batch_load_fn, batch_schedule_fn=batch_schedule_fn)
        load = loader.load(1)
        with self.assertRaisesRegex(OSError, "no timer"):
            loader.load_many([1, 2])
        asyncio.get_running_loop().set_exception_handler(lambda _, context: reports.append(context["message"]))
        gate.set()
        with self.assertRaisesRegex(OSError, "down"):
            await soon(load)
        await turns()
        gc.collect()
        self.assertEqual(reports, [])

    async def test_a_task_that_cannot_be_made_forgets_the_keys(self):
        loop = asyncio.get_running_loop()

        async def batch_load_fn(keys):
            return keys

        def no_task(*_, **__):
            raise OSError("no task")

        loader = DataLoader(batch_load_fn)
        loop.set_task_factory(no_task)
        try:
            for call in (lambda: loader.load(1), lambda: loader.load_many([1, 2])):
                with self.assertRaises(OSError):
                    call()
        finally:
            loop.set_task_factory(None)
        self.assertEqual(await soon(loader.load_many([1, 2])), [1, 2])

    async def test_batches_for_which_no_task_can_be_made_fail(self):
        loop = asyncio.get_running_loop()
        left = []

        async def batch_load_fn(keys):
            return keys

        def one_more_task(loop, step, **options):
            if not left:
                raise OSError("no task")
            left.pop()
            return asyncio.Task(step, loop=loop, **options)

        loader = DataLoader(batch_load_fn, max_batch_size=1)
        loads = [loader.load(key) for key in range(4)]
        left[:] = [1]
        waiter = asyncio.gather(*loads, return_exceptions=True)
        loop.set_task_factory(one_more_task)
        loop.set_exception_handler(lambda *_: None)
        try:
            await turns()
        finally:
            loop.set_task_factory(None)
        first, *others = await soon(waiter)
        self.assertEqual(first, 0)
        for outcome in others:
            self.assertIsInstance(outcome, OSError)
        self.assertEqual(await soon(loader.load_many(range(4))), list(range(4)))

    async def test_a_cache_map_forgets_the_keys_of_a_failed_batch(self):
        gate = asyncio.Event()
        batches = []

        async def batch_load_fn(keys):
            batches.append(list(keys))
            if len(batches) == 1:
                await gate.wait()
                raise OSError("down")
            return keys

        cache_map = {}
        loader = DataLoader(batch_load_fn, cache_map=cache_map)
        loads = [loader.load(1), loader.load(2)]
        await turns()
        self.assertEqual(await soon(loader.clear(2).load(2)), 2)
        gate.set()
        for outcome in await soon(asyncio.gather(*loads, return_exceptions=True)):
            self.assertIsInstance(outcome, OSError)
        # What was loaded anew stays.
        self.assertEqual(list(cache_map), [2])
        self.assertEqual(await soon(loader.load_many([1, 2])), [1, 2])
        self.assertEqual(batches, [[1, 2], [2], [1]])

    async def test_a_cache_map_that_raises_leaves_the_loader_as_it_was(self):
        class Full(dict):
            is_full = True

            def __setitem__(self, key, value):
                if self.is_full:
                    raise OSError("no room")
                super().__setitem__(key, value)

        batches = []

        async def batch_load_fn(keys):
            batches.append(list(keys))
            return keys

        cache_map = Full()
        loader = DataLoader(batch_load_fn, cache_map=cache_map)
        for call in (lambda: loader.load(1), lambda: loader.load_many([1, 2]), lambda: loader.prime(1, 5)):
            with self.assertRaises(OSError):
                call()
        self.assertEqual(loader.counters, (0, 0, 0, 0, 0))
        await asyncio.sleep(0.01)
        cache_map.is_full = False
        self.assertEqual(await soon(loader.load_many([1, 2])), [1, 2])
        self.assertEqual(batches, [[1, 2]])

    async def test_a_load_that_is_not_scheduled_leaves_no_future_in_the_cache_map(self):
        def fails(dispatch):
            raise OSError("not now")

        async def batch_load_fn(keys):
            return keys

        cache_map = {}
        loader = DataLoader(batch_load_fn, cache_map=cache_map, batch_schedule_fn=fails)
        for call in (lambda: loader.load(1), lambda: loader.load_many([1, 2])):
            with self.assertRaises(OSError):
                call()
        self.assertEqual((cache_map, loader.counters), ({}, (0, 0, 0, 0, 0)))

    async def test_the_list_of_a_batch_is_the_batch_functions(self):
        async def batch_load_fn(keys):
            values = [key * 2 for key in keys]
            keys.clear()
            keys.append("nothing")
            await asyncio.sleep(0)
            return values

        loader = DataLoader(batch_load_fn)
        self.assertEqual(await soon(loader.load_many([1, 2])), [2, 4])

        async def fails(keys):
            keys.clear()
            raise OSError("down")

        loader = DataLoader(fails, max_batch_size=2)
        for outcome in await soon(loader.load_many([1, 2, 3])):
            self.assertIsInstance(outcome, OSError)
        self.assertEqual([loader.held(key) for key in (1, 2, 3)], [None] * 3)

    async def test_an_answer_that_is_the_list_of_keys_and_changes_is_as_it_was(self):
        lists = []

        async def batch_load_fn(keys):
            lists.append(keys)
            return keys

        loader = DataLoader(batch_load_fn)
        self.assertEqual(await soon(loader.load_many([1, 2])), [1, 2])
        lists[0][:] = [3]
        self.assertEqual(await soon(loader.load_many([1, 2])), [1, 2])


class Elsewhere(unittest.TestCase):
    def test_a_loader_is_not_spoiled_outside_of_a_loop(self):
        async def batch_load_fn(keys):
            return keys

        loader = DataLoader(batch_load_fn)
        for call in (lambda: loader.load(1), lambda: loader.load_many([1, 2]), lambda: loader.load_many([])):
            with self.assertRaisesRegex(RuntimeError, "call the loader from a coroutine"):
                call()

        async def later():
            return await soon(loader.load_many([1, 2, 3]))

        self.assertEqual(asyncio.run(later()), [1, 2, 3])

    def test_a_load_from_another_loop_is_refused(self):
        batches = []

        async def batch_load_fn(keys):
            batches.append(list(keys))
            return keys

        loader = DataLoader(batch_load_fn)

        async def load():
            return await soon(loader.load(1))

        async def load_many():
            return await soon(loader.load_many([1, 2]))

        self.assertEqual(asyncio.run(load()), 1)
        for call in (load, load_many):
            with self.assertRaisesRegex(RuntimeError, "make a loader for each request"):
                asyncio.run(call())
        with self.assertRaises(RuntimeError):
            loader.load(1)
        self.assertEqual(batches, [[1]])

    def test_a_loop_that_runs_again_is_the_same(self):
        async def batch_load_fn(keys):
            return keys

        loader = DataLoader(batch_load_fn)

        async def load(key):
            return await soon(loader.load(key))

        loop = asyncio.new_event_loop()
        try:
            self.assertEqual([loop.run_until_complete(load(key)) for key in (1, 2, 1)], [1, 2, 1])
            with self.assertRaises(RuntimeError):
                loader.load(1)
        finally:
            loop.close()

    def test_a_call_from_another_thread_is_refused(self):
        async def batch_load_fn(keys):
            return keys

        loader = DataLoader(batch_load_fn)
        seen = []

        def elsewhere():
            async def load(key):
                return await soon(loader.load(key))

            for call in (
                lambda: asyncio.run(load(1)),
                lambda: asyncio.run(load(2)),
                lambda: loader.load(1),
                lambda: loader.clear(1),
                lambda: loader.prime(2, 2),
                loader.clear_all,
            ):
                try:
                    seen.append(call())
                except RuntimeError as error:
                    seen.append(str(error))

        async def main():
            await soon(loader.load(1))
            thread = threading.Thread(target=elsewhere)
            thread.start()
            await asyncio.get_running_loop().run_in_executor(None, thread.join)
            return await soon(loader.load_many([1, 2]))

        self.assertEqual(asyncio.run(main()), [1, 2])
        self.assertEqual(len(seen), 6)
        for text in seen:
            self.assertRegex(text, "another thread: make a loader for each request")

    def test_threads_that_load_at_once_never_see_the_values_of_others(self):
        async def batch_load_fn(keys):
            await asyncio.sleep(0)
            return [f"{key}!" for key in keys]

        loader = DataLoader(batch_load_fn)
        barrier = threading.Barrier(4)
        seen = []

        def run(name):
            async def load():
                for key in range(200):
                    value = await soon(loader.load(f"{name}{key}"))
                    if value != f"{name}{key}!":
                        return "wrong"
                return "all"

            barrier.wait()
            try:
                seen.append(asyncio.run(load()))
            except RuntimeError:
                seen.append("refused")

        threads = [threading.Thread(target=run, args=(name,)) for name in "abcd"]
        for thread in threads:
            thread.start()
        for thread in threads:
            thread.join()
        self.assertEqual(sorted(seen), ["all", "refused", "refused", "refused"])


class Ready:
    """What a loop has ready, in a form of its own."""

    def __init__(self):
        self.handles = []

    def __len__(self):
        return len(self.handles)

    def append(self, handle):
        self.handles.append(handle)

    def popleft(self):
        return self.handles.pop(0)

    def clear(self):
        self.handles.clear()


class OtherLoop(asyncio.SelectorEventLoop):
    """A loop with futures of its own, that tells neither the thread that it runs on nor what it has ready."""

    class Future(asyncio.Future):
        """One of its futures."""

    def __init__(self):
        super().__init__()
        while self._ready:
            self._ready.popleft()
        self._ready = Ready()

    def create_future(self):
        return self.Future(loop=self)

    @property
    def _thread_id(self):
        return self.__dict__.get("hidden")

    @_thread_id.setter
    def _thread_id(self, thread):
        self.hidden = thread


def run_on(loop, coroutine):
    try:
        return loop.run_until_complete(coroutine)
    finally:
        loop.close()


class Loops(unittest.TestCase):
    def test_a_loop_makes_its_own_futures(self):
        async def batch_load_fn(keys):
            return keys

        async def main():
            loader = DataLoader(batch_load_fn)
            future = loader.load(1)
            self.assertIsInstance(future, OtherLoop.Future)
            self.assertIsInstance(loader.load_many([1, 2]), asyncio.Future)
            self.assertIsInstance(loader.prime(3, 3).load(3), OtherLoop.Future)
            return await soon(future), await soon(loader.load(1))

        self.assertEqual(run_on(OtherLoop(), main()), (1, 1))

    def test_a_loop_that_ends_amid_a_fetch_says_nothing(self):
        reports = []

        async def batch_load_fn(keys):
            await asyncio.sleep(3600)

        async def main():
            asyncio.get_running_loop().set_exception_handler(lambda _, context: reports.append(context["message"]))
            loader = DataLoader(batch_load_fn)
            loads = [loader.load(1), loader.load(2)]
            await turns()
            return loads

        loads = asyncio.run(main())
        for load in loads:
            self.assertIsInstance(load.exception(), RuntimeError)
        self.assertEqual(reports, [])


class Unretrieved(unittest.TestCase):
    """What a loop reports of loads for which nobody waits: the errors of a batch function, and nothing that was cancelled."""

    def reports_of(self, main):
        reports = []

        async def run():
            asyncio.get_running_loop().set_exception_handler(lambda _, context: reports.append(str(context.get("exception"))))
            await main()

        with contextlib.suppress(KeyError):
            asyncio.run(run())
        gc.collect()
        return reports

    def test_a_loop_that_ends_before_or_amid_a_fetch_reports_nothing(self):
        async def batch_load_fn(keys):
            await asyncio.sleep(3600)

        async def main():
            loader = DataLoader(batch_load_fn, **options)
            loader.load(1)
            loader.load_many([1, 2])
            await turns(count)

        for options in ({}, {"max_batch_size": 1}, {"batch_schedule_fn": lambda send: send()}):
            for count in range(9):
                with self.subTest(options=options, turns=count):
                    self.assertEqual(self.reports_of(main), [])

    def test_an_error_elsewhere_ends_a_program_with_that_error_alone(self):
        async def batch_load_fn(keys):
            return keys

        async def fails():
            raise KeyError("elsewhere")

        async def main():
            loader = DataLoader(batch_load_fn)
            loader.load(1)
            await asyncio.gather(loader.load(2), fails())

        self.assertEqual(self.reports_of(main), [])

    def test_the_errors_of_a_batch_function_are_reported(self):
        async def breaks(keys):
            raise OSError("down")

        async def answers_an_error(keys):
            return [OSError("no row")]

        for batch_load_fn, told in ((breaks, "down"), (answers_an_error, "no row")):

            async def main(batch_load_fn=batch_load_fn):
                DataLoader(batch_load_fn).load(1)
                await turns()

            self.assertEqual(self.reports_of(main), [told])


if sys.version_info >= (3, 12):

    class Eager(unittest.TestCase):
        def test_eager_tasks(self):
            batches = []

            async def main():
                asyncio.get_running_loop().set_task_factory(asyncio.eager_task_factory)

                async def batch_load_fn(keys):
                    batches.append(list(keys))
                    return [key if key > 9 else (await loader.load(key + 10)) + 1 for key in keys]

                loader = DataLoader(batch_load_fn)
                self.assertEqual(await soon(asyncio.gather(loader.load(1), loader.load(2))), [12, 13])
                self.assertEqual(await soon(loader.load_many([3, 1])), [14, 12])
                single = DataLoader(batch_load_fn, max_batch_size=1)
                self.assertEqual(await soon(single.load_many([1, 2])), [12, 13])
                return await soon(loader.load(9))

            self.assertEqual(run_on(asyncio.new_event_loop(), main()), 20)
            self.assertEqual(batches[0], [1, 2])

        def test_eager_tasks_join_one_batch(self):
            batches = []

            async def batch_load_fn(keys):
                batches.append(list(keys))
                return keys

            async def main():
                asyncio.get_running_loop().set_task_factory(asyncio.eager_task_factory)
                loader = DataLoader(batch_load_fn)

                async def one(key):
                    return await loader.load(key)

                return await soon(asyncio.gather(*map(one, range(5))))

            self.assertEqual(run_on(asyncio.new_event_loop(), main()), list(range(5)))
            self.assertEqual(batches, [list(range(5))])


class Closed(unittest.TestCase):
    def test_a_loop_that_is_closed_amid_a_fetch_says_nothing(self):
        unraisable = []

        async def batch_load_fn(keys):
            await asyncio.get_running_loop().create_future()

        async def main():
            loader = DataLoader(batch_load_fn, max_batch_size=1)
            loads = [loader.load(1), loader.load(2)]
            for load in loads:
                load.add_done_callback(lambda _: None)
            waiting = DataLoader(batch_load_fn)
            waiting.load(1).add_done_callback(lambda _: None)
            await turns(count)

        hook, sys.unraisablehook = sys.unraisablehook, unraisable.append
        try:
            for count in (0, 1, 9):
                loop = asyncio.new_event_loop()
                loop.set_exception_handler(lambda *_: None)
                run_on(loop, main())
                del loop
                gc.collect()
        finally:
            sys.unraisablehook = hook
        self.assertEqual(unraisable, [])


class Late(unittest.TestCase):
    """When a batch is sent: no load waits for a loop that is always busy."""

    def batches_of(self, loop, count, is_busy=False):
        """The batches of loads that tasks make, each a task deeper than the one before."""
        batches = []

        async def batch_load_fn(keys):
            batches.append(list(keys))
            return keys

        async def main():
            loader = DataLoader(batch_load_fn)
            is_done = False

            async def deeper(key):
                loads = [loader.load(key)]
                if key + 1 < count:
                    loads.append(asyncio.ensure_future(deeper(key + 1)))
                await asyncio.gather(*loads)

            async def spin():
                while not is_done:
                    await asyncio.sleep(0)

            spinning = asyncio.ensure_future(spin()) if is_busy else None
            await soon(deeper(0))
            is_done = True
            if spinning is not None:
                await spinning

        run_on(loop, main())
        return batches

    def test_loads_of_deeper_tasks_join_the_batch(self):
        self.assertEqual(self.batches_of(asyncio.new_event_loop(), 20), [list(range(20))])

    def test_loads_join_the_batch_behind_a_busy_round_of_the_same_loop(self):
        async def batch_load_fn(keys):
            batches.append(list(keys))
            return keys

        async def deeper(loader, key, count):
            loads = [loader.load(key)]
            if key + 1 < count:
                loads.append(asyncio.ensure_future(deeper(loader, key + 1, count)))
            await asyncio.gather(*loads)

        async def spin():
            while True:
                await asyncio.sleep(0)

        async def main():
            for is_busy in (True, False, True, False):
                spinning = asyncio.ensure_future(spin()) if is_busy else None
                await soon(deeper(DataLoader(batch_load_fn), 0, 4 if is_busy else 20))
                if spinning is not None:
                    spinning.cancel()
                    await turns(2)

        batches = []
        run_on(asyncio.new_event_loop(), main())
        self.assertEqual(batches, [list(range(4)), list(range(20))] * 2)

    def test_a_loop_that_does_not_tell_what_is_ready_waits_two_turns(self):
        self.assertEqual(self.batches_of(OtherLoop(), 2), [[0, 1]])

    def test_a_busy_loop_delays_a_batch_by_some_turns(self):
        self.assertEqual(self.batches_of(asyncio.new_event_loop(), 4, is_busy=True), [[0, 1, 2, 3]])

    def test_a_loader_that_always_gets_loads_sends_its_batches(self):
        async def batch_load_fn(keys):
            return keys

        async def main():
            loader = DataLoader(batch_load_fn)
            first = loader.load("first")
            for key in range(1_000):
                loader.load(key)
                await asyncio.sleep(0)
                if first.done():
                    return True
            return False

        self.assertTrue(run_on(asyncio.new_event_loop(), main()))

    def test_loaders_that_wait_for_each_other_send(self):
        async def batch_load_fn(keys):
            return keys

        async def main():
            loaders = [DataLoader(batch_load_fn) for _ in range(50)]
            loads = [loader.load(key) for loader in loaders for key in (1, 2)]
            self.assertEqual(await soon(asyncio.gather(*loads)), [1, 2] * 50)
            return {loader.counters.batches for loader in loaders}

        self.assertEqual(run_on(asyncio.new_event_loop(), main()), {1})


class Subclasses(unittest.IsolatedAsyncioTestCase):
    async def test_load_many_uses_the_load_of_a_subclass(self):
        class Doubled(DataLoader):
            async def batch_load_fn(self, keys):
                return [key * 2 for key in keys]

            def load(self, key):
                return super().load(key + 100)

        self.assertEqual(await soon(Doubled().load_many([1, 2])), [202, 204])

        class Awaited(Doubled):
            async def load(self, key):
                return await super().load(key)

        self.assertEqual(await soon(Awaited().load_many([1, 2])), [202, 204])


class Reports(unittest.IsolatedAsyncioTestCase):
    async def test_counters_tell_what_was_done(self):
        async def batch_load_fn(keys):
            if "down" in keys:
                raise OSError("down")
            return [KeyError(key) if key == "none" else key for key in keys]

        loader = DataLoader(batch_load_fn, max_batch_size=2, name="users")
        self.assertEqual(loader.counters, Counters(loads=0, hits=0, batches=0, keys=0, failures=0))
        await soon(loader.load_many(["a", "b", "a", "none"]))
        self.assertEqual(loader.counters, Counters(loads=4, hits=1, batches=2, keys=3, failures=0))
        await soon(loader.load_many(["a", "down"]))
        self.assertEqual(loader.counters, Counters(loads=6, hits=2, batches=3, keys=4, failures=1))
        loader.prime("c", "c").prime("a", "other").clear("a").held("b")
        with self.assertRaises(TypeError):
            loader.load(None)
        self.assertEqual(loader.counters, Counters(loads=6, hits=2, batches=3, keys=4, failures=1))
        await soon(loader.load("c"))
        self.assertEqual(loader.counters.hits, 3)
        self.assertEqual(loader.name, "users")
        self.assertIn("users", repr(loader))
        with self.assertRaises(AttributeError):
            loader.counters = None

    async def test_counters_of_a_loader_without_a_memo_of_its_own(self):
        async def batch_load_fn(keys):
            return keys

        for options, hits in (({"cache": False}, 0), ({"cache_map": {}}, 1)):
            loader = DataLoader(batch_load_fn, **options)
            await soon(loader.load_many(["a", "b", "a"]))
            self.assertEqual(loader.counters, Counters(loads=3, hits=hits, batches=1, keys=3 - hits, failures=0))


if __name__ == "__main__":
    sys.exit(unittest.main())

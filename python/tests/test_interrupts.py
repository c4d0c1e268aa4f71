"""What ends a loader's task in the middle, or makes tasks in a way of its own: no load is left waiting, and the loader answers again."""

import asyncio
import contextlib
import sys
import unittest
import warnings

from thrushscreen import DataLoader, _options, data_loader
from interrupt import Interrupt, tracing
from test_nothing_hangs import run_on, soon, turns

# The lines that are interrupted.
LINES = {data_loader.__file__, _options.__file__}


def wrapping(loop, coroutine, **options):
    """A task factory as packages that watch tasks have it."""

    async def wrapped():
        return await coroutine

    return asyncio.Task(wrapped(), loop=loop, **options)


class Factories(unittest.TestCase):
    def factories(self):
        yield wrapping
        if sys.version_info >= (3, 12):
            yield asyncio.eager_task_factory
            yield lambda loop, coroutine, **options: wrapping(loop, coroutine, eager_start=True, **options)

    def test_each_task_factory_has_each_load_answered(self):
        async def batch_load_fn(keys):
            await asyncio.sleep(0)
            return keys

        async def main(factory, options):
            asyncio.get_running_loop().set_task_factory(factory)
            loader = DataLoader(batch_load_fn, **options)
            self.assertEqual(await soon(loader.load(1)), 1)
            self.assertEqual(await soon(asyncio.gather(loader.load(2), loader.load_many([1, 3]))), [2, [1, 3]])
            self.assertEqual(await soon(loader.load_many(range(9))), list(range(9)))
            loader.prime("a", loader.load(10))
            self.assertEqual(await soon(loader.load("a")), 10)

        for factory in self.factories():
            for options in ({}, {"max_batch_size": 2}, {"batch_schedule_fn": lambda send: send()}, {"cache_map": {}}):
                run_on(asyncio.new_event_loop(), main(factory, options))

    def test_each_task_factory_has_each_failed_load_end(self):
        async def batch_load_fn(keys):
            raise OSError("down")

        async def main(factory, options):
            asyncio.get_running_loop().set_task_factory(factory)
            loader = DataLoader(batch_load_fn, **options)
            for outcome in await soon(loader.load_many([1, 2, 3])):
                self.assertIsInstance(outcome, OSError)

        for factory in self.factories():
            for options in ({}, {"max_batch_size": 2}):
                run_on(asyncio.new_event_loop(), main(factory, options))

    def test_a_task_that_never_steps_its_coroutine_ends_the_loads(self):
        async def nothing():
            pass

        def other(loop, coroutine, **options):
            coroutine.close()
            return asyncio.Task(nothing(), loop=loop)

        async def batch_load_fn(keys):
            return keys

        async def main():
            loop = asyncio.get_running_loop()
            loader = DataLoader(batch_load_fn)
            loop.set_task_factory(other)
            load = loader.load(1)
            loop.set_task_factory(None)
            with self.assertRaises(RuntimeError):
                await soon(load)
            self.assertEqual(await soon(loader.load(1)), 1)

        run_on(asyncio.new_event_loop(), main())


class Raised(unittest.TestCase):
    def test_a_batch_function_that_raises_what_ends_a_coroutine_ends_its_loads(self):
        async def late(keys):
            await asyncio.sleep(0)
            raise raised

        def early(keys):
            raise raised

        async def main(batch_load_fn, options):
            asyncio.get_running_loop().set_exception_handler(lambda *_: None)
            loader = DataLoader(batch_load_fn, **options)
            for outcome in await soon(loader.load_many([1, 2])):
                self.assertIsInstance(outcome, RuntimeError)
                self.assertIs(outcome.__cause__, raised)
            self.assertIsNone(loader.held(1))

        for raised in (GeneratorExit("down"), asyncio.CancelledError("down"), StopIteration("down")):
            for batch_load_fn in (late, early):
                if isinstance(raised, StopIteration) and batch_load_fn is late:
                    continue
                for options in ({}, {"max_batch_size": 1}):
                    with self.subTest(raised=type(raised), options=options):
                        run_on(asyncio.new_event_loop(), main(batch_load_fn, options))


    def test_a_batch_function_that_ends_the_loop_ends_its_loads(self):
        for raised in (KeyboardInterrupt(), SystemExit(3)):
            for options in ({}, {"max_batch_size": 1}):
                loop = asyncio.new_event_loop()
                loop.set_exception_handler(lambda *_: None)
                fails = [raised]

                async def batch_load_fn(keys, fails=fails):
                    if fails:
                        raise fails.pop()
                    return keys

                async def main(loader):
                    return await asyncio.gather(loader.load(1), loader.load(1), return_exceptions=True)

                async def later(loader, task):
                    for outcome in await soon(task):
                        self.assertIsInstance(outcome, RuntimeError)
                        self.assertIs(outcome.__cause__, raised)
                    return await soon(loader.load_many([1, 2]))

                loader = DataLoader(batch_load_fn, **options)
                task = loop.create_task(main(loader))
                with self.subTest(raised=type(raised), options=options):
                    with self.assertRaises(type(raised)):
                        loop.run_until_complete(task)
                    self.assertEqual(run_on(loop, later(loader, task)), [1, 2])


class Interrupted(unittest.TestCase):
    """An interrupt at each line in turn, as it comes in a notebook, whose loop runs on after it."""

    def scenario(self, options):
        async def batch_load_fn(keys):
            await asyncio.sleep(0)
            if "down" in keys:
                raise OSError("down")
            return [str(key) for key in keys]

        loop = asyncio.new_event_loop()
        loop.set_exception_handler(lambda *_: None)
        primed = loop.create_future()
        loads = []

        async def main():
            loader = loaders[0] if loaders else loaders.append(DataLoader(batch_load_fn, **options)) or loaders[0]
            loads.append(loader.load(1))
            # Another sender, and something else that is ready.
            other = DataLoader(batch_load_fn)
            loads.append(other.load(1))
            asyncio.ensure_future(turns(2))
            loads.append(loader.load_many([1, 2, 3]))
            loads.append(loader.prime(4, "4").prime(5, primed).load(5))
            primed.set_result("5")
            await asyncio.gather(*loads, return_exceptions=True)
            loads.append(loader.load("down"))
            await asyncio.gather(*loads, return_exceptions=True)

        loaders = []
        return loop, main, loads, loaders, primed

    def check(self, place, options):
        loop, main, loads, loaders, primed = self.scenario(options)
        interrupt = Interrupt(place, LINES)
        try:
            with contextlib.suppress(KeyboardInterrupt), tracing(interrupt):
                loop.run_until_complete(main())

            async def later():
                loader = loaders[0]
                if not primed.done():
                    primed.set_result("5")
                # What was interrupted goes on, if it can.
                tasks = asyncio.all_tasks() - {asyncio.current_task()}
                if tasks:
                    await soon(asyncio.wait(tasks))
                self.assertEqual(await soon(loader.load_many([1, 2, 3, 5])), ["1", "2", "3", "5"])
                self.assertEqual(await soon(loader.load(6)), "6")
                await soon(asyncio.wait(loads))

            if loaders:
                loop.run_until_complete(later())
        except asyncio.TimeoutError:
            self.fail(f"a load waits after an interrupt in {interrupt.where}, with {options}")
        finally:
            loop.close()
        return interrupt.where

    def setUp(self):
        # An interrupt may come between a coroutine's making and its first step.
        caught = warnings.catch_warnings()
        caught.__enter__()
        self.addCleanup(caught.__exit__, None, None, None)
        warnings.filterwarnings("ignore", "coroutine .* was never awaited")

    def test_a_loader_answers_after_an_interrupt_at_each_line(self):
        for options in ({}, {"max_batch_size": 2}, {"batch_schedule_fn": lambda send: asyncio.get_running_loop().call_soon(send)}):
            place = 1
            while self.check(place, options) is not None:
                place += 1
            self.assertGreater(place, 20)


if __name__ == "__main__":
    unittest.main()

"""What a loader keeps in memory, counted, and what it does when it gets none."""

import asyncio
import gc
import os
import pathlib
import subprocess
import sys
import unittest
import weakref

from thrushscreen import DataLoader, LoaderFull
from test_nothing_hangs import OtherLoop, run_on, soon, turns

try:
    import _testcapi
except ImportError:
    _testcapi = None

REFUSED = pathlib.Path(__file__).with_name("refused.py")


class Value:
    """What can be counted."""


def counted(references):
    gc.collect()
    return sum(reference() is not None for reference in references)


class Counted:
    """A batch function that answers new values, and counts what is left of them, of the keys and of its tasks."""

    def __init__(self):
        self.values, self.tasks, self.lists = [], [], []

    async def __call__(self, keys):
        self.tasks.append(weakref.ref(asyncio.current_task()))
        values = [Value() for _ in keys]
        self.values.extend(map(weakref.ref, values))
        return values


class Loaded(unittest.IsolatedAsyncioTestCase):
    async def test_no_value_stays_after_it_is_cleared(self):
        for clear in (lambda loader: loader.clear_all(), lambda loader: [loader.clear(key) for key in range(1_000)]):
            for options in ({}, {"max_batch_size": 7}, {"get_cache_key": str}):
                fetch = Counted()
                loader = DataLoader(fetch, **options)
                await soon(loader.load_many(range(1_000)))
                await turns(3)
                self.assertEqual(counted(fetch.values), 1_000)
                clear(loader)
                self.assertEqual(counted(fetch.values), 0)

    async def test_no_key_stays_that_is_cleared_before_it_is_sent(self):
        for clear in (lambda loader: loader.clear_all(), lambda loader: [loader.clear(key()) for key in keys]):
            loader = DataLoader(Counted())
            made = [Value() for _ in range(10)]
            keys = [weakref.ref(key) for key in made]
            loads = loader.load_many(made)
            clear(loader)
            del made
            await loads
            await turns(3)
            self.assertEqual(counted(keys), 0)

    async def test_no_value_stays_that_is_cleared_while_it_is_loaded(self):
        fetch = Counted()
        loader = DataLoader(fetch)
        load = loader.load_many(range(100))
        loader.clear(1).clear_all()
        self.assertEqual(len(await soon(load)), 100)
        del load
        await turns(3)
        self.assertEqual(counted(fetch.values), 0)

    async def test_no_value_stays_without_a_cache(self):
        for options in ({"cache": False}, {"cache_map": {}}):
            fetch = Counted()
            loader = DataLoader(fetch, **options)
            await soon(loader.load_many(range(100)))
            await turns(3)
            loader.clear_all()
            self.assertEqual(counted(fetch.values), 0)

    async def test_values_and_errors_that_were_primed_are_cleared(self):
        loader = DataLoader(Counted())
        values = [Value() for _ in range(9)]
        future = asyncio.get_running_loop().create_future()
        for key, value in enumerate(values):
            loader.prime(key, value)
        loader.prime("future", future).prime("error", KeyError("error"))
        future.set_result(Value())
        references = [weakref.ref(value) for value in [*values, future.result()]]
        values.clear()
        value = future = None
        await turns(3)
        self.assertEqual(counted(references), 10)
        loader.clear_all()
        self.assertEqual(counted(references), 0)

    async def test_no_key_stays_that_is_asked_for_or_cleared(self):
        loader = DataLoader(Counted())
        loader.load("first")
        keys = [Value() for _ in range(9)]
        references = [weakref.ref(key) for key in keys]
        for key in keys[:3]:
            self.assertIsNone(loader.held(key))
        for key in keys[3:6]:
            loader.clear(key)
        await soon(loader.load_many(keys[6:]))
        for key in keys[6:]:
            loader.clear(key)
        keys.clear()
        key = None
        await turns(3)
        self.assertEqual(counted(references), 0)

    async def test_no_cache_key_stays_behind_its_call(self):
        cache_keys = []

        class CacheKey:
            """A key that can be counted."""

            def __init__(self, key):
                self.key = key
                cache_keys.append(weakref.ref(self))

            def __hash__(self):
                return hash(self.key)

            def __eq__(self, other):
                return self.key == other.key

        loader = DataLoader(Counted(), get_cache_key=CacheKey)
        await soon(loader.load_many([1, 2, 2]))
        await soon(loader.load(1))
        loader.held(1)
        loader.held(3)
        loader.prime(2, None)
        self.assertEqual(counted(cache_keys), 2)
        loader.clear(1)
        self.assertEqual(counted(cache_keys), 1)
        loader.clear_all()
        self.assertEqual(counted(cache_keys), 0)

    async def test_no_task_and_no_list_of_keys_stays_behind_its_batch(self):
        for options in ({}, {"max_batch_size": 1}, {"batch_schedule_fn": lambda send: send()}):
            fetch = Counted()
            loader = DataLoader(fetch, **options)
            await soon(loader.load_many(range(20)))
            await turns(3)
            self.assertGreater(len(fetch.tasks), 0)
            self.assertEqual(counted(fetch.tasks), 0)

    async def test_no_failed_batch_leaves_a_task(self):
        tasks = []

        async def fails(keys):
            tasks.append(weakref.ref(asyncio.current_task()))
            raise OSError("down")

        loader = DataLoader(fails)
        for key in range(20):
            with self.assertRaises(OSError):
                await soon(loader.load(key))
        await turns(3)
        self.assertEqual(counted(tasks), 0)


class Loops(unittest.TestCase):
    def test_no_loop_stays_that_has_ended(self):
        async def batch_load_fn(keys):
            return keys

        async def main(is_cut):
            loaders = [DataLoader(batch_load_fn) for _ in range(5)]
            loads = [loader.load(key) for loader in loaders for key in (1, 2)]
            asyncio.ensure_future(turns(50))
            await turns(2 if is_cut else 20)
            return None if is_cut else await asyncio.gather(*loads)

        loops = []
        for kind in (asyncio.new_event_loop, OtherLoop):
            for is_cut in (False, True):
                loop = kind()
                loop.set_exception_handler(lambda *_: None)
                loops.append(weakref.ref(loop))
                run_on(loop, main(is_cut))
                del loop
        self.assertEqual(counted(loops), 0)


class LongLived(unittest.IsolatedAsyncioTestCase):
    """A loader that lives longer than a request, as a worker's does."""

    async def test_a_loader_that_is_cleared_goes_on(self):
        async def batch_load_fn(keys):
            return [key + 1 for key in keys]

        loader = DataLoader(batch_load_fn, max_cells=20)
        for job in range(50):
            keys = list(range(job, job + 10))
            self.assertEqual(await soon(loader.load_many(keys)), [key + 1 for key in keys])
            self.assertEqual(await soon(loader.load(job)), job + 1)
            loader.clear_all()

    async def test_a_loader_whose_keys_are_cleared_one_by_one_goes_on(self):
        async def batch_load_fn(keys):
            return [key + 1 for key in keys]

        loader = DataLoader(batch_load_fn, max_cells=20)
        for key in range(200):
            self.assertEqual(await soon(loader.load(key)), key + 1)
            loader.prime(-key - 1, "primed").clear(key).clear(-key - 1)

    async def test_a_loader_without_a_cache_goes_on(self):
        async def batch_load_fn(keys):
            if 7 in keys:
                raise OSError("down")
            return [str(key) for key in keys]

        for options in ({"cache": False}, {"cache_map": {}}):
            loader = DataLoader(batch_load_fn, max_cells=6, **options)
            for key in range(100):
                outcome = (await soon(loader.load_many([key])))[0]
                self.assertEqual(repr(outcome), "OSError('down')" if key == 7 else repr(str(key)))

    async def test_a_loader_whose_batches_all_fail_goes_on(self):
        async def batch_load_fn(keys):
            raise OSError("down")

        loader = DataLoader(batch_load_fn, max_cells=6)
        for key in range(100):
            with self.assertRaises(OSError):
                await soon(loader.load(key))

    async def test_what_is_held_or_awaited_stays(self):
        gate = asyncio.Event()

        async def batch_load_fn(keys):
            if "late" in keys:
                await gate.wait()
            return [f"{key}!" for key in keys]

        loader = DataLoader(batch_load_fn, max_cells=8)
        loader.prime("kept", "kept!")
        with self.assertRaises(LoaderFull):
            for key in range(9):
                await soon(loader.load(key))
        self.assertEqual(await soon(loader.load_many(["kept", 0, 6])), ["kept!", "0!", "6!"])
        loader.clear_all()
        late = loader.load("late")
        await turns()
        with self.assertRaises(LoaderFull):
            for key in range(9):
                await soon(loader.clear_all().load(key))
        gate.set()
        self.assertEqual(await soon(late), "late!")
        self.assertEqual(await soon(loader.load("next")), "next!")

    async def test_an_old_batch_ends_no_new_one(self):
        """A batch of the desk before has the number of one of the new desk."""
        gates = [asyncio.Event() for _ in range(3)]
        fetched = []

        async def batch_load_fn(keys):
            fetched.append(list(keys))
            await gates[len(fetched) - 1].wait()
            if len(fetched) == 1:
                raise OSError("down")
            return [f"{key}!" for key in keys]

        loader = DataLoader(batch_load_fn, max_cells=2)
        first = loader.load(1)
        await turns()
        gates[0].set()
        with self.assertRaises(OSError):
            await soon(first)
        second = loader.load(1)
        await turns()
        gates[1].set()
        self.assertEqual(await soon(second), "1!")
        loader.clear_all()
        third = loader.load(1)
        await turns()
        gc.collect()
        self.assertFalse(third.done())
        gates[2].set()
        self.assertEqual(await soon(third), "1!")


if _testcapi is not None:

    class Refused(unittest.TestCase):
        def test_each_call_is_refused_each_growth_of_pythons_in_turn(self):
            """In a program of its own, since a crash would end this one; and not in asyncio's debug mode, in which CPython crashes itself."""
            environment = {name: value for name, value in os.environ.items() if name not in ("PYTHONDEVMODE", "PYTHONASYNCIODEBUG")}
            ran = subprocess.run([sys.executable, REFUSED], capture_output=True, text=True, env=environment)
            self.assertEqual((ran.stderr, ran.returncode), ("", 0), ran.stdout)


if __name__ == "__main__":
    unittest.main()

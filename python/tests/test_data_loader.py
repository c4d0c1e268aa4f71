"""The loader's own behaviour on an event loop: what DataLoader's documentation tells, and each refusal."""

import abc
import asyncio
import gc
import unittest
import weakref
from array import array
from collections import Counter, UserDict, deque
from decimal import Decimal
from enum import Enum, IntEnum
from fractions import Fraction
from typing import NamedTuple

from thrushscreen import DataLoader, LoaderFull


class Level(IntEnum):
    HIGH = 3


class Colour(str, Enum):
    RED = "red"


def answers(answer):
    """A batch function with this answer."""

    async def batch_load_fn(keys):
        return answer

    return batch_load_fn


async def turns(count):
    """Waits for so many turns of the loop."""
    for _ in range(count):
        await asyncio.sleep(0)


def loader_of(batches, **options):
    """A loader that answers each key with itself, and notes the batches."""

    async def batch_load_fn(keys):
        batches.append(list(keys))
        return list(keys)

    return DataLoader(batch_load_fn, **options)


class Batches(unittest.IsolatedAsyncioTestCase):
    async def test_loads_of_one_turn_are_one_batch(self):
        batches = []
        loader = loader_of(batches)
        self.assertEqual(await asyncio.gather(loader.load("a"), loader.load("b")), ["a", "b"])
        self.assertEqual(batches, [["a", "b"]])

    async def test_loads_of_a_key_share_an_outcome(self):
        batches = []
        loader = loader_of(batches)
        first, second = loader.load("a"), loader.load("a")
        self.assertIsNot(first, second)
        self.assertIs(await first, await second)
        self.assertTrue(loader.load("a").done())
        self.assertEqual(batches, [["a"]])

    async def test_a_batch_has_at_most_its_limit(self):
        batches = []
        loader = loader_of(batches, max_batch_size=2)
        await loader.load_many(["a", "b", "c", "d", "e"])
        self.assertEqual(batches, [["a", "b"], ["c", "d"], ["e"]])

    async def test_a_load_from_a_coroutine_that_waits_joins_the_next_batch(self):
        batches = []
        loader = loader_of(batches)

        async def follow(key):
            return await loader.load((await loader.load(key)) + "'")

        self.assertEqual(await asyncio.gather(*map(follow, "abc")), ["a'", "b'", "c'"])
        self.assertEqual(batches, [["a", "b", "c"], ["a'", "b'", "c'"]])

    async def test_a_subclass_has_the_batch_function(self):
        class Doubles(DataLoader):
            max_batch_size = 1

            async def batch_load_fn(self, keys):
                return [2 * key for key in keys]

        self.assertEqual(await Doubles().load_many([1, 2]), [2, 4])

    async def test_a_subclass_has_a_function_of_the_module(self):
        class Named(DataLoader):
            batch_load_fn = staticmethod(answers(["ada", "bob"]))
            get_cache_key = staticmethod(str.lower)

        self.assertEqual(await Named().load_many(["Ada", "ada", "Bob"]), ["ada", "ada", "bob"])

    async def test_a_subclass_has_each_option(self):
        class Few(DataLoader):
            max_cells = 1

        few = Few(answers(["a"]))
        self.assertEqual(await few.load("a"), "a")
        with self.assertRaisesRegex(LoaderFull, "max_cells"):
            few.load("b")
        two = Few(answers(["a", "b"]), max_cells=2)
        self.assertEqual((two.max_cells, await two.load_many(["a", "b"])), (2, ["a", "b"]))

    async def test_no_keys_are_no_batch(self):
        batches = []
        self.assertEqual(await loader_of(batches).load_many([]), [])
        self.assertEqual(batches, [])


class Keys(unittest.IsolatedAsyncioTestCase):
    async def test_a_number_and_its_digits_are_two_keys(self):
        batches = []
        loader = loader_of(batches)
        self.assertEqual(await loader.load_many([1, "1", -1, 10**30, "é"]), [1, "1", -1, 10**30, "é"])
        self.assertEqual(batches, [[1, "1", -1, 10**30, "é"]])

    async def test_other_keys_take_a_cache_key(self):
        batches = []
        loader = loader_of(batches, get_cache_key=lambda key: f"{key[0]}/{key[1]}")
        await asyncio.gather(loader.load(("a", 1)), loader.load(("a", 1)), loader.load(("a", 2)))
        self.assertEqual(batches, [[("a", 1), ("a", 2)]])

    async def test_any_hashable_is_a_key(self):
        class Place(NamedTuple):
            x: int
            y: int

        keys = [("a", 1), Place(1, 2), b"a", "", "x" * 257, "\ud800", 10**256, -(2**63), 2**60, 1.5, frozenset("ab"), object()]
        for get_cache_key in (None, lambda key: key):
            batches = []
            loader = loader_of(batches, get_cache_key=get_cache_key)
            self.assertEqual(await loader.load_many(keys + keys), keys + keys)
            self.assertEqual([await loader.load(key) for key in keys], keys)
            self.assertEqual(batches, [keys])
            self.assertIsNotNone(loader.held(("a", 1)))
            for key in keys:
                loader.clear(key)
                self.assertIsNone(loader.held(key))
            self.assertEqual(await loader.load_many(keys), keys)
            self.assertEqual(batches, [keys, keys])

    async def test_keys_that_are_equal_are_one(self):
        for one, other in [
            (1, 1.0),
            (1, True),
            (0, -0.0),
            (-1, -1.0),
            (-2, Decimal(-2)),
            (7, Fraction(14, 2)),
            (2**61, float(2**61)),
            (2**61 - 1, Decimal(2**61 - 1)),
            (-(2**61), complex(-(2**61))),
            (5, complex(5)),
            (Level.HIGH, 3),
            ("red", Colour.RED),
            ((1, "a"), (1.0, "a")),
            ("x" * 300, "".join(["x"] * 300)),
        ]:
            for first, second in ((one, other), (other, one)):
                batches = []
                loader = loader_of(batches)
                with self.subTest(first=first, second=second):
                    self.assertEqual(first, second)
                    await asyncio.gather(loader.load(first), loader.load(second))
                    self.assertEqual(batches, [[first]])
                    loader.clear(second)
                    self.assertIsNone(loader.held(first))

    async def test_keys_that_differ_are_several(self):
        batches = []
        keys = ["1", 1, 1.5, b"1", ("1",), (1,), "ints1", "one", "\ud800", "\ud801", "é", "e\u0301"]
        keys += [-1, -2, 2**61, 2**61 + 1, 2**125, -(2**125)]
        keys += ["x" * 256, "x" * 257, "x" * 256 + "y", "é" * 128, "é" * 128 + "y", "0", 0]
        loader = loader_of(batches)
        await loader.load_many(keys)
        self.assertEqual(batches, [keys])

    async def test_a_type_with_an_equality_of_its_own_is_taken_at_its_word(self):
        class AnyCase(str):
            def __eq__(self, other):
                return self.lower() == other.lower()

            def __hash__(self):
                return hash(self.lower())

        batches = []
        loader = loader_of(batches)
        await loader.load_many([AnyCase("Ada"), AnyCase("ADA"), AnyCase("Bob")])
        self.assertEqual(batches, [["Ada", "Bob"]])

    async def test_keys_that_are_none_are_refused(self):
        loader = loader_of([])
        for key in (None, ["a"], {"a": 1}, {"a"}):
            calls = (loader.load, loader.clear, loader.held, lambda key: loader.prime(key, 0), lambda key: loader.load_many([key]))
            for call in calls:
                with self.assertRaises(TypeError, msg=repr(key)):
                    call(key)
        with self.assertRaisesRegex(TypeError, "list.*get_cache_key"):
            loader.load(["a"])

    async def test_a_cache_key_that_raises_is_passed_on(self):
        loader = loader_of([], get_cache_key=lambda key: key["id"])
        with self.assertRaises(KeyError):
            loader.load({})
        with self.assertRaises(TypeError):
            loader.load({"id": []})
        self.assertEqual(await loader.load({"id": "a"}), {"id": "a"})


class Outcomes(unittest.IsolatedAsyncioTestCase):
    async def test_the_error_of_one_key_stays(self):
        batches = []

        async def batch_load_fn(keys):
            batches.append(list(keys))
            return [KeyError(key) if key == "b" else key for key in keys]

        loader = DataLoader(batch_load_fn)
        for _ in range(2):
            with self.assertRaises(KeyError):
                await loader.load("b")
            self.assertEqual(await loader.load("a"), "a")
        self.assertEqual(batches, [["b"], ["a"]])

    async def test_the_keys_of_a_failed_batch_are_forgotten(self):
        fails = [OSError("down"), None]

        async def batch_load_fn(keys):
            fault = fails.pop(0)
            if fault is not None:
                raise fault
            return keys

        loader = DataLoader(batch_load_fn)
        futures = [loader.load("a"), loader.load("b")]
        for outcome in await asyncio.gather(*futures, return_exceptions=True):
            self.assertEqual(str(outcome), "down")
        self.assertEqual(await loader.load_many(["a", "b"]), ["a", "b"])

    async def test_an_answer_of_another_length_fails_the_batch(self):
        for answer in ([], [1, 2], (), (1, 2), range(3)):
            with self.assertRaisesRegex(TypeError, f"asked for 1 and answered {len(answer)}"):
                await DataLoader(answers(answer)).load("a")

    async def test_what_is_no_list_of_values_is_refused_by_its_type(self):
        texts = ("a", b"a", bytearray(1), memoryview(b"a"))
        mappings = ({"a": 1}, Counter("a"), UserDict(a=1))
        for answer in (None, 5, {"a"}, {"a": 1}.values(), iter(["a"]), (n for n in "a"), *texts, *mappings):
            with self.assertRaisesRegex(TypeError, type(answer).__name__):
                await DataLoader(answers(answer)).load("a")

    async def test_other_sequences_are_taken(self):
        class Column:
            """As numpy has them."""

            def __len__(self):
                return 2

            def __getitem__(self, place):
                return [1, 2][place]

        for answer in ((1, 2), range(1, 3), deque([1, 2]), array("i", [1, 2]), Column()):
            self.assertEqual(await DataLoader(answers(answer)).load_many(["a", "b"]), [1, 2])

    async def test_a_batch_function_that_answers_at_once_is_refused(self):
        async def yields(keys):
            yield "a"

        for function in (lambda keys: None, lambda keys: ["a"], yields):
            wanted = f"async def, .* this one gave {type(function([])).__name__}$"
            with self.assertRaisesRegex(TypeError, wanted):
                await DataLoader(function).load("a")

    async def test_a_plain_function_may_answer_another_awaitable(self):
        def batch_load_fn(keys):
            return asyncio.ensure_future(answers(keys)(keys))

        self.assertEqual(await DataLoader(batch_load_fn).load_many(["a", "b"]), ["a", "b"])

    async def test_a_batch_function_that_is_none_is_refused(self):
        with self.assertRaises(TypeError):
            DataLoader()
        with self.assertRaises(TypeError):
            DataLoader(5)

    async def test_a_cancelled_wait_leaves_the_others(self):
        loader = loader_of([])
        future = loader.load("a")
        other = loader.load("b")
        future.cancel()
        self.assertEqual(await other, "b")

    async def test_a_late_failure_leaves_the_newer_load(self):
        gate = asyncio.Event()
        batches = []

        async def batch_load_fn(keys):
            batches.append(list(keys))
            if len(batches) == 1:
                await gate.wait()
                raise OSError("down")
            return keys

        loader = DataLoader(batch_load_fn)
        old = loader.load("a")
        while not batches:
            await asyncio.sleep(0)
        loader.clear("a")
        new = loader.load("a")
        self.assertEqual(await new, "a")
        gate.set()
        with self.assertRaises(OSError):
            await old
        self.assertEqual(loader.load("a").result(), "a")
        self.assertEqual(batches, [["a"], ["a"]])


class Memo(unittest.IsolatedAsyncioTestCase):
    async def test_prime_holds_a_value_unless_one_is_held(self):
        batches = []
        loader = loader_of(batches)
        self.assertIs(loader.prime("a", 1).prime("a", 2), loader)
        self.assertEqual(await loader.load("a"), 1)
        loader.prime("b", KeyError("b"))
        with self.assertRaises(KeyError):
            await loader.load("b")
        self.assertEqual(batches, [])

    async def test_clear_forgets_a_key_and_clear_all_all(self):
        batches = []
        loader = loader_of(batches)
        await loader.load_many(["a", "b"])
        self.assertIs(loader.clear("a").clear("c"), loader)
        await loader.load_many(["a", "b"])
        self.assertIs(loader.clear_all(), loader)
        await loader.load_many(["a", "b"])
        self.assertEqual(batches, [["a", "b"], ["a"], ["a", "b"]])

    async def test_a_key_that_is_cleared_and_loaded_again_is_in_another_batch(self):
        for clear in (lambda loader: loader.clear("a"), lambda loader: loader.clear_all()):
            batches = []
            loader = loader_of(batches)
            loads = [loader.load("a"), loader.load("b")]
            clear(loader)
            loads += [loader.load("a"), loader.load("a")]
            clear(loader)
            loads += [clear(loader).load("a"), loader.prime("c", 1).load("c")]
            self.assertEqual(await asyncio.gather(*loads), ["a", "b", "a", "a", "a", 1])
            self.assertEqual(batches, [["a", "b"], ["a"], ["a"]])

    async def test_held_tells_what_is_held_and_loads_nothing(self):
        batches = []
        loader = loader_of(batches)
        self.assertIsNone(loader.held("a"))
        load = loader.load("a")
        held = loader.held("a")
        self.assertFalse(held.done())
        self.assertEqual([await load, await held, loader.held("a").result()], ["a", "a", "a"])
        self.assertEqual(batches, [["a"]])

    async def test_prime_takes_a_future_and_what_it_ends_with(self):
        loader = loader_of([])
        future = asyncio.get_running_loop().create_future()
        loader.prime("a", future)
        loads = [loader.load("a"), loader.load("a")]
        loads[0].cancel()
        future.set_result(1)
        self.assertEqual(await loads[1], 1)
        self.assertEqual(loader.load("a").result(), 1)
        failed = asyncio.get_running_loop().create_future()
        failed.set_exception(KeyError("b"))
        with self.assertRaises(KeyError):
            await loader.prime("b", failed).load("b")
        cancelled = asyncio.get_running_loop().create_future()
        cancelled.cancel()
        with self.assertRaisesRegex(RuntimeError, "primed with CancelledError"):
            await loader.prime("c", cancelled).load("c")

class Refusals(unittest.IsolatedAsyncioTestCase):
    async def test_a_full_loader_refuses_and_still_hits(self):
        loader = loader_of([], max_cells=2)
        await loader.load("a")
        with self.assertRaises(LoaderFull):
            loader.load_many(["b", "c"])
        self.assertEqual(await loader.load("b"), "b")
        for call in (loader.load, lambda key: loader.prime(key, 0), lambda key: loader.load_many([key])):
            with self.assertRaises(LoaderFull):
                call("c")
        self.assertEqual(await loader.load_many(["a", "b"]), ["a", "b"])

    async def test_limits_are_within_bounds(self):
        for option in ("max_batch_size", "max_cells"):
            for limit in (0, -1, 65_537, 2**32 + 1, 10**30):
                with self.assertRaisesRegex(ValueError, f"{option} is 1 to 65536, and not {limit}"):
                    loader_of([], **{option: limit})

    async def test_options_are_what_they_say(self):
        for options in (
            {"max_batch_size": True},
            {"max_batch_size": "2"},
            {"max_batch_size": 2.0},
            {"get_cache_key": 3},
            {"batch_schedule_fn": 3},
            {"cache_map": 3},
            {"cache_map": []},
            {"name": 3},
            {"max_cells": "3"},
            {"batch": 1},
            {"cache": "yes"},
        ):
            with self.assertRaises(TypeError, msg=str(options)):
                loader_of([], **options)
            kind = type("Own", (DataLoader,), {"batch_load_fn": answers([]), **options})
            with self.assertRaises(TypeError, msg=str(options)):
                kind()

    async def test_an_abstract_subclass_makes_no_loader(self):
        class Abstract(DataLoader, abc.ABC):
            @abc.abstractmethod
            async def batch_load_fn(self, keys):
                """What a subclass has."""

            @abc.abstractmethod
            def table(self):
                """The same."""

        class Whole(Abstract):
            async def batch_load_fn(self, keys):
                return keys

            def table(self):
                return "users"

        for make in (Abstract, lambda: Abstract(answers(["a"]))):
            with self.assertRaisesRegex(TypeError, "abstract"):
                make()
        self.assertEqual(await Whole().load("a"), "a")

    async def test_a_loader_opens_once(self):
        loader = loader_of([])
        load = loader.load("a")
        with self.assertRaises(RuntimeError):
            loader.__init__(loader.batch_load_fn)
        self.assertEqual(await load, "a")

    async def test_a_loader_that_was_not_opened_answers(self):
        loader = DataLoader.__new__(DataLoader)
        for call in (lambda: loader.load("a"), lambda: loader.load_many(["a"]), lambda: loader.prime("a", 1), loader.clear_all):
            with self.assertRaises(RuntimeError):
                call()

    async def test_a_default_loader_takes_as_many_keys_as_are_told(self):
        loader = loader_of([])
        for key in range(65_535):
            loader.prime(key, key)
        self.assertEqual(await loader.load(65_535), 65_535)
        with self.assertRaises(LoaderFull):
            loader.load(65_536)
        self.assertEqual(loader.load(0).result(), 0)

    async def test_loaders_are_collected(self):
        async def batch_load_fn(keys):
            return [Itself() for _ in keys]

        for load in ("a", ("a", 1)):
            loader = DataLoader(batch_load_fn)
            (await loader.load(load)).loader = loader
            loader.prime("b", loader)
            # The loop lets go of what it has called.
            await turns(2)
            seen = weakref.ref(loader)
            del loader
            gc.collect()
            self.assertIsNone(seen())

    async def test_a_loader_is_collected_with_its_keys_and_its_functions(self):
        async def in_cycles(name, kind):
            option = kind()
            loader = loader_of([], **{name: option})
            key = Itself()
            key.loader = option.loader = loader
            waiter = loader.load(key)
            await turns(9)
            self.assertEqual(waiter.done(), name != "batch_schedule_fn")
            return weakref.ref(loader)

        for name, kind in (("get_cache_key", Itself), ("cache_map", Map), ("batch_schedule_fn", Itself)):
            seen = await in_cycles(name, kind)
            await turns(2)
            gc.collect()
            self.assertIsNone(seen(), name)


class Itself:
    """What a cycle goes through."""

    def __call__(self, key):
        return key


class Map(dict):
    """The same, as a mapping."""


class NoLoop(unittest.TestCase):
    def test_a_key_is_primed_before_the_loop_runs(self):
        batches = []
        loader = loader_of(batches)
        loader.prime("a", 1).prime("b", KeyError("b")).prime("c", 3).clear("c")

        async def later():
            with self.assertRaises(KeyError):
                await loader.load("b")
            return await loader.load_many(["a", "c"])

        self.assertEqual(asyncio.run(later()), [1, "c"])
        self.assertEqual(batches, [["c"]])

    def test_a_load_outside_of_a_loop_is_refused_and_forgotten(self):
        loader = loader_of([])
        with self.assertRaises(RuntimeError):
            loader.load("a")

        async def later():
            return await loader.load("a")

        self.assertEqual(asyncio.run(later()), "a")


if __name__ == "__main__":
    unittest.main()

"""The cases of DataLoader 2.x's own tests, each under the name that it has there.

Where a case can't be said in Python, or holds otherwise, the test tells how.
"""

import asyncio
import gc
import unittest

from thrushscreen import DataLoader


def id_loader(**options):
    """A loader that answers each key with itself, and the calls of its batch function."""
    load_calls = []

    async def batch_load_fn(keys):
        load_calls.append(list(keys))
        return list(keys)

    return DataLoader(batch_load_fn, **options), load_calls


class Odd(Exception):
    """What an odd number has for a value."""


def even_loader():
    load_calls = []

    async def batch_load_fn(keys):
        load_calls.append(list(keys))
        return [key if key % 2 == 0 else Odd(f"Odd: {key}") for key in keys]

    return DataLoader(batch_load_fn), load_calls


def error_loader():
    load_calls = []

    async def batch_load_fn(keys):
        load_calls.append(list(keys))
        return [Odd(f"Error: {key}") for key in keys]

    return DataLoader(batch_load_fn), load_calls


class PrimaryApi(unittest.IsolatedAsyncioTestCase):
    async def test_builds_a_really_really_simple_data_loader(self):
        loader, _ = id_loader()
        future = loader.load(1)
        self.assertIsInstance(future, asyncio.Future)
        self.assertEqual(await future, 1)

    async def test_references_the_loader_as_this_in_the_batch_function(self):
        """A batch function that wants its loader is a method of a subclass."""
        seen = []

        class Own(DataLoader):
            async def batch_load_fn(self, keys):
                seen.append(self)
                return keys

        loader = Own()
        await loader.load(1)
        self.assertEqual(seen, [loader])

    async def test_supports_loading_multiple_keys_in_one_call(self):
        loader, _ = id_loader()
        future = loader.load_many([1, 2])
        self.assertIsInstance(future, asyncio.Future)
        self.assertEqual(await future, [1, 2])
        self.assertEqual(await loader.load_many([]), [])

    async def test_supports_loading_multiple_keys_in_one_call_with_errors(self):
        async def batch_load_fn(keys):
            return [Odd("Bad Key") if key == "bad" else key for key in keys]

        loader = DataLoader(batch_load_fn)
        one, two, bad = await loader.load_many(["a", "b", "bad"])
        self.assertEqual((one, two), ("a", "b"))
        self.assertIsInstance(bad, Odd)
        self.assertEqual(str(bad), "Bad Key")
        with self.assertRaisesRegex(Odd, "Bad Key"):
            await loader.load_many(["a", "b", "bad"], return_exceptions=False)

    async def test_batches_multiple_requests(self):
        loader, load_calls = id_loader()
        self.assertEqual(await asyncio.gather(loader.load(1), loader.load(2)), [1, 2])
        self.assertEqual(load_calls, [[1, 2]])

    async def test_batches_multiple_requests_with_max_batch_sizes(self):
        loader, load_calls = id_loader(max_batch_size=2)
        self.assertEqual(await asyncio.gather(loader.load(1), loader.load(2), loader.load(3)), [1, 2, 3])
        self.assertEqual(load_calls, [[1, 2], [3]])

    async def test_applies_max_batch_size_correctly_with_duplicate_keys(self):
        loader, load_calls = id_loader(max_batch_size=3, batch_schedule_fn=lambda send: asyncio.get_running_loop().call_soon(send))
        values = ["a", "b", "a", "a", "a", "b", "c"]
        self.assertEqual(await asyncio.gather(*map(loader.load, values)), values)
        self.assertEqual(load_calls, [["a", "b", "c"]])

    async def test_batches_cached_results(self):
        """A hit is done at once, and doesn't wait for the batch of its frame."""
        gate = asyncio.Event()
        load_calls = []

        async def batch_load_fn(keys):
            load_calls.append(list(keys))
            await gate.wait()
            return keys

        loader = DataLoader(batch_load_fn)
        loader.prime(1, 1)
        one, two = loader.load(1), loader.load(2)
        self.assertEqual((one.done(), two.done()), (True, False))
        gate.set()
        self.assertEqual(await asyncio.gather(one, two), [1, 2])
        self.assertEqual(load_calls, [[2]])

    async def test_max_batch_size_respects_cached_results(self):
        loader, load_calls = id_loader(max_batch_size=1)
        loader.prime(1, 1)
        self.assertEqual(await asyncio.gather(loader.load(1), loader.load(2)), [1, 2])
        self.assertEqual(load_calls, [[2]])

    async def test_coalesces_identical_requests(self):
        """A load has a future of its own, as it has a promise of its own there: cancelling one touches no other."""
        loader, load_calls = id_loader()
        one, two = loader.load(1), loader.load(1)
        self.assertEqual(await asyncio.gather(one, two), [1, 1])
        self.assertEqual(load_calls, [[1]])

    async def test_coalesces_identical_requests_across_sized_batches(self):
        loader, load_calls = id_loader(max_batch_size=2)
        loads = [loader.load(key) for key in (1, 2, 1, 3)]
        self.assertEqual(await asyncio.gather(*loads), [1, 2, 1, 3])
        self.assertEqual(load_calls, [[1, 2], [3]])

    async def test_caches_repeated_requests(self):
        loader, load_calls = id_loader()
        self.assertEqual(await asyncio.gather(loader.load("A"), loader.load("B")), ["A", "B"])
        self.assertEqual(load_calls, [["A", "B"]])
        self.assertEqual(await asyncio.gather(loader.load("A"), loader.load("C")), ["A", "C"])
        self.assertEqual(load_calls, [["A", "B"], ["C"]])
        self.assertEqual(await asyncio.gather(*map(loader.load, "ABC")), ["A", "B", "C"])
        self.assertEqual(load_calls, [["A", "B"], ["C"]])

    async def test_clears_single_value_in_loader(self):
        loader, load_calls = id_loader()
        await asyncio.gather(loader.load("A"), loader.load("B"))
        loader.clear("A")
        self.assertEqual(await asyncio.gather(loader.load("A"), loader.load("B")), ["A", "B"])
        self.assertEqual(load_calls, [["A", "B"], ["A"]])

    async def test_clears_all_values_in_loader(self):
        loader, load_calls = id_loader()
        await asyncio.gather(loader.load("A"), loader.load("B"))
        loader.clear_all()
        self.assertEqual(await asyncio.gather(loader.load("A"), loader.load("B")), ["A", "B"])
        self.assertEqual(load_calls, [["A", "B"], ["A", "B"]])

    async def test_allows_priming_the_cache(self):
        loader, load_calls = id_loader()
        loader.prime("A", "A")
        self.assertEqual(await asyncio.gather(loader.load("A"), loader.load("B")), ["A", "B"])
        self.assertEqual(load_calls, [["B"]])

    async def test_allows_priming_the_cache_with_a_promise(self):
        loader, load_calls = id_loader()
        future = asyncio.get_running_loop().create_future()
        future.set_result("A")
        loader.prime("A", future)
        self.assertEqual(await asyncio.gather(loader.load("A"), loader.load("B")), ["A", "B"])
        self.assertEqual(load_calls, [["B"]])

    async def test_does_not_prime_keys_that_already_exist(self):
        loader, load_calls = id_loader()
        loader.prime("A", "X")
        self.assertEqual(await asyncio.gather(loader.load("A"), loader.load("B")), ["X", "B"])
        loader.prime("A", "Y")
        loader.prime("B", "Y")
        self.assertEqual(await asyncio.gather(loader.load("A"), loader.load("B")), ["X", "B"])
        self.assertEqual(load_calls, [["B"]])

    async def test_allows_forcefully_priming_the_cache(self):
        loader, load_calls = id_loader()
        loader.prime("A", "X")
        self.assertEqual(await asyncio.gather(loader.load("A"), loader.load("B")), ["X", "B"])
        loader.clear("A").prime("A", "Y")
        loader.clear("B").prime("B", "Y")
        self.assertEqual(await asyncio.gather(loader.load("A"), loader.load("B")), ["Y", "Y"])
        self.assertEqual(load_calls, [["B"]])


class RepresentsErrors(unittest.IsolatedAsyncioTestCase):
    async def test_resolves_to_error_to_indicate_failure(self):
        loader, load_calls = even_loader()
        with self.assertRaisesRegex(Odd, "Odd: 1"):
            await loader.load(1)
        self.assertEqual(await loader.load(2), 2)
        self.assertEqual(load_calls, [[1], [2]])

    async def test_can_represent_failures_and_successes_simultaneously(self):
        loader, load_calls = even_loader()
        one, two = loader.load(1), loader.load(2)
        with self.assertRaisesRegex(Odd, "Odd: 1"):
            await one
        self.assertEqual(await two, 2)
        self.assertEqual(load_calls, [[1, 2]])

    async def test_caches_failed_fetches(self):
        loader, load_calls = error_loader()
        for _ in range(2):
            with self.assertRaisesRegex(Odd, "Error: 1"):
                await loader.load(1)
        self.assertEqual(load_calls, [[1]])

    async def test_handles_priming_the_cache_with_an_error(self):
        loader, load_calls = id_loader()
        loader.prime(1, Odd("Error: 1"))
        # Time passes before the error is looked at.
        await asyncio.sleep(0)
        with self.assertRaisesRegex(Odd, "Error: 1"):
            await loader.load(1)
        self.assertEqual(load_calls, [])

    async def test_can_clear_values_from_cache_after_errors(self):
        loader, load_calls = error_loader()
        for _ in range(2):
            try:
                await loader.load(1)
            except Odd:
                loader.clear(1)
        self.assertEqual(load_calls, [[1], [1]])

    async def test_propagates_error_to_all_loads(self):
        load_calls = []

        async def batch_load_fn(keys):
            load_calls.append(list(keys))
            raise Odd("I am a terrible loader")

        loader = DataLoader(batch_load_fn)
        one, two = loader.load(1), loader.load(2)
        errors = await asyncio.gather(one, two, return_exceptions=True)
        self.assertEqual(str(errors[0]), "I am a terrible loader")
        self.assertIs(errors[0], errors[1])
        self.assertEqual(load_calls, [[1, 2]])


class AcceptsAnyKindOfKey(unittest.IsolatedAsyncioTestCase):
    async def test_accepts_objects_as_keys(self):
        loader, load_calls = id_loader()
        one, two = object(), object()
        self.assertEqual(await asyncio.gather(loader.load(one), loader.load(two)), [one, two])
        self.assertEqual(load_calls, [[one, two]])
        loader.clear(one)
        self.assertEqual(await asyncio.gather(loader.load(one), loader.load(two)), [one, two])
        self.assertEqual(load_calls, [[one, two], [one]])


class AcceptsOptions(unittest.IsolatedAsyncioTestCase):
    async def test_may_disable_batching(self):
        loader, load_calls = id_loader(batch=False)
        self.assertEqual(await asyncio.gather(loader.load(1), loader.load(2)), [1, 2])
        self.assertEqual(load_calls, [[1], [2]])

    async def test_may_disable_caching(self):
        loader, load_calls = id_loader(cache=False)
        self.assertEqual(await asyncio.gather(loader.load("A"), loader.load("B")), ["A", "B"])
        self.assertEqual(load_calls, [["A", "B"]])
        self.assertEqual(await asyncio.gather(loader.load("A"), loader.load("C")), ["A", "C"])
        self.assertEqual(load_calls, [["A", "B"], ["A", "C"]])
        self.assertEqual(await asyncio.gather(*map(loader.load, "ABC")), ["A", "B", "C"])
        self.assertEqual(load_calls, [["A", "B"], ["A", "C"], ["A", "B", "C"]])

    async def test_keys_are_repeated_in_batch_when_cache_disabled(self):
        loader, load_calls = id_loader(cache=False)
        many = ["C", "D", "A", "A", "B"]
        values = await asyncio.gather(loader.load("A"), loader.load("C"), loader.load("D"), loader.load_many(many))
        self.assertEqual(values, ["A", "C", "D", ["C", "D", "A", "A", "B"]])
        self.assertEqual(load_calls, [["A", "C", "D", "C", "D", "A", "A", "B"]])

    async def test_cache_map_may_be_set_to_null_to_disable_cache(self):
        """None is what isn't given: cache=False disables the cache."""
        loader, load_calls = id_loader(cache_map=None, cache=False)
        await loader.load("A")
        await loader.load("A")
        self.assertEqual(load_calls, [["A"], ["A"]])

    async def test_does_not_interact_with_a_cache_when_cache_is_disabled(self):
        future = asyncio.get_running_loop().create_future()
        future.set_result("X")
        cache_map = {"X": future}
        loader, _ = id_loader(cache=False, cache_map=cache_map)
        loader.prime("A", "A")
        self.assertNotIn("A", cache_map)
        loader.clear("X")
        self.assertIn("X", cache_map)
        loader.clear_all()
        self.assertIn("X", cache_map)

    async def test_complex_cache_behavior_via_clear_all(self):
        """This loader clears its cache as soon as a batch function is called."""
        load_calls = []

        class Own(DataLoader):
            async def batch_load_fn(self, keys):
                self.clear_all()
                load_calls.append(list(keys))
                return keys

        loader = Own()
        self.assertEqual(await asyncio.gather(loader.load("A"), loader.load("B"), loader.load("A")), ["A", "B", "A"])
        self.assertEqual(load_calls, [["A", "B"]])
        self.assertEqual(await asyncio.gather(loader.load("A"), loader.load("B"), loader.load("A")), ["A", "B", "A"])
        self.assertEqual(load_calls, [["A", "B"], ["A", "B"]])


def cache_key(key):
    return tuple(sorted(key.items())) if isinstance(key, dict) else key


class AcceptsObjectKeyInCustomCacheKeyFunction(unittest.IsolatedAsyncioTestCase):
    async def test_accepts_objects_with_a_complex_key(self):
        loader, load_calls = id_loader(get_cache_key=cache_key)
        one, two = {"id": 123}, {"id": 123}
        self.assertEqual([await loader.load(one), await loader.load(two)], [one, one])
        self.assertEqual(load_calls, [[one]])

    async def test_clears_objects_with_complex_key(self):
        loader, load_calls = id_loader(get_cache_key=cache_key)
        one, two = {"id": 123}, {"id": 123}
        self.assertEqual(await loader.load(one), one)
        # It is cleared by a key that is the same to the cache.
        loader.clear(two)
        self.assertEqual(await loader.load(one), one)
        self.assertEqual(load_calls, [[one], [one]])

    async def test_accepts_objects_with_different_order_of_keys(self):
        loader, load_calls = id_loader(get_cache_key=cache_key)
        one, two = {"a": 123, "b": 321}, {"b": 321, "a": 123}
        self.assertEqual(await asyncio.gather(loader.load(one), loader.load(two)), [one, one])
        self.assertEqual(len(load_calls), 1)
        self.assertEqual(load_calls, [[one]])

    async def test_allows_priming_the_cache_with_an_object_key(self):
        loader, load_calls = id_loader(get_cache_key=cache_key)
        one, two = {"id": 123}, {"id": 123}
        loader.prime(one, one)
        self.assertIs(await loader.load(one), one)
        self.assertIs(await loader.load(two), one)
        self.assertEqual(load_calls, [])


class SimpleMap:
    """A mapping of as little as a cache needs."""

    def __init__(self):
        self.stash = {}

    def get(self, key, default=None):
        return self.stash.get(key, default)

    def __setitem__(self, key, value):
        self.stash[key] = value

    def pop(self, key, default=None):
        return self.stash.pop(key, default)

    def clear(self):
        self.stash = {}


class AcceptsCustomCacheMapInstance(unittest.IsolatedAsyncioTestCase):
    async def test_accepts_a_custom_cache_map_implementation(self):
        cache = SimpleMap()
        loader, load_calls = id_loader(cache_map=cache)
        self.assertEqual(await asyncio.gather(loader.load("a"), loader.load("b")), ["a", "b"])
        self.assertEqual(load_calls, [["a", "b"]])
        self.assertEqual(list(cache.stash), ["a", "b"])
        self.assertEqual(await asyncio.gather(loader.load("c"), loader.load("b")), ["c", "b"])
        self.assertEqual(load_calls, [["a", "b"], ["c"]])
        self.assertEqual(list(cache.stash), ["a", "b", "c"])
        loader.clear("b")
        self.assertEqual(await loader.load("b"), "b")
        self.assertEqual(load_calls, [["a", "b"], ["c"], ["b"]])
        self.assertEqual(list(cache.stash), ["a", "c", "b"])
        loader.clear_all()
        self.assertEqual(list(cache.stash), [])


class ItAllowsCustomSchedulers(unittest.IsolatedAsyncioTestCase):
    async def test_supports_manual_dispatch(self):
        """A batch function is a coroutine, and is called in the turn after."""
        callbacks = []

        async def dispatch():
            for callback in callbacks:
                callback()
            callbacks.clear()
            await asyncio.sleep(0)

        loader, load_calls = id_loader(batch_schedule_fn=callbacks.append)
        loader.load("A")
        loader.load("B")
        await dispatch()
        loader.load("A")
        loader.load("C")
        await dispatch()
        # It is never dispatched.
        loader.load("D")
        self.assertEqual(load_calls, [["A", "B"], ["C"]])


class ItIsResilientToJobQueueOrdering(unittest.IsolatedAsyncioTestCase):
    async def test_batches_loads_occuring_within_promises(self):
        loader, load_calls = id_loader()
        tasks = []

        async def later(keys):
            await asyncio.sleep(0)
            await asyncio.sleep(0)
            loader.load(keys[0])
            if keys[1:]:
                tasks.append(asyncio.ensure_future(later(keys[1:])))

        await asyncio.gather(loader.load("A"), later("BCD"))
        self.assertEqual(load_calls, [["A", "B", "C", "D"]])

    async def test_can_call_a_loader_from_a_loader(self):
        deep, deep_calls = id_loader()
        a_calls, b_calls = [], []

        async def a_fn(keys):
            a_calls.append(list(keys))
            return await deep.load_many(keys)

        async def b_fn(keys):
            b_calls.append(list(keys))
            return await deep.load_many(keys)

        a_loader, b_loader = DataLoader(a_fn), DataLoader(b_fn)
        values = await asyncio.gather(a_loader.load("A1"), b_loader.load("B1"), a_loader.load("A2"), b_loader.load("B2"))
        self.assertEqual(values, ["A1", "B1", "A2", "B2"])
        self.assertEqual(a_calls, [["A1", "A2"]])
        self.assertEqual(b_calls, [["B1", "B2"]])
        self.assertEqual(deep_calls, [["A1", "A2", "B1", "B2"]])


class ProvidesDescriptiveErrorMessagesForApiAbuse(unittest.IsolatedAsyncioTestCase):
    async def test_loader_creation_requires_a_function(self):
        for given in (None, {}, 1):
            with self.assertRaisesRegex(TypeError, "batch function"):
                DataLoader(given)
        with self.assertRaisesRegex(TypeError, "batch function"):
            DataLoader()

    async def test_load_function_requires_an_key(self):
        loader, _ = id_loader()
        for call in (lambda: loader.load(), lambda: loader.load(None)):
            with self.assertRaises(TypeError):
                call()
        # Falsy values are keys.
        self.assertEqual(await loader.load(0), 0)
        self.assertEqual(await loader.load(""), "")
        self.assertEqual(await loader.load(False), False)

    async def test_load_many_function_requires_a_list_of_key(self):
        loader, _ = id_loader()
        for call in (lambda: loader.load_many(), lambda: loader.load_many(None), lambda: loader.load_many(1, 2, 3)):
            with self.assertRaises(TypeError):
                call()
        # An empty list is one.
        self.assertEqual(await loader.load_many([]), [])

    async def test_batch_function_must_return_a_promise_not_null(self):
        with self.assertRaisesRegex(TypeError, "NoneType"):
            await DataLoader(lambda keys: None).load(1)

    async def test_batch_function_must_return_a_promise_not_a_value(self):
        with self.assertRaisesRegex(TypeError, "list"):
            await DataLoader(lambda keys: keys).load(1)

    async def test_batch_function_must_return_a_promise_of_an_array_not_null(self):
        async def batch_load_fn(keys):
            return None

        with self.assertRaisesRegex(TypeError, "NoneType"):
            await DataLoader(batch_load_fn).load(1)

    async def test_batch_function_must_promise_an_array_of_correct_length(self):
        async def batch_load_fn(keys):
            return []

        with self.assertRaisesRegex(TypeError, "asked for 1 and answered 0"):
            await DataLoader(batch_load_fn).load(1)

    async def test_cache_should_have_get_set_delete_and_clear_methods(self):
        class IncompleteMap:
            def get(self, key, default=None):
                return default

        with self.assertRaisesRegex(TypeError, "IncompleteMap has no __setitem__"):
            id_loader(cache_map=IncompleteMap())

    async def test_cache_key_fn_must_be_a_function(self):
        for given in ("id", 1, {}):
            with self.assertRaisesRegex(TypeError, "get_cache_key"):
                id_loader(get_cache_key=given)

    async def test_batch_schedule_fn_must_be_a_function(self):
        for given in ("soon", 1, {}):
            with self.assertRaisesRegex(TypeError, "batch_schedule_fn"):
                id_loader(batch_schedule_fn=given)

    async def test_max_batch_size_must_be_a_positive_number(self):
        for given in (0, -1):
            with self.assertRaises(ValueError):
                id_loader(max_batch_size=given)
        for given in ("1", 1.5, True):
            with self.assertRaises(TypeError):
                id_loader(max_batch_size=given)


class Names(unittest.IsolatedAsyncioTestCase):
    async def test_exposes_the_name_that_it_is_given(self):
        self.assertEqual(id_loader(name="users")[0].name, "users")
        self.assertIsNone(id_loader()[0].name)


class UnhandledRejections(unittest.IsolatedAsyncioTestCase):
    async def reports_of(self, use):
        """What the loop reports of futures whose error nobody has looked at."""
        reports = []
        asyncio.get_running_loop().set_exception_handler(lambda _, context: reports.append(context.get("exception")))
        await use()
        for _ in range(3):
            await asyncio.sleep(0)
        gc.collect()
        return reports

    async def test_not_catching_a_primed_error_is_an_unhandled_rejection(self):
        error = Odd("Error: 1")

        async def use():
            loader, _ = id_loader()
            loader.prime(1, error)
            # Nobody looks at the outcome of the load.
            loader.load(1)

        self.assertEqual(await self.reports_of(use), [error])

    async def test_priming_an_error_is_none_where_it_is_not_loaded(self):
        async def use():
            for options in ({}, {"cache_map": {}}):
                loader, _ = id_loader(**options)
                loader.prime(1, Odd("Error: 1"))

        self.assertEqual(await self.reports_of(use), [])


if __name__ == "__main__":
    unittest.main()

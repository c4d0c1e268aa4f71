"""Keys whose equality is Python's, and runs Python: no load gets the value of another key."""

import asyncio
import dataclasses
import sys
import threading
import unittest
import uuid

from thrushscreen import DataLoader
from test_nothing_hangs import soon


async def themselves(keys):
    return list(keys)


class Calling:
    """A key that makes calls where it is hashed or compared."""

    def __init__(self, name, hashed=lambda: None, compared=lambda: None):
        self.name, self.hashed, self.compared = name, hashed, compared

    def __hash__(self):
        self.hashed()
        return hash(self.name)

    def __eq__(self, other):
        self.compared()
        return isinstance(other, Calling) and self.name == other.name


@dataclasses.dataclass(frozen=True)
class Place:
    row: int
    column: int


class EqualsText:
    """An object that equals a text, and isn't one."""

    def __init__(self, text):
        self.text = text

    def __hash__(self):
        return hash(self.text)

    def __eq__(self, other):
        return other == self.text


class Calls(unittest.IsolatedAsyncioTestCase):
    async def test_keys_that_load_other_keys_get_their_own_values(self):
        for what in ("hashed", "compared"):
            with self.subTest(what=what):
                loader = DataLoader(themselves)
                loads = {}

                def load_others(loader=loader, loads=loads):
                    if len(loads) < 20:
                        name = f"other {len(loads)}"
                        loads[name] = None
                        loads[name] = loader.load((name,))

                # Keys of one hash, so that they are compared.
                keys = [Calling("a" if what == "hashed" else "b", **{what: load_others}) for _ in range(3)]
                mine = [loader.load(key) for key in keys]
                self.assertGreater(len(loads), 1)
                for key, load in zip(keys, mine):
                    self.assertEqual((await soon(load)).name, key.name)
                for name, load in loads.items():
                    self.assertEqual(await soon(load), (name,))

    async def test_keys_that_prime_and_clear_others_get_their_own_values(self):
        loader = DataLoader(themselves)
        count = 0

        def others():
            nonlocal count
            count += 1
            if count < 50:
                loader.prime(("primed", count), "primed")
                if count % 7 == 0:
                    loader.clear_all()
                if count % 5 == 0:
                    loader.clear(("primed", count - 1))

        keys = [Calling(f"key {number}", others, others) for number in range(10)]
        for load, key in [(loader.load(key), key) for key in keys]:
            self.assertIs(await soon(load), key)
        for key, value in zip(keys, await soon(loader.load_many(keys))):
            self.assertEqual(value.name, key.name)

    async def test_keys_that_several_loads_number_at_once_get_their_own_values(self):
        loader = DataLoader(themselves)
        inner = []
        outer = Calling("outer", hashed=lambda: inner.append(loader.load_many([("x", len(inner))])) if len(inner) < 5 else None)
        values = await soon(loader.load_many([("a",), outer, ("b",)]))
        self.assertEqual([values[0], values[1].name, values[2]], [("a",), "outer", ("b",)])
        self.assertEqual([await soon(load) for load in inner], [[("x", number)] for number in range(len(inner))])
        self.assertGreater(len(inner), 1)

    async def test_what_equals_a_text_or_a_number_is_one_key_with_it(self):
        class EqualsOne(EqualsText):
            """An object that equals 1."""

        for one, other in (("a", EqualsText("a")), (1, EqualsOne(1)), (2**70, EqualsOne(2**70))):
            for first, second in ((one, other), (other, one)):
                batches = []

                async def batch_load_fn(keys, batches=batches):
                    batches.append(list(keys))
                    return keys

                loader = DataLoader(batch_load_fn)
                await soon(asyncio.gather(loader.load(first), loader.load(second)))
                self.assertEqual(len(batches[0]), 1)
                self.assertIsNotNone(loader.held(second))
                self.assertIsNone(loader.clear(second).held(first))

    async def test_a_key_that_loads_its_equal_is_one_with_it(self):
        batches = []

        async def batch_load_fn(keys):
            batches.append([key.name for key in keys])
            return keys

        loader = DataLoader(batch_load_fn)
        inner = []
        outer = Calling("a", lambda: None if inner else inner.append(None) or inner.append(loader.load(Calling("a"))))
        await soon(asyncio.gather(loader.load(outer), inner[1], loader.load(Calling("a"))))
        loader.clear(Calling("a"))
        counts = [0]

        def once():
            counts[0] += 1
            if counts[0] == 2:
                inner.append(loader.load(Calling("a")))

        await soon(asyncio.gather(loader.load(Calling("a", once)), *inner[2:]))
        await soon(asyncio.gather(loader.load(Calling("a")), *inner[2:]))
        self.assertEqual((batches, len(inner)), ([["a"], ["a"]], 3))

    async def test_a_value_that_loads_its_key_while_it_is_given_back_is_not_loaded_again(self):
        loads = []

        class Value:
            """A value that loads its key when it goes."""

            def __del__(self):
                loads.append(loader.load("a"))

        async def batch_load_fn(keys):
            return [Value() if len(loads) == 0 else "new" for _ in keys]

        loader = DataLoader(batch_load_fn)
        await soon(loader.load("a"))
        await asyncio.sleep(0)
        loader.clear("a")
        self.assertEqual(len(loads), 1)
        self.assertEqual(await soon(loads[0]), "new")

    async def test_errors_of_a_key_are_passed_on(self):
        def fails():
            raise OSError("no hash")

        loader = DataLoader(themselves)
        key = Calling("a", hashed=fails)
        for call in (loader.load, loader.held, loader.clear, lambda key: loader.prime(key, 1), lambda key: loader.load_many([key])):
            with self.assertRaisesRegex(OSError, "no hash"):
                call(key)
        self.assertEqual(await soon(loader.load("b")), "b")


class Threads(unittest.TestCase):
    def test_threads_that_prime_at_once_prime_their_own_keys(self):
        """Before its first load a loader belongs to no thread."""
        before = sys.getswitchinterval()
        sys.setswitchinterval(1e-6)
        try:
            for _ in range(5):
                loader = DataLoader(themselves)
                barrier = threading.Barrier(4)

                def prime(row, loader=loader, barrier=barrier):
                    barrier.wait()
                    for column in range(300):
                        loader.prime(Place(row, column), (row, column))
                        loader.prime(Place(-1, column), (-1, column))

                threads = [threading.Thread(target=prime, args=(row,)) for row in range(4)]
                for thread in threads:
                    thread.start()
                for thread in threads:
                    thread.join()

                async def values(loader=loader):
                    places = [Place(row, column) for row in range(-1, 4) for column in range(300)]
                    return places, await soon(loader.load_many(places))

                places, values = asyncio.run(values())
                self.assertEqual(values, [(place.row, place.column) for place in places])
        finally:
            sys.setswitchinterval(before)


class Hashes(unittest.IsolatedAsyncioTestCase):
    async def test_a_hit_hashes_its_key_once_and_compares_none(self):
        counts = {"hashed": 0, "compared": 0}

        def count(what):
            counts[what] += 1

        key = Calling("a", lambda: count("hashed"), lambda: count("compared"))
        loader = DataLoader(themselves)
        await soon(loader.load(key))
        counts.update(hashed=0, compared=0)
        self.assertIs(loader.load(key).result(), key)
        self.assertEqual(counts, {"hashed": 1, "compared": 0})

    async def test_uuids_are_keys(self):
        batches = []

        async def batch_load_fn(keys):
            batches.append(list(keys))
            return keys

        loader = DataLoader(batch_load_fn)
        keys = [uuid.UUID(int=number) for number in (1, 2, 2**127)]
        again = [uuid.UUID(int=key.int) for key in keys]
        self.assertEqual(await soon(loader.load_many([*keys, *again, 1, "1"])), [*keys, *keys, 1, "1"])
        self.assertEqual(batches, [[*keys, 1, "1"]])


if __name__ == "__main__":
    unittest.main()

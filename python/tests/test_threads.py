"""The class for threads: rounds, Laters, generators, whose thread is whose, and what an interrupt or a request that ends early leaves."""

import contextlib
import gc
import sys
import threading
import traceback
import unittest
import weakref

from thrushscreen import _options, threads
from thrushscreen.threads import DataLoader, Later, run
from interrupt import Interrupt, tracing

# The lines that are interrupted.
LINES = {threads.__file__, _options.__file__}


class Down(Exception):
    """What a batch or a key ends with."""


def loader_of(batches, **options):
    """A loader that answers each key with itself, and notes the batches."""

    def batch_load_fn(keys):
        batches.append(list(keys))
        return list(keys)

    return DataLoader(batch_load_fn, **options)


def failing(fault):
    """A loader whose batches fail with this."""

    def batch_load_fn(keys):
        raise fault

    return DataLoader(batch_load_fn)


def in_thread(call, name=None):
    """What a call gives or raises in a thread of its own."""
    given = []

    def make():
        try:
            given.append((call(), None))
        except BaseException as fault:
            given.append((None, fault))

    thread = threading.Thread(target=make, name=name)
    thread.start()
    thread.join(60)
    value, fault = given[0]
    if fault is not None:
        raise fault
    return value


class Rounds(unittest.TestCase):
    def test_a_result_sends_what_all_loaders_of_the_thread_have_collected(self):
        users, posts = [], []
        user, post = loader_of(users), loader_of(posts)
        loads = [user.load("ada"), post.load(1), user.load("bob"), user.load("ada")]
        self.assertEqual((users, posts), ([], []))
        self.assertEqual(loads[0].result(), "ada")
        self.assertEqual((users, posts), ([["ada", "bob"]], [[1]]))
        self.assertTrue(all(load.done() for load in loads))
        self.assertEqual([load.result() for load in loads], ["ada", 1, "bob", "ada"])

    def test_whatever_generators_can_ask_at_once_is_one_batch(self):
        batches = []
        loader = loader_of(batches)

        def follow(key, times):
            for _ in range(times):
                key = (yield loader.load(key)) + "'"
            return key

        def all_of(keys):
            one, several = yield follow("a", 1), [follow(key, number) for number, key in enumerate(keys)]
            return [one, *several]

        self.assertEqual(run(all_of("bcd")), ["a'", "b", "c'", "d''"])
        self.assertEqual(batches, [["a", "c", "d"], ["d'"]])

    def test_two_loaders_are_asked_in_the_same_round(self):
        order = []
        user = DataLoader(lambda keys: order.append(("user", keys)) or keys)
        post = DataLoader(lambda keys: order.append(("post", keys)) or keys)

        def author(number):
            return (yield user.load((yield post.load(number)) % 2))

        def page():
            return (yield [author(number) for number in (3, 4, 5)])

        self.assertEqual(run(page()), [1, 0, 1])
        self.assertEqual(order, [("post", [3, 4, 5]), ("user", [1, 0])])

    def test_a_batch_function_may_ask_for_a_result_itself(self):
        deep_calls = []
        deep = loader_of(deep_calls)
        first, second = (DataLoader(lambda keys: deep.load_many(keys).result()) for _ in range(2))
        loads = [first.load("a"), second.load("b"), first.load("c")]
        self.assertEqual([load.result() for load in loads], ["a", "b", "c"])
        self.assertEqual(deep_calls, [["a", "c"], ["b"]])

    def test_a_hit_is_there_at_once(self):
        batches = []
        loader = loader_of(batches).prime(1, 1)
        one, two = loader.load(1), loader.load(2)
        self.assertEqual((one.done(), two.done()), (True, False))
        self.assertEqual(([one.result(), batches], [two.result(), batches]), ([1, [[2]]], [2, [[2]]]))

    def test_a_key_that_is_cleared_while_it_is_fetched_is_loaded_anew(self):
        batches, news = [], []

        def batch_load_fn(keys):
            batches.append(list(keys))
            if len(batches) == 1:
                news.append(loader.clear("a").load("a"))
                raise Down
            return keys

        loader = DataLoader(batch_load_fn)
        self.assertIsInstance(loader.load("a").exception(), Down)
        self.assertEqual([news[0].result(), loader.load("a").result()], ["a", "a"])
        self.assertEqual(batches, [["a"], ["a"]])

    def test_a_sized_loader_sends_several_batches_a_round(self):
        batches = []
        loader = loader_of(batches, max_batch_size=2)
        self.assertEqual(loader.load_many(range(5)).result(), list(range(5)))
        self.assertEqual(batches, [[0, 1], [2, 3], [4]])

    def test_what_is_dispatched_by_hand_is_fetched_when_it_is_asked_for(self):
        batches, sends = [], []
        loader = loader_of(batches, batch_schedule_fn=sends.append)
        load = loader.load(1)
        with self.assertRaisesRegex(RuntimeError, "isn't sent"):
            load.result()
        sends.pop()()
        self.assertEqual((load.result(), batches), (1, [[1]]))


class Waits(unittest.TestCase):
    """What can't come raises, and hangs nowhere."""

    def test_a_batch_that_waits_for_its_own_key_fails(self):
        loader = DataLoader(lambda keys: [loader.load(key).result() for key in keys])
        with self.assertRaisesRegex(RuntimeError, "waits for itself"):
            loader.load(1).result()

    def test_a_later_that_waits_for_itself_raises(self):
        later = loader_of([]).load(1).then(lambda _: later)
        with self.assertRaisesRegex(RuntimeError, "waits for itself"):
            later.result()

    def test_a_generator_is_waited_for_once(self):
        def asks():
            return (yield loader_of([]).load(1))

        def twice():
            made = asks()
            with self.assertRaisesRegex(RuntimeError, "waited for once"):
                yield [made, made]
            return "went on"

        self.assertEqual(run(twice()), "went on")
        for steps in (0, 1):
            begun = asks()
            later = next(begun) if steps else run(begun)
            with self.assertRaisesRegex(RuntimeError, "waited for once"):
                run(begun)
            del later

    def test_what_is_nothing_to_wait_for_is_refused_where_it_is_yielded(self):
        def wrong():
            for asked in (3, None, "a", {"a": 1}, [loader_of([]).load(1), 3], iter([])):
                with self.assertRaisesRegex(TypeError, "a Later, a generator or a list"):
                    yield asked
            return "went on"

        self.assertEqual(run(wrong()), "went on")
        with self.assertRaisesRegex(TypeError, "a Later, a generator or a list"):
            run(3)


class Errors(unittest.TestCase):
    def test_an_error_is_raised_where_it_is_waited_for(self):
        loader = DataLoader(lambda keys: [Down(key) if key == "eve" else key for key in keys])

        def asks():
            try:
                yield loader.load("eve")
            except Down as fault:
                return str(fault), (yield loader.load("ada"))

        self.assertEqual(run(asks()), ("eve", "ada"))

    def test_the_first_error_of_a_list_comes_once_all_have_ended(self):
        ended = []
        loader = DataLoader(lambda keys: [Down(key) if key < 0 else key for key in keys])

        def part(key, rounds):
            for number in range(rounds):
                yield loader.load(100 * key + number if key > 0 else number)
            ended.append(key)
            return (yield loader.load(key))

        def page():
            with self.assertRaisesRegex(Down, "^-2$"):
                yield [part(1, 4), part(-2, 3), part(-1, 0), part(2, 5)]
            return sorted(ended)

        self.assertEqual(run(page()), [-2, -1, 1, 2])

    def test_an_error_has_the_same_traceback_each_time(self):
        loader = failing(Down("down"))
        load = loader.load(1)
        depths = []
        for _ in range(3):
            try:
                load.result()
            except Down as fault:
                depths.append(len(traceback.extract_tb(fault.__traceback__)))
        self.assertEqual(len(set(depths)), 1, depths)

    def test_what_ends_threads_is_wrapped_for_those_who_wait_and_goes_on(self):
        for raised in (KeyboardInterrupt(), SystemExit(3), GeneratorExit("down")):
            fails = [raised]

            def batch_load_fn(keys, fails=fails):
                if fails:
                    raise fails.pop()
                return keys

            loader = DataLoader(batch_load_fn, max_batch_size=1)
            loads = [loader.load(1), loader.load(2)]
            with self.assertRaises(type(raised)):
                loads[1].result()
            self.assertIsInstance(loads[0].exception(), RuntimeError)
            self.assertEqual(loads[1].result(), 2)
            self.assertEqual(loader.load_many([1, 2]).result(), [1, 2])

    def test_an_interrupt_of_a_batch_function_is_the_cause(self):
        load = failing(KeyboardInterrupt("down")).load(1)
        with self.assertRaises(KeyboardInterrupt):
            load.result()
        self.assertIsInstance(load.exception().__cause__, KeyboardInterrupt)

    def test_a_call_that_raises_a_stop_iteration_ends_no_generator(self):
        def stops(_):
            raise StopIteration(5)

        for later in (loader_of([]).load(1).then(stops), failing(StopIteration(5)).load(1)):
            with self.assertRaises(RuntimeError):
                later.result()


class Laters(unittest.TestCase):
    def test_then_chains(self):
        batches = []
        loader = loader_of(batches)
        chained = [loader.load(key).then(lambda key: loader.load(key + 10)).then(str) for key in (1, 2)]
        self.assertEqual(batches, [])
        self.assertEqual([later.result() for later in chained], ["11", "12"])
        self.assertEqual(batches, [[1, 2], [11, 12]])

    def test_an_error_passes_a_then_by(self):
        called = []
        later = failing(Down("down")).load(1).then(called.append).then(called.append)
        self.assertIsInstance(later.exception(), Down)
        self.assertEqual(called, [])
        with self.assertRaises(ZeroDivisionError):
            loader_of([]).load(0).then(lambda key: 1 / key).result()

    def test_a_loader_lives_until_what_it_was_asked_for_has_come(self):
        batches = []
        self.assertEqual(loader_of(batches).load(1).result(), 1)
        chained = loader_of(batches).load(2).then(lambda key: loader_of(batches).load(key + 1)).then(lambda key: loader_of(batches).load(key + 1))
        gc.collect()
        self.assertEqual(chained.result(), 4)
        primed = loader_of([]).prime("a", loader_of(batches).load(5))
        gc.collect()
        self.assertEqual(primed.load("a").result(), 5)

        def asks():
            value = yield loader_of(batches).load(6)
            gc.collect()
            return value + (yield [loader_of(batches).load(1), loader_of(batches).load_many([2])])[0]

        self.assertEqual(run(asks()), 7)

    def test_prime_takes_a_later_and_what_it_ends_with(self):
        loader = loader_of([])
        load = loader.prime("a", loader_of([]).load(1)).load("a")
        self.assertFalse(load.done())
        self.assertEqual((load.result(), loader.load("a").result()), (1, 1))
        self.assertIsInstance(loader.prime("b", failing(Down()).load(1)).load("b").exception(), Down)
        mapped = loader_of([], cache_map={})
        self.assertEqual(mapped.prime("a", loader_of([]).load(1)).load("a").result(), 1)

    def test_a_cache_map_holds_laters(self):
        batches, cache = [], {}
        loader = loader_of(batches, cache_map=cache)
        self.assertEqual(loader.load_many([1, 2, 1]).result(), [1, 2, 1])
        self.assertTrue(all(isinstance(held, Later) for held in cache.values()))
        self.assertEqual([held.result() for held in cache.values()], [1, 2])
        cache[3] = loader_of([]).load("three")
        self.assertEqual((loader.load(3).result(), loader.held(3).result()), ("three", "three"))
        self.assertEqual(batches, [[1, 2]])
        self.assertIsNone(loader.clear(3).held(3))

    def test_calls_that_wait_themselves_dont_nest(self):
        """Each has a round of its own, however many there are."""
        batches = []
        loader, other = loader_of([]), loader_of(batches)
        count = sys.getrecursionlimit()

        def asks(key):
            yield loader.load(key)
            return other.load(key).result()

        for later in [loader.load(key) for key in range(count)]:
            later.add_done_callback(lambda later: later.result())
        self.assertEqual(run([asks(key) for key in range(count)]), list(range(count)))
        self.assertEqual(len(batches), count)

    def test_a_callback_comes_once_the_thread_asks(self):
        seen = []
        load = loader_of([]).load(1)
        load.add_done_callback(lambda later: seen.append(later.result()))
        self.assertEqual((load.result(), seen), (1, [1]))
        load.add_done_callback(lambda later: seen.append(later))
        self.assertEqual(seen, [1])
        loader_of([]).load(2).result()
        self.assertEqual(seen, [1, load])


class Threads(unittest.TestCase):
    def test_a_later_of_another_thread_is_refused_by_name(self):
        batches = []
        loader = loader_of(batches)
        done, pending = loader.load(1), loader.load(2)
        done.result()
        pending = loader.load(3)

        def waits(later):
            return (yield later)

        uses = {
            "result": lambda later: later.result(),
            "exception": lambda later: later.exception(),
            "then": lambda later: later.then(str).result(),
            "add_done_callback": lambda later: later.add_done_callback(print),
            "run": run,
            "yield": lambda later: run(waits(later)),
            "yield of a list": lambda later: run(waits([loader_of([]).load(1), later])),
            "prime": lambda later: loader_of([]).prime(1, later),
            "cache_map": lambda later: loader_of([], cache_map={1: later}).load(1),
            "batch function": lambda later: DataLoader(lambda keys: later.result()).load(1).result(),
        }
        own = threading.current_thread().name
        for name, use in uses.items():
            for later in (done, pending):
                with self.subTest(use=name, done=later.done()):
                    with self.assertRaisesRegex(RuntimeError, f"another thread: of {own}, and not of the other one$"):
                        in_thread(lambda: use(later), "the other one")
        self.assertEqual(pending.result(), 3)

    def test_a_loader_of_another_thread_is_refused(self):
        loader = loader_of([])
        loader.load(1)
        for call in (loader.load, loader.held, loader.clear, lambda key: loader.prime(key, 0), lambda key: loader.load_many([key])):
            with self.assertRaisesRegex(RuntimeError, "another thread"):
                in_thread(lambda: call(1))
        self.assertEqual(loader.load(1).result(), 1)

    def test_a_loader_of_a_thread_that_has_ended_is_refused(self):
        loader = loader_of([])
        in_thread(lambda: loader.load(1).result())
        for _ in range(20):
            # Sooner or later a thread has the number of the first.
            with self.assertRaisesRegex(RuntimeError, "another thread: make a loader for each request"):
                in_thread(lambda: loader.load(2))

    def test_each_thread_sends_its_own(self):
        barrier = threading.Barrier(8)
        found = {}

        def serve(number):
            batches = []
            loader = loader_of(batches)
            loads = [loader.load((number, key)) for key in range(50)]
            barrier.wait(60)
            found[number] = ([load.result() for load in loads], batches)

        served = [threading.Thread(target=serve, args=[number]) for number in range(8)]
        for thread in served:
            thread.start()
        for thread in served:
            thread.join(60)
        for number in range(8):
            keys = [(number, key) for key in range(50)]
            self.assertEqual(found[number], (keys, [keys]))

    def test_a_loader_that_was_not_opened_says_so(self):
        class Own(DataLoader):
            def __init__(self):
                pass

        with self.assertRaisesRegex(RuntimeError, "not open"):
            Own().load(1)


class Requests(unittest.TestCase):
    """A thread serves one request after another."""

    def test_what_a_request_leaves_isnt_fetched_by_the_next(self):
        stale = []

        def fails():
            user, post = loader_of(stale), loader_of(stale)
            loads = [user.load("ada"), post.load(1), user.load_many(["bob", "eve"]), post.load(2).then(str)]
            raise Down(loads)

        def ends_early():
            """What a call reads is in a cycle with it."""
            loader = loader_of(stale)
            later = loader.load(1).then(lambda key: loader.load(2))
            return later.done()

        for request, gone in ((fails, False), (ends_early, True)):
            with contextlib.suppress(Down):
                request()
            if gone:
                gc.collect()
            self.assertEqual(loader_of([]).load(1).result(), 1)
            self.assertEqual(stale, [])

    def test_a_request_leaves_nothing_in_memory(self):
        def request(fault):
            def batch_load_fn(keys):
                return [fault if key == "eve" else key for key in keys]

            loader = DataLoader(batch_load_fn)
            seen.append(weakref.ref(loader))
            loader.load_many(["ada", "bob"]).result()
            with contextlib.suppress(Down):
                loader.load("eve").result()
            with contextlib.suppress(Down):
                loader.load("ada").then(lambda key: loader.load("eve")).result()
            loader.load("never asked for")

        seen = []
        gc.collect()
        gc.disable()
        self.addCleanup(gc.enable)
        for _ in range(3):
            request(Down())
        # The frame of a `then` may be in a cycle with what it waits for.
        gc.collect()
        self.assertEqual([reference() for reference in seen], [None] * 3)

    def test_a_plain_request_needs_no_collector(self):
        def request():
            loader = loader_of([])
            seen.append(weakref.ref(loader))
            self.assertEqual([load.result() for load in [loader.load(1), loader.load(2)]], [1, 2])
            loader.load(3)

        seen = []
        gc.disable()
        self.addCleanup(gc.enable)
        request()
        self.assertIsNone(seen[0]())


class Interrupted(unittest.TestCase):
    """An interrupt at each line in turn, as it comes in a notebook: the thread's loaders answer after it."""

    def scenario(self, options, loaders, loads):
        def batch_load_fn(keys):
            if "down" in keys:
                raise Down
            return [str(key) for key in keys]

        deep = DataLoader(batch_load_fn)
        loaders += [DataLoader(batch_load_fn, **options), DataLoader(lambda keys: deep.load_many(keys).result())]

        def asks():
            yield [loaders[0].load(3), loaders[1].load(3)]
            with contextlib.suppress(Down):
                yield loaders[0].load("down")

        for loader in loaders:
            loads += [loader.load(1), loader.load_many([1, 2]), loader.load(1).then(lambda _, own=loader: own.load(2))]
            loads.append(loader.prime(4, "4").prime(5, deep.load(5)).load(5))
        for load in loads:
            load.result()
        run(asks())

    def check(self, place, options):
        loaders, loads = [], []
        interrupt = Interrupt(place, LINES)
        with contextlib.suppress(KeyboardInterrupt), tracing(interrupt):
            self.scenario(options, loaders, loads)
        for _ in range(3):
            # What was interrupted goes on, if it can.
            with contextlib.suppress(RuntimeError):
                run(loader_of([]).load(0) for _ in range(3))
        for loader in loaders:
            with self.subTest(interrupted=interrupt.where, options=options):
                # What was collected is fetched now, and may be down.
                for outcome in loader.load_many([1, 2, 3, 7]).result():
                    self.assertTrue(isinstance(outcome, (Down, RuntimeError)) or outcome in ("1", "2", "3", "7"), outcome)
                self.assertEqual(loader.load(6).result(), "6")
                self.assertEqual(loader.clear_all().load_many([1, 2, 3]).result(), ["1", "2", "3"])
        for load in loads:
            # It ends: with a value, or an error.
            with contextlib.suppress(Down, RuntimeError):
                load.result()
        return interrupt.where

    def test_loaders_answer_after_an_interrupt_at_each_line(self):
        # The desk reports one that meets a cache map.
        self.addCleanup(setattr, sys, "unraisablehook", sys.unraisablehook)
        sys.unraisablehook = lambda _: None
        for options in ({}, {"max_batch_size": 1}, {"cache_map": {}}):
            place = 1
            while self.check(place, {key: type(value)(value) for key, value in options.items()}) is not None:
                place += 1
            self.assertGreater(place, 100)


if __name__ == "__main__":
    unittest.main()

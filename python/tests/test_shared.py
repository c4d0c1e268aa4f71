"""The class that threads share: what it answers, when it sends, whom it wakes, and its history. tests/hosts draws histories of threads."""

import concurrent.futures
import contextlib
import gc
import json
import math
import subprocess
import sys
import threading
import time
import traceback
import unittest
import warnings
import weakref
from concurrent.futures import ThreadPoolExecutor

from interrupt import Interrupt, tracing
from thrushscreen import LoaderFull, shared, threads
from thrushscreen.shared import Answer, Entry, History, ThreadedDataLoader

# After so many seconds a thread is taken not to end.
LONGEST = 60


class Down(Exception):
    """What a batch or a key ends with."""


class Value:
    """A value of which there may be weak references."""


def loader_of(batches, **options):
    """A loader that answers each key with itself, and notes the batches."""

    def batch_load_fn(keys):
        batches.append(list(keys))
        return list(keys)

    return ThreadedDataLoader(batch_load_fn, **{"delay": math.inf, **options})


def failing(fault, **options):
    """A loader whose batches fail with this."""

    def batch_load_fn(keys):
        raise fault

    return ThreadedDataLoader(batch_load_fn, **options)


def in_threads(calls):
    """What each call gives or raises in a thread of its own, all at once."""
    with ThreadPoolExecutor(len(calls)) as pool:
        begun = [pool.submit(call) for call in calls]
        done, _ = concurrent.futures.wait(begun, LONGEST)
        if len(done) < len(begun):
            traceback.print_stack()
            raise AssertionError("a thread doesn't end")
        return [each.exception() or each.result() for each in begun]


def results(loads):
    return [load.result(LONGEST) for load in loads]


class Loads(unittest.TestCase):
    def test_what_a_thread_has_loaded_is_one_batch(self):
        batches = []
        loader = loader_of(batches)
        with loader.calling():
            loads = [loader.submit(key) for key in "aba"]
            self.assertEqual((batches, [load.done() for load in loads]), ([], [False] * 3))
            self.assertEqual((results(loads), batches), (["a", "b", "a"], [["a", "b"]]))
            self.assertTrue(loader.submit("b").done())
            self.assertEqual((loader.load("b"), batches), ("b", [["a", "b"]]))

    def test_loads_of_a_key_share_an_outcome(self):
        loader = ThreadedDataLoader(lambda keys: [Value() for _ in keys])
        first, second = loader.submit(1), loader.submit(1)
        self.assertIsNot(first, second)
        self.assertIs(first.result(LONGEST), second.result(LONGEST))

    def test_a_batch_has_at_most_its_limit(self):
        batches = []
        self.assertEqual(loader_of(batches, max_batch_size=2, delay=0).load_many("abcde"), list("abcde"))
        self.assertEqual(batches, [["a", "b"], ["c", "d"], ["e"]])

    def test_load_many_gives_each_value_or_error_in_its_place(self):
        loader = ThreadedDataLoader(lambda keys: [Down(key) if key == "b" else key for key in keys])
        one, fault, other = loader.load_many(["a", "b", "a"])
        self.assertEqual((one, repr(fault), other), ("a", "Down('b')", "a"))
        with self.assertRaises(Down):
            loader.load_many("ab", return_exceptions=False)
        self.assertEqual((loader.load_many("ac", return_exceptions=False), loader.load_many([])), (["a", "c"], []))

    def test_the_error_of_a_key_stays_and_that_of_a_batch_does_not(self):
        batches = []

        def batch_load_fn(keys):
            batches.append(keys)
            if len(batches) == 2:
                raise Down("batch")
            return [Down(key) if key == "bad" else key for key in keys]

        loader = ThreadedDataLoader(batch_load_fn)
        for _ in range(2):
            with self.assertRaisesRegex(Down, "^bad$"):
                loader.load("bad")
        self.assertEqual(str(loader.submit("a").exception(LONGEST)), "batch")
        self.assertEqual(loader.load("a"), "a")
        self.assertEqual(batches, [["bad"], ["a"], ["a"]])

    def test_what_is_no_list_of_values_fails_the_batch(self):
        for answer in (None, 3, "a", {"a": 1}, iter("a"), [], ["a", "b"]):
            with self.subTest(answer=answer), self.assertRaises(TypeError):
                ThreadedDataLoader(lambda keys, answer=answer: answer).load("a")
        self.assertEqual(ThreadedDataLoader(tuple).load("a"), "a")

    def test_an_async_batch_function_is_named_without_a_warning(self):
        async def batch_load_fn(keys):
            return keys

        with warnings.catch_warnings(record=True) as given:
            warnings.simplefilter("always")
            for kind in (ThreadedDataLoader, threads.DataLoader):
                with self.subTest(kind=kind), self.assertRaisesRegex(TypeError, "async def.*thrushscreen.DataLoader"):
                    kind(batch_load_fn).load_many("a", return_exceptions=False).result()
            gc.collect()
        self.assertEqual(given, [])

    def test_a_primed_key_is_held_and_a_cleared_one_is_not(self):
        batches = []
        loader = loader_of(batches, delay=0)
        self.assertIs(loader.prime("a", 1), loader)
        loader.prime("a", 2).prime("b", Down("b"))
        self.assertEqual((loader.load("a"), repr(loader.submit("b").exception(LONGEST)), batches), (1, "Down('b')", []))
        self.assertIs(loader.clear("a"), loader)
        self.assertEqual((loader.load("a"), batches), ("a", [["a"]]))
        self.assertIs(loader.clear_all(), loader)
        self.assertEqual((loader.load_many("ab"), batches), (["a", "b"], [["a"], ["a", "b"]]))

    def test_a_key_is_primed_with_what_a_future_has_ended_with(self):
        batches = []
        loader = loader_of(batches, delay=0)
        value, fault, cancelled, waits = (concurrent.futures.Future() for _ in range(4))
        value.set_result(1)
        fault.set_exception(Down("down"))
        cancelled.cancel()
        load = loader.submit("load")
        for unfinished in (waits, load):
            with self.assertRaisesRegex(ValueError, "future that has ended, and this one hasn't"):
                loader.prime("waits", unfinished)
        loader.dispatch()
        loader.prime("value", value).prime("fault", fault).prime("cancelled", cancelled).prime("waits", load)
        given = loader.load_many(["value", "fault", "cancelled", "waits"])
        self.assertEqual((given[0], repr(given[1]), given[3], batches), (1, "Down('down')", "load", [["load"]]))
        self.assertEqual((type(given[2]), type(given[2].__cause__)), (RuntimeError, concurrent.futures.CancelledError))

    def test_a_key_that_is_cleared_and_loaded_again_is_in_another_batch(self):
        batches = []
        loader = loader_of(batches, delay=0)
        first, second = loader.submit("a"), loader.clear("a").submit("a")
        self.assertEqual((results([first, second]), batches), (["a", "a"], [["a"], ["a"]]))

    def test_a_late_failure_leaves_the_newer_load(self):
        calls = []

        def batch_load_fn(keys):
            calls.append(keys)
            if len(calls) == 1:
                newer.append(loader.clear("a").submit("a"))
                raise Down("late")
            return keys

        newer = []
        loader = ThreadedDataLoader(batch_load_fn, delay=0)
        with self.assertRaisesRegex(Down, "late"):
            loader.load("a")
        self.assertEqual((newer[0].result(LONGEST), loader.load("a"), len(calls)), ("a", "a", 2))

    def test_keys_are_hashable_and_not_none(self):
        batches = []
        loader = loader_of(batches, delay=0)
        for call in (loader.load, loader.submit, loader.clear, lambda key: loader.prime(key, 1), lambda key: loader.load_many([key])):
            for key in (None, []):
                with self.subTest(call=call, key=key), self.assertRaisesRegex(TypeError, "not None|list isn't: give get_cache_key"):
                    call(key)
        with self.assertRaisesRegex(TypeError, "tuple isn't: give get_cache_key"):
            loader.load(("a", []))
        self.assertEqual(loader.load_many([1, "1", 1.0, (1, "a")]), [1, "1", 1, (1, "a")])
        self.assertEqual(batches, [[1, "1", (1, "a")]])

    def test_a_cache_key_stands_for_a_key(self):
        batches = []
        loader = loader_of(batches, delay=0, get_cache_key=lambda key: key["id"])
        self.assertEqual(loader.load_many([{"id": 1, "at": 1}, {"id": 1, "at": 2}]), [{"id": 1, "at": 1}] * 2)
        with self.assertRaises(KeyError):
            loader.load({})
        self.assertEqual(batches, [[{"id": 1, "at": 1}]])

    def test_batch_and_cache_may_be_switched_off(self):
        batches = []
        self.assertEqual(loader_of(batches, delay=0, batch=False).load_many("aba"), ["a", "b", "a"])
        self.assertEqual(loader_of(batches, delay=0, cache=False).load_many("aba"), ["a", "b", "a"])
        self.assertEqual(batches, [["a"], ["b"], ["a", "b", "a"]])

    def test_a_subclass_has_the_batch_function_and_options(self):
        class Users(ThreadedDataLoader):
            max_batch_size = 1
            delay = 0
            name = "users"

            def batch_load_fn(self, keys):
                self.asked = [*getattr(self, "asked", []), keys]
                return keys

        loader = Users()
        self.assertEqual((loader.load_many("ab"), loader.asked, repr(loader)), (["a", "b"], [["a"], ["b"]], "<Users 'users'>"))
        self.assertEqual(Users(max_batch_size=2, name="few").load_many("ab"), ["a", "b"])

    def test_options_are_what_they_say(self):
        for fault, options in [
            (ValueError, {"max_batch_size": 0}),
            (ValueError, {"max_cells": 65_537}),
            (ValueError, {"max_calls": 0}),
            (ValueError, {"delay": -1}),
            (ValueError, {"delay": math.nan}),
            (TypeError, {"delay": "soon"}),
            (TypeError, {"delay": True}),
            (TypeError, {"batch": 1}),
            (TypeError, {"cache": "yes"}),
            (TypeError, {"max_batch_size": "1"}),
            (TypeError, {"get_cache_key": 3}),
            (TypeError, {"name": 3}),
            (TypeError, {"executor": 3}),
            (TypeError, {"cache_map": {}}),
        ]:
            with self.subTest(options=options), self.assertRaises(fault):
                ThreadedDataLoader(list, **options)
        for given in (None, 3):
            with self.assertRaises(TypeError):
                ThreadedDataLoader(given)

    def test_a_loader_opens_once_and_has_to(self):
        class Unopened(ThreadedDataLoader):
            def __init__(self):
                pass

        loader = Unopened()
        for call in (loader.clear_all, loader.close, loader.dispatch, lambda: loader.load(1), loader.calling().__enter__):
            with self.subTest(call=call), self.assertRaisesRegex(RuntimeError, "not open"):
                call()
        with self.assertRaises(AttributeError):
            loader.absent
        loader = loader_of([], delay=0)
        with self.assertRaisesRegex(RuntimeError, "open already"):
            loader.__init__(list)
        self.assertEqual(loader.load(1), 1)

    def test_a_full_loader_refuses_and_still_hits(self):
        loader = loader_of([], delay=0, max_cells=1)
        self.assertEqual(loader.load("a"), "a")
        with self.assertRaisesRegex(LoaderFull, "max_cells"):
            loader.load("b")
        self.assertEqual(loader.load("a"), "a")
        loader = loader_of([], delay=0, max_calls=2)
        load = loader.submit("a")
        loader.clear("b")
        for call in (lambda: loader.load("a"), loader.clear_all, lambda: load.result(LONGEST)):
            with self.assertRaisesRegex(LoaderFull, "max_calls"):
                call()

    def test_a_batch_that_can_not_be_ended_stops_the_loader(self):
        loader = loader_of([], delay=0, max_calls=3)
        loads = [loader.submit(key) for key in "ab"]
        for load in loads:
            with self.assertRaisesRegex(LoaderFull, "max_calls"):
                load.result(LONGEST)
            self.assertTrue(load.done())
        with self.assertRaisesRegex(RuntimeError, "stopped"):
            loader.clear_all()

    def test_an_error_has_the_same_traceback_each_time(self):
        loader = failing(Down("down"), delay=0)
        load, lengths = loader.submit("a"), []
        for _ in range(3):
            try:
                load.result(LONGEST)
            except Down as fault:
                lengths.append(len(traceback.extract_tb(fault.__traceback__)))
        self.assertEqual(len(set(lengths)), 1, lengths)
        self.assertIs(load.exception(), load.exception())

    def test_what_ends_threads_is_wrapped_for_those_who_wait(self):
        for fault in (StopIteration(), concurrent.futures.CancelledError(), GeneratorExit(), SystemExit(), KeyboardInterrupt()):
            for loader in (failing(fault, delay=0), ThreadedDataLoader(lambda keys, fault=fault: [fault], delay=0)):
                with self.subTest(fault=fault):
                    load = loader.submit("a")
                    with contextlib.suppress(GeneratorExit, SystemExit, KeyboardInterrupt):
                        loader.dispatch()
                    error = load.exception(LONGEST)
                    self.assertEqual((type(error), error.__cause__), (RuntimeError, fault))


class Keys(unittest.TestCase):
    """Keys whose own code runs while they are numbered."""

    def test_keys_that_several_threads_number_at_once_are_one(self):
        class Slow:
            def __init__(self, number):
                self.number = number

            def __hash__(self):
                return 1

            def __eq__(self, other):
                time.sleep(0.0001)
                return self.number == other.number

        batches, start = [], threading.Barrier(8)
        loader = loader_of(batches)

        def request():
            with loader.calling():
                start.wait(LONGEST)
                return [key.number for key in loader.load_many([Slow(number) for number in range(6)])]

        self.assertEqual(in_threads([request] * 8), [list(range(6))] * 8)
        self.assertEqual(sorted(key.number for key in batches[0]), list(range(6)))
        self.assertEqual(len(batches), 1)

    def test_a_key_that_loads_another_gets_its_own_value(self):
        class Loads:
            def __init__(self, number):
                self.number = number

            def __hash__(self):
                if self.number:
                    loader.load(Loads(self.number - 1))
                return 1

            def __eq__(self, other):
                loader.load(("eq", self.number))
                return self.number == other.number

        loader = loader_of([], delay=0)
        self.assertEqual([loader.load(Loads(number)).number for number in (2, 3, 0)], [2, 3, 0])

    def test_a_hit_hashes_its_key_once(self):
        class Counted:
            hashes = 0

            def __hash__(self):
                self.hashes += 1
                return 1

        loader, key = loader_of([], delay=0), Counted()
        loader.load(key)
        before = key.hashes
        loader.load(key)
        self.assertEqual(key.hashes, before + 1)


class Sending(unittest.TestCase):
    def test_threads_inside_send_once_all_of_them_wait(self):
        for count in (2, 16, 64):
            batches, start = [], threading.Barrier(count)
            loader = loader_of(batches)

            def request(number):
                with loader.calling():
                    start.wait(LONGEST)
                    return [loader.load((turn, number // 2)) for turn in range(3)]

            answers = in_threads([lambda number=number: request(number) for number in range(count)])
            self.assertEqual(answers, [[(turn, number // 2) for turn in range(3)] for number in range(count)])
            self.assertEqual([sorted(batch) for batch in batches], [[(turn, key) for key in range(count // 2)] for turn in range(3)])

    def test_as_many_threads_as_are_said_send_one_batch_without_a_barrier(self):
        for _ in range(100):
            batches = []
            loader = loader_of(batches)

            def request(number):
                with loader.calling(of=8):
                    return loader.load_many([number, number + 1])

            answers = in_threads([lambda number=number: request(number) for number in range(8)])
            self.assertEqual(answers, [[number, number + 1] for number in range(8)])
            self.assertEqual([sorted(batch) for batch in batches], [list(range(9))])

    def test_threads_that_have_left_count_among_those_that_are_said(self):
        batches = []
        loader = loader_of(batches)
        loader.prime("held", 0)

        def request(number):
            with loader.calling(of=4):
                return loader.load("held" if number % 2 else number)

        with loader.calling(of=4):
            loader.load("held")
        self.assertEqual((in_threads([lambda number=number: request(number) for number in range(3)]), len(batches)), ([0, 0, 2], 1))

    def test_each_group_of_threads_is_counted_anew(self):
        batches = []
        loader = loader_of(batches)

        def request(count, key):
            with loader.calling(of=count):
                return loader.load(key)

        for count in (3, 8, 5):
            in_threads([lambda key=(count, number): request(count, key) for number in range(count)])
        self.assertEqual([sorted(batch) for batch in batches], [[(count, number) for number in range(count)] for count in (3, 8, 5)])

    def test_a_thread_that_goes_on_to_the_next_group_does_not_hold_up_its_own(self):
        batches = []
        loader, start = loader_of(batches), threading.Barrier(2)

        def goes_on():
            with loader.calling(of=2):
                loader.load("a")
            start.wait(LONGEST)
            with loader.calling(of=2):
                return loader.load("b")

        def stays():
            with loader.calling(of=2):
                loader.load("a")
                start.wait(LONGEST)
                while not loader._waiting:
                    pass
                loader.load("c")
            with loader.calling(of=2):
                return loader.load("d")

        self.assertEqual(in_threads([goes_on, stays]), ["b", "d"])
        self.assertEqual([sorted(batch) for batch in batches], [["a"], ["b", "c"], ["d"]])

    def test_who_waits_for_threads_that_do_not_come_is_sent_after_the_delay(self):
        loader = loader_of([], delay=0.002)
        with loader.calling(of=2):
            self.assertEqual(loader.load("a"), "a")
        for fault, count in ((ValueError, 0), (TypeError, "2"), (TypeError, True)):
            with self.assertRaisesRegex(fault, "of is"), loader.calling(of=count):
                pass

    def test_a_thread_that_leaves_lets_the_others_send(self):
        batches = []
        loader, waits = loader_of(batches), threading.Event()

        def leaves():
            with loader.calling():
                waits.wait(LONGEST)
                while not loader._waiting:
                    pass

        def loads():
            with loader.calling():
                waits.set()
                return loader.load("a")

        self.assertEqual((in_threads([leaves, loads]), batches), ([None, "a"], [["a"]]))

    def test_who_waits_by_another_loader_waits_too(self):
        users, posts, start = [], [], threading.Barrier(2)
        user, post = loader_of(users), loader_of(posts)

        def request(first, second):
            with user.calling(), post.calling():
                start.wait(LONGEST)
                return [first.load(1), second.load(2)]

        self.assertEqual(in_threads([lambda: request(user, post), lambda: request(post, user)]), [[1, 2]] * 2)
        self.assertEqual((sorted(sum(users, [])), sorted(sum(posts, []))), ([1, 2], [1, 2]))

    def test_calling_may_be_nested(self):
        loader = loader_of([])
        with loader.calling():
            with loader.calling():
                pass
            self.assertEqual(loader.load("a"), "a")
        self.assertFalse(loader._inside)

    def test_what_never_said_that_it_calls_is_sent_after_the_delay(self):
        self.assertEqual(loader_of([], delay=0.002).load("a"), "a")
        batches, goes_on = [], threading.Event()
        loader = loader_of(batches, delay=0.002)

        def busy():
            with loader.calling():
                goes_on.wait(LONGEST)

        def loads():
            try:
                return loader.load("a")
            finally:
                goes_on.set()

        self.assertEqual(in_threads([busy, loads]), [None, "a"])

    def test_dispatch_sends(self):
        batches = []
        loader = loader_of(batches)
        loads = [loader.submit(key) for key in "ab"]
        with self.assertRaises(concurrent.futures.TimeoutError):
            loads[0].result(0.002)
        loader.dispatch()
        self.assertEqual((batches, [load.done() for load in loads]), ([["a", "b"]], [True, True]))
        self.assertEqual(concurrent.futures.wait(loads, LONGEST).not_done, set())
        self.assertEqual(results(loads), ["a", "b"])

    def test_whoever_sends_fetches_or_the_executor_does(self):
        names = []

        def batch_load_fn(keys):
            names.append(threading.current_thread().name)
            return keys

        self.assertEqual(ThreadedDataLoader(batch_load_fn, delay=0).load("a"), "a")
        with ThreadPoolExecutor(1, "fetches") as executor:
            self.assertEqual(ThreadedDataLoader(batch_load_fn, delay=0, executor=executor).load("a"), "a")
        self.assertEqual(names, [threading.current_thread().name, "fetches_0"])

    def test_a_batch_function_may_load_by_its_own_loader_and_by_others(self):
        other = loader_of([], delay=0)
        with ThreadPoolExecutor(4) as pool:
            for executor in (None, pool):

                def batch_load_fn(keys):
                    return [key if key < 2 else loader.load(key - 1) + other.load(key) for key in keys]

                loader = ThreadedDataLoader(batch_load_fn, executor=executor, delay=math.inf)

                def request():
                    with loader.calling():
                        return loader.load(4)

                self.assertEqual(in_threads([request] * 3), [1 + 2 + 3 + 4] * 3)

    def test_a_batch_function_that_waits_for_its_own_key_fails(self):
        loader = ThreadedDataLoader(lambda keys: [loader.load(key) for key in keys], delay=0)
        with self.assertRaisesRegex(RuntimeError, "its own batch"):
            loader.load("a")

    def test_a_callback_may_load(self):
        loader, given = loader_of([]), []
        with loader.calling():
            loads = [loader.submit(key) for key in "abc"]
            loads[0].add_done_callback(lambda load: given.append(loader.load(load.result() + "'")))
            self.assertEqual((results(loads), given), (["a", "b", "c"], ["a'"]))
        start = threading.Barrier(2)

        def request(key):
            with loader.calling():
                load = loader.submit(key)
                load.add_done_callback(lambda load: given.append(loader.load(load.result() + "'")))
                start.wait(LONGEST)
                return load.result()

        self.assertEqual(in_threads([lambda: request("x"), lambda: request("y")]), ["x", "y"])
        self.assertEqual(sorted(given), ["a'", "x'", "y'"])


class Ends(unittest.TestCase):
    def test_a_load_may_end_before_a_batch_function_that_hangs(self):
        goes_on = threading.Event()

        def batch_load_fn(keys):
            goes_on.wait(LONGEST)
            return keys

        with ThreadPoolExecutor(1) as executor:
            loader = ThreadedDataLoader(batch_load_fn, executor=executor, delay=0)
            for call in (loader.load, lambda key, timeout: loader.load_many([key], timeout=timeout)):
                with self.assertRaises(concurrent.futures.TimeoutError):
                    call("a", timeout=0.01)
            goes_on.set()
            self.assertEqual(loader.load("a", timeout=LONGEST), "a")

    def test_a_load_that_is_cancelled_leaves_the_others(self):
        loader = loader_of([])
        first, second, third = (loader.submit("a") for _ in range(3))
        self.assertTrue(first.cancel())
        for call in (first.result, first.exception):
            with self.assertRaises(concurrent.futures.CancelledError):
                call()
        waits = threading.Thread(target=lambda: self.assertRaises(concurrent.futures.CancelledError, second.result))
        waits.start()
        while not loader._waiting:
            pass
        self.assertTrue(second.cancel())
        waits.join(LONGEST)
        self.assertFalse(waits.is_alive())
        loader.dispatch()
        self.assertEqual((third.result(), third.cancel(), first.cancelled()), ("a", False, True))
        self.assertRaises(concurrent.futures.CancelledError, first.result)
        read = [entry for caller in loader.close().entries for entry in caller if entry.cell is not None]
        self.assertEqual(read, [Entry(4, 0)], "the one that was not cancelled is read")

    def test_what_an_executor_does_not_fetch_fails(self):
        executor = ThreadPoolExecutor(1)
        executor.shutdown()
        with self.assertRaisesRegex(RuntimeError, "shutdown"):
            loader_of([], executor=executor, delay=0).load("a")
        executor, goes_on = ThreadPoolExecutor(1), threading.Event()
        executor.submit(goes_on.wait, LONGEST)
        loader = loader_of([], executor=executor)
        load = loader.submit("a")
        loader.dispatch()
        executor.shutdown(wait=False, cancel_futures=True)
        goes_on.set()
        with self.assertRaisesRegex(RuntimeError, "cancelled"):
            load.result(LONGEST)

    def test_an_interrupt_of_a_batch_function_goes_on(self):
        loader = failing(KeyboardInterrupt(), delay=0)
        load = loader.submit("a")
        with self.assertRaises(KeyboardInterrupt):
            loader.load("b")
        self.assertIsInstance(load.exception(LONGEST).__cause__, KeyboardInterrupt)

    def test_a_loader_answers_after_an_interrupt_at_each_line(self):
        def request(loader):
            with loader.calling(of=1):
                loads = [loader.submit(key) for key in "ab"]
                return [*results(loads), *loader.load_many("bc")]

        place, where = 1, ""
        while where is not None:
            loader, interrupt = loader_of([], delay=0), Interrupt(place, {shared.__file__})
            with contextlib.suppress(KeyboardInterrupt), tracing(interrupt):
                request(loader)
            where = interrupt.where
            for thread in in_threads([lambda loader=loader: request(loader)] * 2):
                if isinstance(thread, RuntimeError):
                    # What was under way failed. It is forgotten.
                    thread = request(loader)
                self.assertEqual(thread, ["a", "b", "b", "c"], where)
            loader.dispatch()
            loader.close()
            place += 1
            self.assertLess(place, 1000)
        self.assertGreater(place, 100)

    def test_a_program_ends_while_a_daemon_waits(self):
        program = """
import math, threading
from thrushscreen.shared import ThreadedDataLoader
loader = ThreadedDataLoader(list, delay=math.inf)
threads = [threading.Thread(target=loader.load, args=(key,), daemon=True) for key in range(8)]
for thread in threads:
    thread.start()
while len(loader._waiting) < 8:
    pass
print("ends")
"""
        ran = subprocess.run([sys.executable, "-c", program], capture_output=True, text=True, timeout=LONGEST)
        self.assertEqual((ran.returncode, ran.stdout, ran.stderr), (0, "ends\n", ""))

    def test_a_loader_goes_with_its_keys_and_values(self):
        class Key:
            pass

        def batch_load_fn(keys):
            if "broken" in keys:
                raise Down
            return [Value() for _ in keys]

        loader, key = ThreadedDataLoader(batch_load_fn, delay=0), Key()
        primed, spare = Value(), Value()
        loader.prime(1, primed).prime(1, spare)
        fault = Down()
        fault.loader = loader  # As the frames of a traceback have it.
        loader.prime(2, fault)
        broken = loader.load_many(["broken", "b", "c"])
        self.assertEqual(len(set(map(id, broken))), 1)
        given = [weakref.ref(what) for what in (loader, key, loader.load(key), primed, fault, broken[0])]
        spared = weakref.ref(spare)
        del spare
        self.assertIsNone(spared())
        del loader, key, primed, fault, broken
        gc.collect()
        self.assertEqual([reference() for reference in given], [None] * 6)


class Histories(unittest.TestCase):
    def test_the_close_gives_the_history(self):
        loader = loader_of([], max_batch_size=1)
        loader.submit("a")
        loads = [loader.submit(key) for key in ("b", "a")]
        loader.prime("c", 1).prime("c", 2).clear("a").clear_all()
        with self.assertRaisesRegex(RuntimeError, "not ended"):
            loader.close()
        loader.dispatch()
        self.assertEqual(results(loads), ["b", "a"])
        self.assertEqual(loads[0].result(), "b")
        events, entries, limits = loader.close()
        none = range(0, 0)
        wanted = [
            ("load", (Answer("a", True, 0, 0, 0),), none),
            ("load", (Answer("b", True, 1, 1, 1),), none),
            ("load", (Answer("a", False, 0, None, 0),), none),
            ("prime", (Answer("c", True, 2, None, 3),), none),
            ("prime", (Answer("c", False, None, None, 3),), none),
            ("clear", (Answer("a", False, None, None, 0),), none),
            ("clear_all", (), none),
            ("dispatch", (), range(2)),
            ("settle", (), range(1)),
            ("settle", (), range(1, 2)),
        ]
        self.assertEqual([(event.call, event.answers, event.batches) for event in events], wanted)
        self.assertEqual({event.caller for event in events}, {0})
        self.assertEqual(entries[0], [*(Entry(at, None) for at in range(10)), Entry(9, 1), Entry(8, 0)])
        self.assertEqual((len(entries), entries[1:]), (32, [[]] * 31))
        self.assertEqual(limits, {"maxBatchSize": 1, "maxCells": 65_536, "maxCalls": 65_536})
        self.assertEqual(
            History(events, entries, limits).to_json(),
            '{"script":1,"maxBatchSize":1,"maxCells":65536,"maxCalls":65536,"calls":[{"load":["key","a"]},{"load":["key","b"]},'
            '{"load":["key","a"]},{"prime":["key","c"]},{"prime":["key","c"]},{"clear":["key","a"]},{"clearAll":true},{"dispatch":true},'
            '{"settle":0},{"settle":1}]}\n[[0,1,0,0],[0,1,1,1],[0,0,0,0],[0,1,2,0],[0,0,0,0],[0],[0],[0,0,1],[0],[0]]\n',
        )
        for call in (loader.close, loader.clear_all, lambda: loader.load("a"), loader.dispatch):
            with self.assertRaisesRegex(RuntimeError, "closed"):
                call()
        self.assertEqual(loads[0].result(), "b")

    def test_each_key_has_a_text_of_its_own_in_json(self):
        loader = loader_of([], max_batch_size=7)
        for key in (1, "1", 1.5, "", "1 #1", "x" * 300, "x" * 299, 1.0):
            loader.clear(key)
        script, answers = loader.close().to_json().splitlines()
        ids = [call["clear"][1] for call in json.loads(script)["calls"]]
        self.assertEqual(ids, ["1", "1 #1", "1.5", " #3", "1 #1 #4", "x" * 200, "x" * 200 + " #6", "1"])
        self.assertEqual(json.loads(answers), [[0]] * 8)


if __name__ == "__main__":
    unittest.main()

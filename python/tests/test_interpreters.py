"""Several interpreters in one process, as some servers have them: each has loaders of its own."""

import subprocess
import sys
import unittest

# What each interpreter runs. It has the folders of the first one.
LOAD = """
import sys
sys.path[:] = {path!r}
import asyncio
import gc
import thrushscreen
from thrushscreen.shared import ThreadedDataLoader

async def fetch(keys):
    await asyncio.sleep(0)
    return [KeyError(key) if key == "none" else str(key) for key in keys]

async def main():
    loader = thrushscreen.DataLoader(fetch, max_batch_size=2, max_cells=9)
    assert await loader.load(1) == "1"
    assert await asyncio.gather(loader.load(1), loader.load((2, 3)), loader.load("none"), return_exceptions=True)
    loader.prime("a", loader.load(4))
    assert await loader.load("a") == "4"
    assert ThreadedDataLoader(list, delay=0).load(1) == 1
    try:
        await loader.load_many(range(20))
    except thrushscreen.LoaderFull:
        return
    raise AssertionError("it isn't full")

asyncio.run(main())
try:
    thrushscreen.DataLoader(fetch).load(1)
except RuntimeError as error:
    assert "no event loop is running" in str(error), error
gc.collect()
"""

# The ways in which interpreters are made here, each with what it needs.
IN_TURN = """
import _testcapi
load()
for _ in range(3):
    assert _testcapi.run_in_subinterp(LOAD) == 0
    load()
"""

BETWEEN = """
import asyncio
import _testcapi
import thrushscreen

async def fetch(keys):
    await asyncio.sleep(0)
    return keys

async def begin():
    return [loader.load(key) for key in "ab"]

async def end(loads):
    assert await asyncio.gather(*loads) == ["a", "b"]
    assert loader.load("a").result() == "a"

loader = thrushscreen.DataLoader(fetch)
loop = asyncio.new_event_loop()
loads = loop.run_until_complete(begin())
assert _testcapi.run_in_subinterp(LOAD) == 0
loop.run_until_complete(end(loads))
loop.close()
"""

FIRST_ELSEWHERE = """
import _testcapi
assert _testcapi.run_in_subinterp(LOAD) == 0
load()
"""

OWN_LOCKS = """
import threading
try:
    import _interpreters as interpreters
except ImportError:
    import _xxsubinterpreters as interpreters

def run():
    interpreter = interpreters.create()
    try:
        failed = (getattr(interpreters, "exec", None) or interpreters.run_string)(interpreter, LOAD)
        assert failed is None, failed
        done.append(interpreter)
    finally:
        interpreters.destroy(interpreter)

done = []
load()
run()
threads = [threading.Thread(target=run) for _ in range(3)]
for thread in threads:
    thread.start()
for thread in threads:
    thread.join()
load()
assert len(done) == 4, done
"""


# Loads of keys and outcomes that all interpreters share, so nobody may count the references to them.
SHARED = """
import sys
sys.path[:] = {path!r}
import asyncio
import thrushscreen

async def fetch(keys):
    return [None if key % 2 else True for key in keys]

async def main():
    for _ in range(30):
        loader = thrushscreen.DataLoader(fetch)
        for _ in range(30):
            await asyncio.gather(*[loader.load(key) for key in range(100)])

asyncio.run(main())
"""

AT_ONCE = """
import threading
import _interpreters

def run():
    interpreter = _interpreters.create()
    failed.append(_interpreters.exec(interpreter, SHARED))
    _interpreters.destroy(interpreter)

failed = []
threads = [threading.Thread(target=run) for _ in range(4)]
for thread in threads:
    thread.start()
for thread in threads:
    thread.join()
assert failed == [None] * 4, failed
"""


def has(*modules):
    try:
        return bool([__import__(module) for module in modules])
    except ImportError:
        return False


class Interpreters(unittest.TestCase):
    def check(self, program):
        """In a process of its own, since a crash would end this one."""
        text, shared = LOAD.format(path=sys.path), SHARED.format(path=sys.path)
        head = f"LOAD = {text!r}\nSHARED = {shared!r}\n\n\ndef load():\n    exec(LOAD, {{}})\n\n"
        ran = subprocess.run([sys.executable, "-c", head + program], capture_output=True, text=True)
        self.assertEqual((ran.stderr, ran.returncode), ("", 0))

    if has("_testcapi"):

        def test_interpreters_one_after_another(self):
            self.check(IN_TURN)

        def test_an_interpreter_between_two_turns_of_another(self):
            self.check(BETWEEN)

        def test_an_interpreter_that_loads_before_the_first_one(self):
            self.check(FIRST_ELSEWHERE)

    if sys.version_info >= (3, 12):

        def test_interpreters_with_locks_of_their_own(self):
            self.check(OWN_LOCKS)

    if sys.version_info >= (3, 13):

        # CPython 3.12.1 can't: there such interpreters crash it without a loader, too.
        def test_interpreters_that_load_at_once(self):
            self.check(AT_ONCE)


if __name__ == "__main__":
    unittest.main()

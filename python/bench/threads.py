"""What a load of the loader that threads share takes by the clock, in nanoseconds: a fresh one, a hit, and each of four threads that load
the same keys. Medians of runs. If you set DL_LOADER_ARCHIVES, you build the extension over another library, as bench/peers/serial.c."""

import statistics
import threading
import time

from thrushscreen.shared import ThreadedDataLoader

KEYS = [f"u{number}" for number in range(4_000)]
BATCH = 100
THREADS = 4
RUNS = 11


def fetch(keys):
    return keys


def load_all(loader):
    """Loads all keys, a batch at a time."""
    for first in range(0, len(KEYS), BATCH):
        loader.load_many(KEYS[first : first + BATCH])


def by_one():
    """The nanoseconds of a fresh load, and of a hit."""
    loader = ThreadedDataLoader(fetch, max_batch_size=BATCH, delay=0)
    start = time.perf_counter_ns()
    load_all(loader)
    loaded = time.perf_counter_ns()
    for key in KEYS:
        loader.load(key)
    return (loaded - start) / len(KEYS), (time.perf_counter_ns() - loaded) / len(KEYS)


def by_threads():
    """The nanoseconds of a load, if each thread loads all keys."""
    loader = ThreadedDataLoader(fetch, max_batch_size=BATCH, delay=0)
    threads = [threading.Thread(target=load_all, args=(loader,)) for _ in range(THREADS)]
    start = time.perf_counter_ns()
    for thread in threads:
        thread.start()
    for thread in threads:
        thread.join()
    return (time.perf_counter_ns() - start) / len(KEYS) / THREADS


def main():
    runs = [(*by_one(), by_threads()) for _ in range(RUNS)]
    for what, taken in zip(("a fresh load", "a hit", "a load of four threads"), zip(*runs)):
        print(f"{what}: {statistics.median(taken):,.0f} ns")


if __name__ == "__main__":
    main()

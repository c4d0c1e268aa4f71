"""A data loader in plain Python, with which the class is compared: neither limits of cells nor counters, and little that a fault can meet."""

import asyncio


class PlainLoader:
    """Loads keys in batches, and each key once."""

    def __init__(self, batch_load_fn, max_batch_size=None, cache=True, get_cache_key=None):
        self.batch_load_fn = batch_load_fn
        self.max_batch_size = max_batch_size
        self.cache = cache
        self.get_cache_key = get_cache_key
        self.futures = {}
        self.collected = []
        self.tasks = set()

    def load(self, key):
        cache_key = key if self.get_cache_key is None else self.get_cache_key(key)
        if self.cache:
            future = self.futures.get(cache_key)
            if future is not None:
                return future
        loop = asyncio.get_running_loop()
        future = loop.create_future()
        if self.cache:
            self.futures[cache_key] = future
        if not self.collected:
            loop.call_soon(self.dispatch)
        self.collected.append((key, future))
        return future

    def load_many(self, keys):
        return asyncio.gather(*[self.load(key) for key in keys], return_exceptions=True)

    def prime(self, key, value):
        cache_key = key if self.get_cache_key is None else self.get_cache_key(key)
        if cache_key not in self.futures:
            future = self.futures[cache_key] = asyncio.get_running_loop().create_future()
            future.set_result(value)
        return self

    def clear(self, key):
        self.futures.pop(key if self.get_cache_key is None else self.get_cache_key(key), None)
        return self

    def clear_all(self):
        self.futures.clear()
        return self

    def dispatch(self):
        loads, self.collected = self.collected, []
        size = self.max_batch_size or len(loads)
        for start in range(0, len(loads), size):
            task = asyncio.get_running_loop().create_task(self.fetch(loads[start : start + size]))
            self.tasks.add(task)
            task.add_done_callback(self.tasks.discard)

    async def fetch(self, loads):
        try:
            values = await self.batch_load_fn([key for key, _ in loads])
            if len(values) != len(loads):
                raise TypeError("a batch function answers a value for each key")
        except Exception as fault:
            for key, _ in loads:
                self.clear(key)
            values = [fault] * len(loads)
        for (_, future), value in zip(loads, values):
            if not future.done():
                future.set_exception(value) if isinstance(value, Exception) else future.set_result(value)

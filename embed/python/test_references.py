#!/usr/bin/env python3
"""Of a debug build of Python: the count of all references is the same after each round of every call."""
import asyncio
import gc
import pickle
import sys
import threading
import unittest
import warnings
from datetime import timedelta

from rookdresser import Cache, Closed, Refused, TooHeavy, WaitsForItself, cached
from threads import never, wait_for_joins


class Key:
    def __init__(self, name):
        self.name = name

    def __hash__(self):
        return 5

    def __eq__(self, other):
        return isinstance(other, Key) and self.name == other.name


def fails(key):
    raise KeyError(key)


def raised(call, *errors):
    try:
        call()
    except errors:
        return
    raise AssertionError("nothing was raised")


def join(cache):
    """A load that two threads join, one of which gives up."""
    def load(key):
        for thread in threads:
            thread.start()
        wait_for_joins(cache, before + 2)
        return object()

    def ask(timeout):
        try:
            cache.get_or_load("joined", None, timeout=timeout)
        except TimeoutError:
            pass

    before = cache.stats().joins
    threads = [threading.Thread(target=ask, args=(timeout,)) for timeout in (None, 0)]
    cache.get_or_load("joined", load)
    for thread in threads:
        thread.join()
    cache.drop("joined")


async def tasks(cache):
    async def load(key):
        await asyncio.sleep(0)
        if key == "fails":
            raise KeyError(key)
        return object()

    async def circle(key):
        try:
            return await asyncio.gather(asyncio.shield(cache.aget_or_load(key, circle)))
        except WaitsForItself:
            return object()

    async def load_many(keys):
        await asyncio.sleep(0)
        return {key: object() for key in keys if key != "left out"}

    async def load_many_fails(keys):
        raise KeyError

    await asyncio.gather(*(cache.aget_or_load(key, load) for key in ("a", "a", "fails", "fails", "b")), return_exceptions=True)
    await asyncio.gather(*(cache.aget_many(keys, load_many) for keys in (["a", "m"], ["m", "n", "left out"], ["left out", "o"])))
    await asyncio.gather(*(cache.aget_many(["p", "q"], of) for of in (load_many_fails, load_many)), return_exceptions=True)
    await cache.aget_or_load("circle", circle)
    task = asyncio.create_task(cache.aget_or_load("cancelled", lambda key: asyncio.Event().wait()))
    await asyncio.sleep(0)
    task.cancel()
    await asyncio.wait([task])
    coroutine = cache.aget_or_load("closed", lambda key: asyncio.Event().wait())
    coroutine.send(None)
    coroutine.close()


def one_round():
    now, left = [0], []
    cache = Cache(entries=20, after_write=100, refresh=50, shards=2, clock=lambda: now[0], weigh=lambda key, value: 1, on_leave=lambda *of: left.append(of))
    for i in range(50):
        cache.put(i, object())
        cache.get_or_load((i, "a"), lambda key: object())
        cache.get_or_load(Key(i % 5), lambda key: object())
        cache.get(i), cache.get((i, "none"), object()), cache.peek(i), cache.peek((i, "none"), object()), (i, None) in cache.items()
        cache.setdefault((i, "a"), object()), cache.setdefault((i, "b"), object())
        cache.look(i), cache.look(2.0 ** 70), cache.look(i / 7), cache.look(frozenset((i, 2 ** 70)))
    now[0] = 60
    for i in range(50):
        cache.get_or_load(i, lambda key: object())
        raised(lambda: cache.get_or_load("new", fails), KeyError)
    cache["a"] = 1
    cache["a"], list(cache), repr(cache), cache.kept(), cache.numbers(), cache.stats(), cache.refused(), len(cache)
    del cache["a"]
    list(cache.keys()), list(cache.values()), dict(cache.items()), object() in cache.values(), cache.update({1: object()}, b=object())
    with warnings.catch_warnings(record=True):
        warnings.simplefilter("always")
        cache.get("old", lambda key: object()), cache.get("old", lambda key: object(), 5), Cache(10, 2, after_write=timedelta(1))
    cache.put_many({1: 2}), cache.pop(1), cache.pop(1, 7), cache.drop(2), cache.forget(3)
    cache.get_many(range(60, 70), lambda keys: {key: object() for key in keys if key % 2})
    for call, error in ((lambda: cache["none"], KeyError), (lambda: cache.pop("none"), KeyError), (lambda: cache.put([], 1), TypeError),
                        (lambda: cache.get_or_load("a"), TypeError), (lambda: cache.get("a", 1, load=len), TypeError), (lambda: cache.setdefault([], 1), TypeError),
                        (lambda: cache.get_many([[]], never), TypeError), (lambda: Cache(entries=0), Refused),
                        (lambda: cache.get_or_load("own", lambda key: cache.get_or_load(key, None)), WaitsForItself)):
        raised(call, error)
    join(cache)
    asyncio.run(tasks(cache))
    now[0] = 200
    cache.clean(), cache.clear()
    function = cached(entries=5)(lambda a, b=0: object())
    function(1), function(1), function(1, b=2), function.cache_info(), function.cache_clear()
    circle = Cache(entries=5)
    circle.put("me", circle)
    cache.put("open", 1)
    pickle.loads(pickle.dumps(TooHeavy(3)))
    cache.popitem()
    raised(cache.popitem, KeyError)
    cache.close()
    for call in (lambda: cache.look("a"), lambda: cache.peek("a"), cache.popitem, lambda: cache.setdefault("a"), lambda: list(cache.items())):
        raised(call, Closed)


@unittest.skipUnless(hasattr(sys, "gettotalrefcount"), "this is no debug build of Python")
class References(unittest.TestCase):
    def test_the_count_of_references_is_flat(self):
        # What the list itself refers to is counted, too, so it has its length from the beginning.
        counts = [0] * 16
        for i in range(len(counts)):
            one_round()
            gc.collect()
            counts[i] = sys.gettotalrefcount()
        print("references after each round: %s" % counts)
        # One reference that is lost in each round would be ten. Python itself gives up or takes a few now and then.
        self.assertLess(counts[-1] - counts[5], 10)


if __name__ == "__main__":
    unittest.main()

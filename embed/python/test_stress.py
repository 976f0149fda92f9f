#!/usr/bin/env python3
"""Eight threads, with expiry, refresh, failing loads, invalidations during loads: what is kept is what the library holds."""
import asyncio
import collections
import gc
import itertools
import random
import threading
import unittest
import weakref

from rookdresser import Cache, Refused
from threads import CacheTest, together, within_a_minute


class Value:
    def __init__(self, key):
        self.key = key


class Stress(CacheTest):
    def requests(self, cache, now, live, seed, each):
        rng = random.Random(seed)

        def value_of(key):
            value = Value(key)
            live.add(value)
            return value

        for _ in range(each):
            now[0] += rng.random() < 0.1
            key, what = min(rng.randrange(2000), rng.randrange(2000)), rng.random()

            def load(key):
                if what < 0.05:
                    raise KeyError(key)
                if what < 0.10:
                    cache.drop(key)
                return value_of(key)

            if what < 0.78:
                try:
                    self.assertEqual(cache.get_or_load(key, load).key, key)
                except KeyError as error:
                    self.assertEqual(error.args, (key,))
            elif what < 0.86:
                cache.put(key, value_of(key))
            elif what < 0.96:
                found = cache.look(key)
                self.assertTrue(found is None or found.key == key)
            elif what < 0.98:
                cache.drop(key)
            elif what < 0.99:
                cache.forget(key)
            elif what < 0.9999:
                cache.clean()
            else:
                cache.clear()

    def test_after_a_hundred_thousand_requests_exactly_what_is_held_is_kept(self):
        now, live, told = [0], weakref.WeakSet(), collections.Counter()
        lock = threading.Lock()

        def on_leave(key, value, cause):
            with lock:
                told[cause] += 1

        cache = Cache(entries=500, bound=4000, after_write=900, refresh=400, weigh=lambda key, value: value.key % 20,
                      clock=lambda: now[0], on_leave=on_leave)
        together(8, lambda seed: self.requests(cache, now, live, seed, 12_500))
        numbers, stats = cache.numbers(), cache.stats()
        print("%d entries, kept %s, %s" % (numbers["entries"], cache.kept(), stats))
        self.assertEqual((cache.kept(), numbers["flights"]), ((numbers["entries"],) * 2, 0))
        gc.collect()
        self.assertEqual(len(live), numbers["entries"])
        self.assertEqual((stats.hits, stats.misses, stats.failed), (numbers["hits"], numbers["misses"], numbers["failed"]))
        self.assertEqual(stats.expired + stats.size, numbers["evicted"])
        self.assertEqual(told, {cause: count for cause in ("explicit", "replaced", "expired", "size") if (count := getattr(stats, cause))})
        self.assertTrue(min(stats.loads, stats.refreshes, stats.loose, stats.expired, numbers["entries"]) > 0)
        cache.close()
        gc.collect()
        self.assertEqual((len(live), sum(told.values())), (0, sum(stats[8:]) + numbers["entries"]))

    def test_a_cache_that_is_closed_while_in_use_lets_go_of_everything(self):
        cache, now, live, refused = Cache(entries=100), [0], weakref.WeakSet(), []

        def work(seed):
            if seed == 0:
                for _ in range(200):
                    cache.get_or_load(seed, Value)
                cache.close()
                return
            try:
                while True:
                    self.requests(cache, now, live, seed, 100)
            except Refused as error:
                refused.append(error.fault)

        cache.put(0, Value(0))
        together(8, work)
        gc.collect()
        self.assertEqual((refused, cache.kept(), len(live)), ([100] * 7, (0, 0), 0))

    def test_eight_threads_and_three_loops_see_each_change_once_it_was_made(self):
        """Each key's values are numbers that only grow. Whoever asks gets one that is no older than what was current as it began."""
        cache, keys, lock = Cache(entries=4, shards=2, refresh=1, clock=lambda: next(clock) // 50), 6, threading.Lock()
        clock, newest, wrong, asked = itertools.count(), [0] * keys, [], collections.Counter()

        def change(key):
            # A put and a drop take back loads that have begun, so nothing older is stored after them.
            with lock:
                newest[key] += 1
                value = newest[key]
                cache.put(key, value) if value % 3 else cache.drop(key)

        def current(key):
            with lock:
                return newest[key]

        def load(key):
            return newest[key]

        async def load_in_loop(key):
            value = newest[key]
            await asyncio.sleep(0)
            return value

        def check(call, key, least, value):
            asked[call] += 1
            if value is not None and not least <= value <= newest[key]:
                wrong.append((call, key, least, value, newest[key]))

        def thread(rng):
            for _ in range(3000):
                key, what = rng.randrange(keys), rng.random()
                least = current(key)
                if what < 0.2:
                    change(key)
                elif what < 0.6:
                    check("get", key, least, cache.get_or_load(key, load))
                elif what < 0.7:
                    check("many", key, least, cache.get_many([key], lambda keys: {key: load(key) for key in keys})[key])
                elif what < 0.75:
                    check("pop", key, least, cache.pop(key, None))
                else:
                    check("look", key, least, cache.look(key))

        async def tasks(rng):
            async def task():
                for _ in range(150):
                    key = rng.randrange(keys)
                    least = current(key)
                    check("aget", key, least, await cache.aget_or_load(key, load_in_loop))

            await asyncio.gather(*(task() for _ in range(10)))

        def work(i):
            rng = random.Random(i)
            return asyncio.run(tasks(rng)) if i < 3 else thread(rng)

        within_a_minute(lambda: together(11, work))
        self.assertEqual((wrong, set(asked)), ([], {"get", "many", "pop", "look", "aget"}))
        self.holds_exactly(cache)


if __name__ == "__main__":
    unittest.main()

#!/usr/bin/env python3
"""What an operator asks of a cache: its open loads, how long loads took, and all in one text."""
import asyncio
import math
import threading
import unittest

from rookdresser import Cache, OpenLoad
from test_limit import Hung
from threads import CacheTest, never, wait_for_joins


class Night(CacheTest):
    def hung(self, *given, **settings):
        hung = Hung(*given, **settings)
        self.addCleanup(hung.end)
        return hung

    def test_loads_lists_the_open_loads_the_oldest_first_with_who_waits_and_who_makes_them(self):
        cache, seen = Cache(entries=10), []

        def load(key):
            if key < 2:
                return cache.get_or_load(key + 1, load)
            seen.append(cache.loads())
            return key

        threading.Thread(target=cache.get_or_load, args=(0, load), name="the maker").start()
        while cache.numbers()["flights"] or not seen:
            pass
        self.assertEqual([(of.key, of.waiting, of.maker, of.is_refresh) for of in seen[0]], [(key, 0, "the maker", False) for key in range(3)])
        ages = [of.age for of in seen[0]]
        self.assertEqual(sorted(ages, reverse=True), ages)
        self.assertGreater(ages[-1], 0)
        self.assertEqual((cache.loads(), cache.oldest_load()), ([], 0.0))

    def test_loads_counts_threads_and_tasks_that_wait_and_names_tasks(self):
        cache = Cache(entries=10)

        async def main():
            may_end = asyncio.Event()

            async def load(key):
                await may_end.wait()
                return key

            tasks = [asyncio.create_task(cache.aget_or_load("a", load), name="task %d" % i) for i in range(3)]
            waiter = threading.Thread(target=cache.get_or_load, args=("a", never))
            while cache.stats().joins < 2:
                await asyncio.sleep(0)
            waiter.start()
            while not cache.loads() or cache.loads()[0].waiting < 3:
                await asyncio.sleep(0)
            of, = cache.loads()
            may_end.set()
            await asyncio.gather(*tasks)
            waiter.join()
            return of

        of = asyncio.run(main())
        self.assertEqual((of.key, of.waiting, of.maker), ("a", 3, "task 0"))

    def test_a_load_that_ends_or_is_given_up_is_no_longer_listed(self):
        hung = self.hung(4)
        cache = hung.cache
        self.assertEqual(sorted(of.key for of in cache.loads()), [("hung", i) for i in range(4)])
        self.assertGreater(cache.oldest_load(), 0)
        middle = cache.loads()[1].key
        cache.abandon(middle)
        self.assertNotIn(middle, [of.key for of in cache.loads()])
        for of in cache.loads():
            cache.abandon(of.key)
        self.assertEqual((cache.loads(), cache.oldest_load()), ([], 0.0))

    def test_a_refresh_is_named_as_such(self):
        now, cache = [0], None
        cache = Cache(entries=10, refresh=5, clock=lambda: now[0])
        cache.put("a", 1)
        now[0] = 5
        of, = cache.get_or_load("a", lambda key: cache.loads())
        self.assertTrue(of.is_refresh)

    def test_load_times_count_each_load_that_ended_once_in_every_bucket_that_holds_it(self):
        cache = Cache(entries=10)
        for _ in range(3):
            cache.get_or_load("a", str.upper)
            cache.drop("a")
        with self.assertRaises(ZeroDivisionError):
            cache.get_or_load("a", lambda key: 1 // 0)
        times = cache.load_times()
        self.assertEqual(list(times), [0.001, 0.005, 0.01, 0.05, 0.1, 0.5, 1, 5, 10, 30, 60, math.inf])
        self.assertEqual((sorted(times.values()), times[math.inf]), (list(times.values()), 4))
        # By the sum of the times, so many may be in the buckets behind.
        sum_of_times = cache.stats().load_ns / 1e9
        for bound, count in list(times.items())[:-1]:
            self.assertLessEqual((4 - count) * bound, sum_of_times)

    def test_describe_tells_of_the_five_oldest_loads_and_survives_every_key(self):
        class Key:
            def __repr__(self):
                raise KeyError

        begun, may_end = threading.Semaphore(0), threading.Event()
        cache = Cache(entries=100, after_write=60_000)
        keys = [Key(), "b" * 1000, *range(5)]
        loaders = [threading.Thread(target=cache.get_or_load, args=(key, lambda key: (begun.release(), may_end.wait()))) for key in keys]
        for loader in loaders:
            loader.start()
            begun.acquire()
        lines = cache.describe().splitlines()
        may_end.set()
        for loader in loaders:
            loader.join()
        at = lines.index("open loads: 7, the oldest:")
        self.assertEqual(len(lines) - at, 6)
        self.assertRegex(lines[at + 1], r"^    \d+\.\d{3} s, 0 waiting, made by Thread-.*: a Key, whose repr raises KeyError$")
        self.assertTrue(lines[at + 2].endswith(": '" + "b" * 99 + ".."))
        text = "\n".join(lines)
        for wanted in ("<Cache of 100 entries, 0 held>", "after_write 60000", "misses 7", "flights 7", "load times: 0 within 0.001 s", "refused: none"):
            self.assertIn(wanted, text)
        self.assertIn("open loads: 0", cache.describe())

    def test_a_closed_cache_is_described_and_lists_its_loads(self):
        cache = Cache(entries=10)

        def load(key):
            cache.close()
            return cache.describe(), cache.loads()

        text, loads = cache.get_or_load("a", load)
        self.assertIn("<Cache of 10 entries, closed>", text)
        self.assertEqual([of.key for of in loads], ["a"])
        self.assertIsInstance(loads[0], OpenLoad)


if __name__ == "__main__":
    unittest.main()

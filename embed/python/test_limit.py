#!/usr/bin/env python3
"""A source that hangs: as many loads as may be are open and don't end, and other keys are loaded all the same."""
import asyncio
import threading
import unittest

from rookdresser import Cache, TooManyFlights, cached
from threads import CacheTest, never, together, within_a_minute

HUNG = 1024


class Hung:
    """A cache in which so many loads hang until may_end is set."""

    def __init__(self, count=HUNG, **settings):
        self.cache = Cache(entries=4096, **settings)
        self.may_end, self.begun, self.told = threading.Event(), threading.Semaphore(0), []
        self.threads = [threading.Thread(target=self.work, args=(("hung", i),), daemon=True) for i in range(count)]
        for thread in self.threads:
            thread.start()
        for _ in self.threads:
            self.begun.acquire()

    def load(self, key):
        self.begun.release()
        self.may_end.wait()
        return "late"

    def work(self, key):
        try:
            self.told.append(self.cache.get_or_load(key, self.load))
        except Exception as error:
            self.told.append(error)

    def end(self):
        self.may_end.set()
        for thread in self.threads:
            thread.join()


class Limit(CacheTest):
    def hung(self, *given, **settings):
        threading.stack_size(256 * 1024)
        self.addCleanup(threading.stack_size, 0)
        hung = Hung(*given, **settings)
        self.addCleanup(hung.end)
        return hung

    def test_with_1024_loads_hung_a_healthy_key_is_answered_by_each_call(self):
        hung = self.hung()
        cache = hung.cache

        async def load(key):
            return key.upper()

        async def load_many(keys):
            return {key: key.upper() for key in keys}

        def work():
            self.assertEqual(cache.get_or_load("a", str.upper), "A")
            self.assertEqual(cache.get_many(["a", "b"], lambda keys: {key: key.upper() for key in keys}), {"a": "A", "b": "B"})
            self.assertEqual(asyncio.run(cache.aget_or_load("a", load)), "A")
            self.assertEqual(asyncio.run(cache.aget_or_load("a", str.upper)), "A")
            self.assertEqual(asyncio.run(cache.aget_many(["a", "b"], load_many)), {"a": "A", "b": "B"})
            # None of these is shared or stored.
            self.assertEqual((cache.get("a"), "b" in cache, cache.kept()), (None, False, (0, HUNG)))
            cache.put("a", 1)
            self.assertEqual((cache.get_or_load("a", never), cache.setdefault("b", 2), cache.pop("b"), cache.drop("a")), (1, 2, 2, True))

        within_a_minute(work)
        self.assertEqual((cache.stats().beside, cache.numbers()["flights"], cache.refused()), (7, HUNG, {}))
        hung.end()
        self.assertEqual(hung.told, ["late"] * HUNG)
        self.holds_exactly(cache, HUNG)
        # A place is free again: the value is stored.
        self.assertEqual((cache.get_or_load("a", str.upper), cache.get("a"), cache.stats().beside), ("A", "A", 7))

    def test_a_load_beside_is_a_miss_and_counted_as_such_by_both_sides(self):
        cache = Cache(entries=10, flights=1)

        def load(key):
            self.assertEqual(cache.get_or_load("b", str.upper), "B")
            with self.assertRaises(ZeroDivisionError):
                cache.get_or_load("c", lambda key: 1 // 0)
            return key

        cache.get_or_load("a", load)
        stats, numbers = cache.stats(), cache.numbers()
        self.assertEqual((stats.misses, stats.beside, stats.loads, stats.failed, stats.loose), (3, 2, 1, 0, 0))
        self.assertEqual((numbers["misses"], numbers["loads"], numbers["failed"]), (3, 1, 0))
        self.holds_exactly(cache, 1)

    def test_each_caller_at_the_limit_loads_by_itself(self):
        hung, loads, gate = self.hung(4, flights=4), [], threading.Barrier(8)

        def load(key):
            loads.append(key)
            gate.wait()
            return len(loads)

        together(8, lambda i: self.assertEqual(hung.cache.get_or_load("a", load), 8))
        self.assertEqual((loads, hung.cache.stats().joins), (["a"] * 8, 0))

    def test_a_caller_joins_the_load_of_a_key_also_at_the_limit(self):
        hung, got = self.hung(4, flights=4), []
        joins = [threading.Thread(target=lambda: got.append(hung.cache.get_or_load(("hung", 0), never))) for _ in range(3)]
        for join in joins:
            join.start()
        while hung.cache.stats().joins < 3:
            pass
        hung.end()
        for join in joins:
            join.join()
        self.assertEqual((got, hung.cache.stats().beside), (["late"] * 3, 0))

    def test_a_cache_that_is_to_refuse_at_the_limit_does(self):
        hung = self.hung(4, flights=4, refuse_at_limit=True)
        cache = hung.cache
        before = cache.numbers()["step"]

        async def work():
            for call in (cache.aget_or_load("a", never), cache.aget_many(["a"], never)):
                with self.assertRaises(TooManyFlights):
                    await call

        for call in (lambda: cache.get_or_load("a", never), lambda: cache.get_many(["a"], never), lambda: asyncio.run(work())):
            try:
                call()
            except TooManyFlights:
                pass
        self.assertEqual((cache.refused(), cache.numbers()["step"], cache.stats().beside), ({4: 4}, before, 0))

    def test_an_expired_entry_leaves_as_its_key_is_loaded_beside(self):
        now, told = [0], []
        cache = Cache(entries=10, flights=1, after_write=5, clock=lambda: now[0], on_leave=lambda *of: told.append(of))
        cache.put("a", 1)

        def load(key):
            now[0] = 5
            return cache.get_or_load("a", str.upper)

        self.assertEqual(cache.get_or_load("b", load), "A")
        self.assertEqual(told, [("a", 1, "expired")])
        self.holds_exactly(cache)

    def test_a_due_entry_is_a_hit_at_the_limit(self):
        now = [0]
        cache = Cache(entries=10, flights=1, refresh=5, clock=lambda: now[0])
        cache.put("a", 1)

        def load(key):
            now[0] = 5
            return cache.get_or_load("a", never)

        self.assertEqual(cache.get_or_load("b", load), 1)

    def test_some_of_several_keys_may_be_beside(self):
        cache, asked = Cache(entries=10, flights=2), []

        def load_many(keys):
            asked.append(keys)
            return {key: key.upper() for key in keys if key != "d"}

        self.assertEqual(cache.get_many("abcd", load_many), {"a": "A", "b": "B", "c": "C"})
        self.assertEqual((asked, sorted(cache.keys()), cache.stats().beside), ([["a", "b", "c", "d"]], ["a", "b"], 2))
        with self.assertRaises(ZeroDivisionError):
            cache.get_many("efgh", lambda keys: 1 // 0)
        self.holds_exactly(cache, 2)

    def test_what_a_load_beside_raises_is_its_caller_s_and_wrong_loaders_are_told(self):
        hung = self.hung(2, flights=2)
        cache = hung.cache

        async def coroutine():
            return 7

        for load, error in ((lambda key: 1 // 0, ZeroDivisionError), (7, TypeError), (None, TypeError), (lambda key: coroutine(), TypeError),
                            (lambda key: exit(7), SystemExit)):
            with self.assertRaises(error):
                cache.get_or_load("a", load)
        self.assertEqual((cache.get_or_load("a", str.upper), cache.kept()), ("A", (0, 2)))

    def test_a_cached_function_goes_on_at_the_limit(self):
        begun, may_end = threading.Event(), threading.Event()

        @cached(entries=10, flights=1)
        def double(number):
            if number == 1:
                begun.set()
                may_end.wait()
            return 2 * number

        first = threading.Thread(target=double, args=(1,))
        first.start()
        begun.wait()
        self.assertEqual((double(2), double(2), double.cache.stats().beside), (4, 4, 2))
        may_end.set()
        first.join()

    def test_a_load_beside_may_use_and_close_the_cache(self):
        cache = Cache(entries=10, flights=1)

        def beside(key):
            cache.put(key, 1)
            cache.drop("a")
            cache.close()
            return 2

        self.assertEqual(cache.get_or_load("a", lambda key: cache.get_or_load("b", beside)), 2)
        self.assertEqual(cache.kept(), (0, 0))


if __name__ == "__main__":
    unittest.main()

#!/usr/bin/env python3
"""Loads that are given up, by load_timeout or by abandon: who waits is told, the place is free, and what the loader brings late is dropped."""
import asyncio
import gc
import random
import threading
import time
import unittest
import weakref
from datetime import timedelta

from rookdresser import Abandoned, BadSetup, Cache, TimedOut
from test_limit import HUNG, Hung
from test_processes import forked
from threads import CacheTest, never, together, wait_for_joins, within_a_minute


class Value:
    pass


class GivenUp(CacheTest):
    def setUp(self):
        self.now = 0
        threading.stack_size(256 * 1024)
        self.addCleanup(threading.stack_size, 0)

    def hung(self, *given, **settings):
        hung = Hung(*given, clock=lambda: self.now, **settings)
        self.addCleanup(hung.end)
        return hung

    def joined(self, cache, key, count):
        """Threads that wait for the load of the key, and what each of them got or was raised."""
        told, before = [], cache.stats().joins

        def work():
            try:
                told.append(cache.get_or_load(key, never))
            except Exception as error:
                told.append(error)

        threads = [threading.Thread(target=work) for _ in range(count)]
        for thread in threads:
            thread.start()
        wait_for_joins(cache, before + count)
        return threads, told

    def is_as_new(self, cache, late):
        """No load is open, a miss is stored, and `late` loads that were given up have landed."""
        stats = cache.stats()
        self.assertEqual((cache.numbers()["flights"], stats.given_up, stats.late), (0, late, late))
        self.holds_exactly(cache)
        self.assertEqual((cache.get_or_load("new", str.upper), cache.get("new"), cache.stats().beside), ("NEW", "NEW", stats.beside))

    def test_with_1024_loads_hung_a_call_after_load_timeout_finds_the_cache_as_new(self):
        hung = self.hung(load_timeout=1000)
        cache = hung.cache
        joins, told = self.joined(cache, ("hung", 0), 3)
        self.now = 999
        self.assertEqual((cache.get_or_load("a", str.upper), "a" in cache, cache.numbers()["flights"]), ("A", False, HUNG))
        self.now = 1000
        self.assertEqual((cache.get_or_load("a", str.upper), "a" in cache, cache.numbers()["flights"]), ("A", True, 0))
        for join in joins:
            join.join()
        self.assertEqual({type(error) for error in told}, {TimedOut})
        self.assertEqual(cache.get_or_load(("hung", 0), lambda key: "anew"), "anew")
        hung.end()
        self.assertEqual((len(hung.told), {type(error) for error in hung.told}), (HUNG, {TimedOut}))
        self.assertEqual(sorted(cache.values()), ["A", "anew"])
        self.is_as_new(cache, HUNG)

    def test_after_abandon_of_1024_loads_the_cache_is_as_new(self):
        hung = self.hung()
        cache = hung.cache
        joins, told = self.joined(cache, ("hung", 7), 3)
        self.assertEqual([cache.abandon(("hung", i)) for i in range(HUNG)], [True] * HUNG)
        self.assertEqual((cache.abandon(("hung", 7)), cache.abandon("none")), (False, False))
        for join in joins:
            join.join()
        self.assertEqual({type(error) for error in told}, {Abandoned})
        self.assertEqual(cache.get_or_load("a", str.upper), "A")
        hung.end()
        self.assertEqual({type(error) for error in hung.told}, {Abandoned})
        self.assertEqual(list(cache.values()), ["A"])
        self.is_as_new(cache, HUNG)

    def test_each_call_gives_up_what_is_overdue(self):
        async def load(key):
            return key.upper()

        calls = (lambda cache: cache.get_or_load("a", str.upper), lambda cache: cache.get_many(["a"], lambda keys: {"a": "A"})["a"],
                 lambda cache: asyncio.run(cache.aget_or_load("a", load)), lambda cache: asyncio.run(cache.aget_many(["a"], lambda keys: {"a": "A"}))["a"],
                 # A hit, too, as a refresh may hang while its old value is served.
                 lambda cache: (cache.put("a", "A"), cache.get_or_load("a", never))[1])
        for call in calls:
            self.now = 0
            hung = self.hung(2, flights=2, load_timeout=timedelta(seconds=1))
            self.now = 1000
            self.assertEqual((call(hung.cache), hung.cache.get("a"), hung.cache.numbers()["flights"]), ("A", "A", 0))
            hung.end()

    def test_who_joins_a_load_that_is_overdue_loads_anew(self):
        hung = self.hung(1, load_timeout=5)
        self.now = 5
        self.assertEqual(hung.cache.get_or_load(("hung", 0), lambda key: "anew"), "anew")
        hung.end()
        self.assertEqual(hung.cache.get(("hung", 0)), "anew")

    def test_who_waits_gives_the_load_up_by_itself(self):
        async def wait(cache):
            await cache.aget_or_load(("hung", 0), never)

        # Nobody else calls: a wait looks at the clock as it begins and as the load may be overdue.
        for work in (lambda cache: cache.get_or_load(("hung", 0), never), lambda cache: asyncio.run(wait(cache))):
            self.now = 0
            hung = self.hung(1, load_timeout=1)
            waiter = threading.Thread(target=lambda: self.assertRaises(TimedOut, work, hung.cache))
            waiter.start()
            wait_for_joins(hung.cache, 1)
            self.now = 1
            within_a_minute(waiter.join)
            self.assertEqual((hung.cache.numbers()["flights"], hung.cache.stats().given_up), (0, 1))
            hung.end()
            self.assertEqual(list(map(type, hung.told)), [TimedOut])

    def test_the_deadline_of_a_wait_ends_the_wait_alone(self):
        hung = self.hung(1, load_timeout=5)
        with self.assertRaises(TimeoutError) as raised:
            hung.cache.get_or_load(("hung", 0), never, timeout=0.001)
        self.assertNotIsInstance(raised.exception, TimedOut)
        self.assertEqual(hung.cache.stats().given_up, 0)
        hung.end()
        self.assertEqual(hung.told, ["late"])

    def test_a_refresh_that_is_given_up_returns_the_old_value_to_its_caller(self):
        for ends in (lambda: "late", lambda: 1 // 0):
            for in_task in (False, True):
                self.now = 0
                cache = Cache(entries=10, refresh=5, load_timeout=3, clock=lambda: self.now)
                cache.put("a", "old")
                self.now = 5

                def load(key):
                    self.now = 8
                    # The entry is still due, and its load overdue.
                    self.assertEqual(cache.get_or_load("a", lambda key: "new"), "new")
                    return ends()

                got = asyncio.run(cache.aget_or_load("a", load)) if in_task else cache.get_or_load("a", load)
                self.assertEqual((got, cache.get("a"), cache.stats().given_up), ("old", "new", 1))
                self.holds_exactly(cache, 1)

    def test_a_loader_that_abandons_its_own_load_is_told(self):
        cache = Cache(entries=10)

        async def load(key):
            self.assertTrue(cache.abandon(key))
            return 7

        def load_many(keys):
            cache.abandon("b")
            return dict.fromkeys(keys, 7)

        with self.assertRaises(Abandoned):
            asyncio.run(cache.aget_or_load("a", load))
        # The others of its keys are stored.
        with self.assertRaises(Abandoned):
            cache.get_many("abc", load_many)
        self.assertEqual((sorted(cache.keys()), cache.stats().late), (["a", "c"], 2))
        self.holds_exactly(cache, 2)

    def test_abandon_gives_up_a_load_that_was_forgotten_too(self):
        hung = self.hung(1)
        hung.cache.forget(("hung", 0))
        begun, may_end = threading.Event(), threading.Event()
        second = threading.Thread(target=lambda: self.assertRaises(Abandoned, hung.cache.get_or_load, ("hung", 0), lambda key: (begun.set(), may_end.wait())))
        second.start()
        begun.wait()
        self.assertEqual(hung.cache.numbers()["flights"], 2)
        self.assertTrue(hung.cache.abandon(("hung", 0)))
        self.assertEqual(hung.cache.numbers()["flights"], 0)
        may_end.set()
        second.join()
        hung.end()
        self.is_as_new(hung.cache, 2)

    def test_a_clock_that_raises_leaves_the_load_as_it_is(self):
        raises = []

        def clock():
            if raises:
                raise KeyError
            return self.now

        begun, may_end, cache = threading.Event(), threading.Event(), Cache(entries=10, load_timeout=5, clock=clock)
        leader = threading.Thread(target=cache.get_or_load, args=("a", lambda key: (begun.set(), may_end.wait())))
        leader.start()
        begun.wait()
        raises.append(1)
        with self.assertRaises(KeyError):
            cache.get_or_load("a", never)
        del raises[:]
        self.assertEqual(cache.stats().given_up, 0)
        may_end.set()
        leader.join()
        self.holds_exactly(cache, 1)

    def test_keys_and_listeners_may_use_the_cache_as_a_load_is_given_up(self):
        told = []

        class Key:
            def __hash__(self):
                return 7

            def __eq__(self, other):
                cache.put("x", 1)
                cache.drop("x")
                return self is other

        def on_leave(key, value, cause):
            told.append((key, cause))
            cache.get_or_load("b", str.upper)
            cache.abandon("b")

        cache = Cache(entries=10, after_write=5, on_leave=on_leave, clock=lambda: self.now, load_timeout=5)
        keys = [Key(), Key()]

        def load(key):
            if key is keys[0]:
                return cache.get_or_load(keys[1], load)
            self.now = 5
            self.assertTrue(cache.abandon(keys[0]))
            # The other one is overdue.
            self.assertEqual(cache.get_or_load("c", str.upper), "C")
            return 7

        cache.put("a", 1)
        with self.assertRaises(TimedOut):
            cache.get_or_load(keys[0], load)
        self.assertEqual((cache.stats().given_up, cache.numbers()["flights"]), (2, 0))
        self.now = 20
        cache.clean()
        self.assertIn(("a", "expired"), told)
        self.holds_exactly(cache)

    def test_a_load_that_was_given_up_keeps_nothing(self):
        live = weakref.WeakSet()

        def load(key):
            value = Value()
            live.add(value)
            cache.abandon(key)
            return value

        cache = Cache(entries=10)
        for key in "ab":
            with self.assertRaises(Abandoned):
                cache.get_or_load(key, load)
        gc.collect()
        self.assertEqual(len(live), 0)
        self.holds_exactly(cache, 0)

    def test_a_load_that_its_cache_outlives_or_not_is_given_up_after_close(self):
        hung = self.hung(2)
        hung.cache.close()
        self.assertTrue(hung.cache.abandon(("hung", 0)))
        hung.end()
        self.assertEqual(sorted(map(str, hung.told)), ["late", "the load of the key was abandoned"])
        self.assertEqual(hung.cache.kept(), (0, 0))

    def test_a_child_has_no_load_that_is_overdue_for_ever(self):
        hung = self.hung(2, flights=2, load_timeout=5)
        self.now = 5
        self.assertEqual(forked(lambda: hung.cache.get_or_load("a", lambda key: 3) + hung.cache.numbers()["flights"]), 3)

    def test_a_load_timeout_that_is_none_is_refused(self):
        for wrong in ("1", 1.5, None):
            with self.assertRaises(TypeError):
                Cache(entries=10, load_timeout=wrong)
        for wrong in (-1, 1 << 64):
            with self.assertRaises(BadSetup):
                Cache(entries=10, load_timeout=wrong)

    def test_a_value_that_comes_late_is_never_seen_in_a_storm(self):
        cache, calls = Cache(entries=50, flights=16), 125_000
        seen, late, serial, threads = [set() for _ in range(8)], [set() for _ in range(8)], iter(range(10 ** 9)), 8

        def work(i):
            rng = random.Random(i)

            def load(key):
                made.append((key, next(serial)))
                # Before it lands, within the loader, or by another thread at any moment.
                if rng.random() < 0.1:
                    cache.abandon(key)
                if rng.random() < 0.05:
                    time.sleep(0)
                return made[-1]

            made = []
            for _ in range(calls):
                key, mine = rng.randrange(100), len(made)
                try:
                    got = cache.get_or_load(key, load) if rng.random() < 0.9 else cache.get_many([key], lambda keys: {key: load(key)})[key]
                    self.assertEqual(got[0], key)
                    seen[i].add(got[1])
                except Abandoned:
                    # If this call made the load, what it brought is late.
                    if len(made) > mine:
                        late[i].add(made[-1][1])
                if rng.random() < 0.02:
                    cache.abandon(rng.randrange(100))
                if rng.random() < 0.1:
                    cache.drop(rng.randrange(100))

        together(threads, work)
        stats = cache.stats()
        late_all = set().union(*late)
        self.assertEqual(set().union(*seen) & late_all, set())
        self.assertFalse({value[1] for value in cache.values()} & late_all)
        self.assertGreater(len(late_all), 1000)
        self.assertEqual((stats.late, stats.given_up), (len(late_all), len(late_all)))
        self.holds_exactly(cache)


if __name__ == "__main__":
    unittest.main()

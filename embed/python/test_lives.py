#!/usr/bin/env python3
"""Entries with a life of their own: `ttl` of a put and of a load, beside a clock that the tests set."""
import asyncio
import random
import unittest
from collections import Counter
from datetime import timedelta
from unittest import mock

from rookdresser import Cache
from threads import CacheTest, never

ABSENT = object()
MOST = (1 << 32) - 1


class Lives(CacheTest):
    def setUp(self):
        self.now, self.left = 0, []

    def opened(self, entries=10, **settings):
        return Cache(entries=entries, clock=lambda: self.now, on_leave=lambda *of: self.left.append(of), **settings)

    def ends(self, cache, key):
        """The first of the moments from now to a hundred later at which the key has no entry, or None. Nothing is used by that."""
        for self.now in range(self.now, self.now + 100):
            if key not in cache:
                return self.now

    def test_an_entry_with_a_short_life_leaves_beside_one_without(self):
        cache = self.opened()
        self.now = 1000
        cache.put("short", 1, ttl=5)
        cache.put("long", 2)
        self.now = 1004
        self.assertEqual((cache.get("short"), cache.peek("short"), cache["short"], cache.setdefault("short", 9), dict(cache.items())),
                         (1, 1, 1, 1, {"short": 1, "long": 2}))
        self.now = 1005
        self.assertEqual((cache.peek("short"), "short" in cache, list(cache), cache.get("short", 0), cache.get("long")), (None, False, ["long"], 0, 2))
        self.assertEqual(self.left, [("short", 1, "expired")])
        self.holds_exactly(cache, 1)

    def test_clean_takes_out_what_has_outlived_its_life(self):
        cache = self.opened()
        for life in (3, 5, 7, None):
            cache.put(life, life, ttl=life)
        self.now = 5
        cache.clean()
        self.assertEqual((sorted(self.left), len(cache)), ([(3, 3, "expired"), (5, 5, "expired")], 2))

    def test_a_ttl_is_milliseconds_or_a_timedelta_or_a_callable_that_returns_one(self):
        for given, ends in ((7, 7), (True, 1), (timedelta(milliseconds=7), 7), (timedelta(milliseconds=6, microseconds=1), 7), (timedelta(seconds=0.05), 50),
                            (lambda key, value: 7, 7), (lambda key, value: timedelta(milliseconds=7), 7), (lambda key, value: None, None), (None, None),
                            # Less than a millisecond counts as one.
                            (0, 1), (-5, 1), (-1 << 99, 1), (timedelta(0), 1), (timedelta(microseconds=1), 1), (timedelta(seconds=-5), 1),
                            (timedelta(microseconds=-1), 1), (timedelta.min, 1), (lambda key, value: 0, 1)):
            for store in (lambda cache: cache.put("a", 1, ttl=given), lambda cache: cache.put("a", 1, given),
                          lambda cache: cache.get_or_load("a", lambda key: 1, ttl=given),
                          lambda cache: asyncio.run(cache.aget_or_load("a", lambda key: 1, ttl=given))):
                self.now = 0
                cache = self.opened()
                store(cache)
                self.assertEqual(self.ends(cache, "a"), ends, given)

    def test_a_life_longer_than_32_bits_hold_is_none(self):
        for given, ends in ((MOST, MOST), (MOST + 1, None), (1 << 64, None), (1 << 99, None), (timedelta(milliseconds=MOST), MOST),
                            (timedelta(milliseconds=MOST, microseconds=1), None), (timedelta(days=49), 4_233_600_000), (timedelta(days=50), None), (timedelta.max, None)):
            self.now = 0
            cache = self.opened()
            cache.put("a", 1, ttl=given)
            self.now = (ends or 1 << 50) - 1
            self.assertIn("a", cache, given)
            self.now += 1
            self.assertEqual("a" in cache, ends is None, given)

    def test_a_callable_gets_the_key_and_the_value(self):
        cache, asked = self.opened(weigh=lambda key, value: 1), []
        cache.put("a", 1, ttl=lambda *of: asked.append(of))
        cache.get_or_load("b", lambda key: 2, ttl=lambda *of: asked.append(of))
        asyncio.run(cache.aget_or_load("c", lambda key: 3, ttl=lambda *of: asked.append(of)))
        # Not of a hit.
        cache.get_or_load("a", never, ttl=never)
        self.assertEqual(asked, [("a", 1), ("b", 2), ("c", 3)])

    def test_a_use_lengthens_no_life(self):
        cache = self.opened()
        cache.put("a", 1, ttl=10)
        for self.now in range(0, 10, 3):
            self.assertEqual((cache.get("a"), cache.get_or_load("a", never)), (1, 1))
        self.now = 10
        self.assertIsNone(cache.get("a"))

    def test_the_durations_of_the_cache_end_a_life_earlier(self):
        for settings, life, ends in (({"after_write": 5}, 9, 5), ({"after_write": 9}, 5, 5), ({"after_access": 5}, 9, 5), ({"after_access": 9}, 5, 5), ({"after_write": 5}, None, 5)):
            self.now = 0
            cache = self.opened(**settings)
            cache.put("a", 1, ttl=life)
            self.assertEqual(self.ends(cache, "a"), ends)

    def test_a_load_gives_a_life(self):
        async def load(key):
            return 3

        for get in (lambda cache: cache.get_or_load("a", lambda key: 3, ttl=lambda key, value: 2 * value),
                    lambda cache: asyncio.run(cache.aget_or_load("a", load, ttl=lambda key, value: 2 * value))):
            self.now = 100
            cache = self.opened()
            self.assertEqual((get(cache), self.ends(cache, "a")), (3, 106))

    def test_a_loaded_value_s_life_counts_from_the_call(self):
        cache = self.opened()

        def load(key):
            self.now += 4
            return 1

        self.assertEqual(cache.get_or_load("a", load, ttl=10), 1)
        self.assertEqual((self.now, self.ends(cache, "a")), (4, 10))

    def test_a_load_that_outlasts_its_life_is_returned_and_never_served(self):
        cache = self.opened()

        def load(key):
            self.now += 10
            return self.now

        self.assertEqual([cache.get_or_load("a", load, ttl=10) for _ in range(3)], [10, 20, 30])

    def test_a_replacement_has_a_life_of_its_own(self):
        for first, then, ends in ((50, 5, 25), (5, 50, 70), (5, None, None), (None, 5, 25)):
            for lengthens in (lambda cache: cache.put("a", 2, ttl=then), lambda cache: cache.get_or_load("a", lambda key: 2, ttl=then)):
                self.now = 0
                cache = self.opened(refresh=20)
                cache.put("a", 1, ttl=first)
                # The load is of an entry that is due, or has expired.
                self.now = 20
                lengthens(cache)
                self.assertEqual((cache.peek("a"), self.ends(cache, "a")), (2, ends), (first, then))
        cache = self.opened()
        for store in (lambda: cache.__setitem__("a", 2), lambda: cache.update(a=2), lambda: cache.put_many({"a": 2})):
            cache.put("a", 1, ttl=5)
            store()
            self.assertIsNone(self.ends(cache, "a"))

    def test_a_refresh_gives_a_new_life_and_one_that_fails_keeps_the_old(self):
        cache = self.opened(refresh=10)
        cache.put("a", 1, ttl=15)
        self.now = 10
        self.assertEqual(cache.get_or_load("a", lambda key: 1 // 0, ttl=100), 1)
        self.assertEqual(cache.get_or_load("a", lambda key: 2, ttl=7), 2)
        self.assertEqual(self.ends(cache, "a"), 17)
        cache.put("a", 3, ttl=15)
        self.now += 10
        self.assertEqual(cache.get_or_load("a", lambda key: 1 // 0, ttl=100), 3)
        self.assertEqual(self.ends(cache, "a"), 32)

    def test_a_ttl_that_is_none_of_these_is_refused_and_stores_nothing(self):
        cache = self.opened()
        for given, error, why in ((1.5, TypeError, "^ttl is 1.5, and has to be a whole number of milliseconds or a timedelta$"), ("5", TypeError, "^ttl is '5'"),
                                  (lambda key, value: [], TypeError, r"^the life that ttl returned is \[\], and has to be a whole number of milliseconds or a timedelta$"),
                                  (lambda key, value: 1 // 0, ZeroDivisionError, ""), (lambda: 5, TypeError, "")):
            for store in (lambda: cache.put("a", 1, ttl=given), lambda: cache.get_or_load("a", lambda key: 1, ttl=given),
                          lambda: asyncio.run(cache.aget_or_load("a", lambda key: 1, ttl=given))):
                with self.assertRaisesRegex(error, why):
                    store()
        self.assertEqual(cache.numbers()["failed"], 10)
        self.holds_exactly(cache, 0)

        class Odd(timedelta):
            @property
            def seconds(self):
                raise KeyError("odd")

        with self.assertRaises(KeyError):
            cache.put("a", 1, ttl=Odd(5))
        self.holds_exactly(cache, 0)

    def test_a_ttl_may_call_the_cache(self):
        cache = self.opened()

        def ttl(key, value):
            cache.put(key, value + 1)
            return 5

        cache.put("a", 1, ttl=ttl)
        self.assertEqual(cache["a"], 1)
        # The put by ttl came during the load, which then stores nothing.
        self.assertEqual((cache.get_or_load("b", lambda key: 1, ttl=ttl), cache["b"]), (1, 2))
        self.holds_exactly(cache, 2)


class Beside(CacheTest):
    """Random calls beside a dict of what was stored until when, from which `on_leave` takes what leaves."""

    def test_a_hundred_thousand_random_calls_are_those_of_a_dict_with_deadlines(self):
        self.now, stored, causes, before = 0, {}, Counter(), None

        def leave(key, value, cause):
            """What is stored anew pushes out what was there, which may have expired."""
            causes[cause] += 1
            if stored[key][0] == value:
                self.assertEqual(cause, "expired" if self.now >= stored.pop(key)[1] else "size")
            else:
                self.assertEqual((value, cause), (before[0], "expired" if self.now >= before[1] else "replaced"))

        def raised(key, error):
            raise SystemExit(error)

        def there(key):
            value, ends = stored.get(key, (ABSENT, 0))
            return ABSENT if self.now >= ends else value

        # What on_leave raises is raised here, too.
        with mock.patch("rookdresser._cache._log", raised):
            cache = Cache(entries=200, after_write=300, clock=lambda: self.now, on_leave=leave)
        rng, hits = random.Random(70), 0
        for at in range(100_000):
            self.now += at % 7 == 0
            key = rng.randrange(100) if at % 2 else rng.randrange(1000)
            life = rng.choice((None, rng.randrange(1, 20), rng.randrange(1, 600)))
            ttl = rng.choice((life, life and timedelta(milliseconds=life), lambda key, value: life))
            found, until = there(key), self.now + min(life or 300, 300)
            what, before = rng.randrange(4), stored.get(key)
            if what == 0:
                stored[key] = at, until
                cache.put(key, at, ttl=ttl)
            elif what == 1:
                if found is ABSENT:
                    stored[key], found = (at, until), at
                self.assertEqual(cache.get_or_load(key, lambda key: at, ttl=ttl), found, at)
            elif what == 2:
                self.assertIs(cache.peek(key, ABSENT), found, at)
            else:
                hits += found is not ABSENT
                self.assertEqual(cache.get(key, ABSENT), found, at)
            if at % 1000 == 0:
                self.assertEqual(dict(cache.items()), {key: value for key, (value, _) in stored.items() if there(key) is not ABSENT})
                self.assertEqual(len(cache), len(stored))
        self.assertGreater(hits, 5000)
        self.assertEqual({cause: count > 1000 for cause, count in causes.items()}, {"replaced": True, "expired": True, "size": True})


if __name__ == "__main__":
    unittest.main()

#!/usr/bin/env python3
"""A cache as a mapping, in shards, and what the package says of itself."""
import copy
import pickle
import re
import unittest
from datetime import timedelta
from pathlib import Path

import rookdresser
from rookdresser import Cache, Refused, TooHeavy
from threads import CacheTest, never

HERE = Path(__file__).resolve().parent


class Mapping(CacheTest):
    """What a mapping of Python does."""

    def test_items_are_found_set_and_taken_out(self):
        left = []
        with Cache(entries=10, on_leave=lambda *of: left.append(of)) as cache:
            cache["a"] = 1
            self.assertEqual((cache["a"], "a" in cache, "b" in cache, len(cache), bool(cache)), (1, True, False, 1, True))
            del cache["a"]
            self.assertEqual((left, len(cache)), ([("a", 1, "explicit")], 0))
            for wrong in (("a",), "a"):
                with self.assertRaises(KeyError) as caught:
                    cache[wrong]
                self.assertEqual(caught.exception.args, (wrong,))
                with self.assertRaises(KeyError):
                    del cache[wrong]
            # `in` counts nothing.
            self.assertEqual((cache.stats().hits, cache.stats().misses), (1, 2))

    def test_pop_takes_out_and_returns(self):
        now, left = [0], []
        with Cache(entries=10, after_write=100, clock=lambda: now[0], on_leave=lambda *of: left.append(of)) as cache:
            cache.put("a", 1)
            cache.put("b", None)
            self.assertEqual((cache.pop("a"), cache.pop("a", 7), cache.pop("a", default=None), cache.pop("b", 7)), (1, 7, None, None))
            with self.assertRaises(KeyError) as caught:
                cache.pop(("a", 1))
            self.assertEqual(caught.exception.args, (("a", 1),))
            cache.put("a", 2)
            now[0] = 100
            self.assertEqual(cache.pop("a", 7), 7)
            self.assertEqual(left, [("a", 1, "explicit"), ("b", None, "explicit"), ("a", 2, "expired")])
            self.assertEqual((cache.stats().hits, cache.numbers()["hits"]), (2, 2))
            self.holds_exactly(cache, 0)

    def test_a_pop_during_a_load_keeps_its_value_out(self):
        with Cache(entries=10) as cache:
            self.assertEqual(cache.get_or_load("a", lambda key: cache.pop(key, 5)), 5)
            self.holds_exactly(cache, 0)

    def test_iteration_is_over_the_keys_of_one_moment(self):
        with Cache(entries=100) as cache:
            cache.put_many((key, -key) for key in range(50))
            seen = []
            for key in cache:
                seen.append(key)
                cache.drop(key)
                cache.put(key + 1000, 1)
            self.assertEqual(sorted(seen), list(range(50)))
            # An open load is no entry.
            self.assertEqual(len(cache.get_or_load("a", lambda key: list(cache))), 50)

    def test_a_cache_is_neither_copied_nor_pickled(self):
        for call in (copy.copy, copy.deepcopy, pickle.dumps):
            with self.assertRaises(TypeError):
                call(Cache(entries=10))

    def test_it_tells_what_it_is(self):
        cache = Cache(entries=10)
        cache.put("a", 1)
        self.assertEqual(repr(cache), "<Cache of 10 entries, 1 held>")
        cache.close()
        self.assertEqual(repr(cache), "<Cache of 10 entries, closed>")

    def test_the_version_is_the_package_s(self):
        said = re.search(r'^version = "(.*)"$', (HERE / "pyproject.toml").read_text(), re.M).group(1)
        self.assertEqual(rookdresser.__version__, said)

    def test_everything_that_is_public_has_a_docstring(self):
        for name in rookdresser.__all__:
            of = getattr(rookdresser, name)
            self.assertTrue(of.__doc__, name)
            for base in getattr(of, "__mro__", ())[:2]:
                for method in vars(base):
                    if not method.startswith("_") and callable(getattr(base, method)):
                        self.assertTrue(getattr(base, method).__doc__, "%s.%s" % (name, method))

    def test_calls_that_are_given_wrong_arguments_name_the_right_ones(self):
        cache = Cache(entries=10)
        for call, text in ((lambda: cache.get_or_load("a"), "get_or_load(key, load, timeout=None, ttl=None)"), (lambda: cache.look(), "look(key, default=None)"),
                           (lambda: cache.put("a", 1, 2, 3), "put(key, value, ttl=None)"), (lambda: cache.look("a", key="b"), "look(key, default=None)"),
                           (lambda: cache.pop(name="a"), "pop(key[, default])")):
            with self.assertRaises(TypeError) as caught:
                call()
            self.assertIn(text, str(caught.exception))
        self.assertEqual((cache.get_or_load(load=lambda key: 1, key="a"), cache.look(key="a", default=2), cache.put(value=3, key="b")), (1, 1, None))

    def test_no_call_of_the_private_part_crashes(self):
        native = rookdresser._native
        cache, closed, other = Cache(entries=10), Cache(entries=10), Cache(entries=10)
        closed.close()
        used = native.Load()
        cache._seek("a", used, None, None)
        opened = (10, 1, 1, 1, 0, 0, 0), 1, 0, None, True, False, 0, None, None, None, None, None, None, 7, native.Load, Refused, timedelta
        given = rookdresser.TimedOut, rookdresser.Abandoned, False
        calls = [
            lambda: native.Table().abandon("a"), lambda: native.Table()._time_left(used), lambda: cache._adopt(7, None, None), lambda: cache._adopt(used, 7, None), lambda: native.Table().get_or_load("a", None), lambda: native.Table().look("a"), lambda: native.Table().put("a", 1), lambda: native.Table().pop("a"),
            lambda: native.Table().clear(), lambda: len(native.Table()), lambda: iter(native.Table()), lambda: iter(closed), lambda: native.Table()._numbers(), lambda: native.Table().window(), lambda: native.Table()._seek("a", used, None, None),
            lambda: native.Table()._open(*opened, None, *given), lambda: native.Table()._open(*opened, native, *given), lambda: cache._open(*opened, rookdresser._waits.waits, *given),
            lambda: native.Table()._open((10, 1, 1, 1, 0, 0, 0), 1, 10, *opened[3:], rookdresser._waits.waits, *given), lambda: native.Table()._open(), lambda: native.Function(7, len, None, None, None), lambda: native.Function(native.Table(), 7, None, None, None),
            lambda: native.Function(native.Table(), len, None, None, None)(1), lambda: native.Function(), lambda: rookdresser._waits.waits.leads(7, 8),
            lambda: rookdresser._waits.waits.leads(used, ("a", None)), lambda: rookdresser._waits.waits.behind(("a",), 1), lambda: native.TaskWait().begin(7),
            lambda: native.TaskWait().begin(native.Load()), lambda: cache._seek("b", used, None, None), lambda: cache._seek("b", 7, None, None),
            lambda: cache._seek("b", native.Load(), 7, None), lambda: cache._land(7, 8), lambda: cache._fail(used), lambda: cache._fail_all(7, used),
            lambda: cache._fail_all([7, native.Load()], KeyError()), lambda: cache._wait(native.Load(), None), lambda: closed._seek("a", native.Load(), None, None),
        ]
        for call in calls:
            with self.assertRaises((TypeError, ValueError, Refused)):
                call()
        # Of another cache, or ended: nothing happens.
        self.assertEqual((other._land(used, 1), other._fail(used, KeyError()), native.TaskWait().end(), native.Table().close()), (1, False, None, None))
        self.assertEqual((cache._land(used, 7), cache._land(used, 8), cache._fail(used, KeyError()), cache.look("a")), (7, 8, False, 7))
        self.holds_exactly(cache, 1)


class Shards(CacheTest):
    def test_shards_hold_more_than_65536_entries(self):
        with Cache(entries=200_000, shards=4) as cache:
            for key in range(150_000):
                cache.put(key, key)
            self.assertEqual((len(cache), cache.numbers()["entries"]), (150_000, 150_000))
            self.assertEqual({cache.look(key) - key for key in range(150_000)}, {0})
            for key in range(150_000, 400_000):
                cache.put(key, key)
            self.assertLessEqual(len(cache), 200_000)
            self.assertGreater(len(cache), 190_000)
            self.holds_exactly(cache)
            cache.clear()
            self.holds_exactly(cache, 0)

    def test_a_cache_of_several_shards_holds_no_more_than_it_may(self):
        for settings in ({"entries": 10, "shards": 3}, {"entries": 11, "shards": 4, "bound": 11}, {"entries": 100, "shards": 64, "bound": 65},
                         {"entries": 1000, "shards": 999}, {"entries": 20, "shards": 3, "bound": 7}, {"entries": 515, "shards": 6}):
            with Cache(**settings) as cache:
                most, held = min(settings["entries"], settings.get("bound", 1 << 48)), 0
                for key in range(30_000):
                    cache.put(key, key)
                    held = max(held, len(cache))
                numbers = cache.numbers()
                # Each shard is full in the end, so their parts add up to what was given.
                self.assertEqual((numbers["entries"], numbers["weight"], held), (most, most, most), settings)
                self.holds_exactly(cache, most)
        with Cache(entries=65_537) as cache:
            cache.put_many((key, key) for key in range(150_000))
            self.assertEqual((len(cache), repr(cache)), (65_537, "<Cache of 65537 entries, 65537 held>"))

    def test_a_value_may_weigh_its_shard_s_part_of_the_bound(self):
        stored, heavy = set(), set()
        with Cache(entries=9, shards=3, bound=7, seeded=False, weigh=lambda key, value: value) as cache:
            # The parts are 3, 2 and 2.
            for key in range(300):
                for weight in (2, 3, 4):
                    try:
                        cache.put(key, weight)
                        stored.add(weight)
                    except TooHeavy:
                        heavy.add(weight)
                    self.assertLessEqual(cache.numbers()["weight"], 7)
        self.assertEqual((stored, heavy), ({2, 3}, {3, 4}))

    def test_shards_are_filled_evenly_whatever_the_keys(self):
        for seeded in (True, False):
            for keys in (range(8000), range(0, 8000 * 64, 64), range(2 ** 40, 2 ** 40 + 8000)):
                with Cache(entries=10_000, shards=8, seeded=seeded) as cache:
                    for key in keys:
                        cache.put(key, key)
                    self.assertGreater(len(cache), 7800)

    def test_each_call_goes_to_the_key_s_shard(self):
        now, left = [0], []
        cache = Cache(entries=200, shards=5, bound=200, after_write=100, clock=lambda: now[0], weigh=lambda key, value: 1, on_leave=lambda *of: left.append(of))
        for key in range(20):
            self.assertEqual(cache.get_or_load(key, lambda key: -key), -key)
        self.assertEqual(cache.get_many(range(10), never), {key: -key for key in range(10)})
        self.assertTrue(all(cache.drop(key) for key in range(5)))
        numbers = cache.numbers()
        self.assertEqual((numbers["entries"], numbers["weight"], numbers["loads"], numbers["lookups"], numbers["hits"]), (15, 15, 20, 30, 10))
        now[0] = 100
        cache.clean()
        self.assertEqual(sorted(left), sorted([(key, -key, "explicit") for key in range(5)] + [(key, -key, "expired") for key in range(5, 20)]))
        self.holds_exactly(cache, 0)
        cache.close()
        with self.assertRaises(Refused):
            len(cache)


if __name__ == "__main__":
    unittest.main()

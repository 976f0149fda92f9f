#!/usr/bin/env python3
"""A cache as the mapping that a dict is: its calls and views, and what callbacks and threads may do meanwhile."""
import asyncio
import gc
import random
import threading
import unittest
import warnings
import weakref
from collections.abc import Mapping, MutableMapping
from decimal import Decimal

from rookdresser import Cache, Closed, TooHeavy
from threads import CacheTest, never, together, within_a_minute


class Dict(CacheTest):
    def test_it_is_a_mapping_but_equal_to_itself_alone(self):
        one, other = Cache(entries=10), Cache(entries=10)
        self.assertTrue(isinstance(one, MutableMapping) and isinstance(one, Mapping))
        self.assertEqual((one == other, one == one, len({one, other})), (False, True, 2))
        one.update({"a": 1})
        other.update(one)
        self.assertEqual((other["a"], dict(other), {**other}), (1, {"a": 1}, {"a": 1}))
        # A pattern asks by get with a default that can't be called.
        match one:
            case {"a": found}:
                self.assertEqual(found, 1)
            case _:
                self.fail("no mapping")

    def test_a_store_under_an_equal_key_keeps_the_first_key(self):
        told, now, alive = [], [0], weakref.WeakSet()

        class Key(str):
            __hash__ = str.__hash__

        def key():
            alive.add(made := Key("a"))
            return made

        cache, beside = Cache(entries=10, refresh=5, after_write=100, clock=lambda: now[0], on_leave=lambda *of: told.append(of)), {}
        for mapping in (cache, beside):
            mapping[1] = "one"
            mapping[1.0] = "two"
            mapping.update({True: "three"})
            mapping.setdefault(Decimal(1), "four")
        self.assertEqual(([(type(of), of) for of in cache], cache.peek(1)), ([(int, 1)], beside[1]))
        self.assertEqual([type(of) for of in beside], [int])
        stores = (lambda: cache.put(1.0, "put", ttl=50), lambda: cache.put_many([(True, "put")]), lambda: cache.get_or_load(1.0, str),
                  lambda: cache.get_many([True], dict.fromkeys), lambda: asyncio.run(cache.aget_or_load(1.0, str)),
                  lambda: asyncio.run(cache.aget_many([True], dict.fromkeys)))
        for store in stores:
            # The loads are of an entry that is due.
            now[0] += 5
            loads = cache.stats().refreshes
            store()
            self.assertEqual(([type(of) for of in cache], cache.stats().refreshes - loads), ([int], store in stores[2:]))
        # Each that left had the first key, and what has gone and is stored again has the key of that store.
        self.assertEqual({(type(of), cause) for of, _, cause in told}, {(int, "replaced")})
        self.assertEqual([type(cache.popitem()[0]), cache.put(1.0, "anew"), [type(of) for of in cache]], [int, None, [float]])
        now[0] += 100
        cache[True] = "after it has expired"
        self.assertEqual(([type(of) for of in cache], [(type(of), cause) for of, _, cause in told[-2:]]), ([bool], [(int, "explicit"), (float, "expired")]))
        # No key is kept beside the first.
        cache["a"] = 0
        for store in (lambda: cache.put(key(), 1), lambda: cache.update({key(): 2}), lambda: cache.get_or_load(key(), lambda of: 3)):
            store()
            now[0] += 5
        told.clear()
        gc.collect()
        self.assertEqual((len(alive), cache.stats().refreshes, [type(of) for of in cache if of == "a"]), (0, 5, [str]))
        self.holds_exactly(cache, 2)

    def test_views_are_of_one_moment_and_no_use(self):
        now = [0]
        with Cache(entries=10, after_write=100, clock=lambda: now[0]) as cache:
            cache["old"] = 0
            now[0] = 50
            keys, values, items = cache.keys(), cache.values(), cache.items()
            cache.update([("a", 1)], b=2)
            self.assertEqual((sorted(keys), sorted(values), sorted(items)), (["a", "b", "old"], [0, 1, 2], [("a", 1), ("b", 2), ("old", 0)]))
            now[0] = 100
            # What has expired is in no view, but in their length.
            self.assertEqual((sorted(keys), sorted(values), sorted(items)), (["a", "b"], [1, 2], [("a", 1), ("b", 2)]))
            self.assertEqual((len(keys), len(values), len(items), len(cache)), (3, 3, 3, 3))
            self.assertEqual(("a" in keys, "old" in keys, 2 in values, 0 in values), (True, False, True, False))
            self.assertEqual((("a", 1) in items, ("a", 2) in items, ("old", 0) in items, ("c", None) in items), (True, False, False, False))
            self.assertEqual((keys & {"a", "old"}, {"c"} | keys, items - {("a", 1)}), ({"a"}, {"a", "b", "c"}, {("b", 2)}))
            self.assertEqual((cache.stats()[:2], cache.numbers()["lookups"], cache.numbers()["latest"]), ((0, 0), 0, 50))
            for key, value in items:
                del cache[key]
            self.assertEqual((list(cache.items()), cache.get_or_load("c", lambda key: list(cache.keys()))), ([], []))

    def test_get_looks_and_loads_only_if_a_load_is_given_by_place(self):
        cache = Cache(entries=10)
        with warnings.catch_warnings():
            warnings.simplefilter("error")
            self.assertEqual((cache.get("a"), cache.get("a", 7), cache.get("a", None), cache.get(default=5, key="a"), cache.get("a", default=len)),
                             (None, 7, None, 5, len))
            self.assertEqual((cache.stats().misses, cache.stats().loads), (5, 0))
            # As an error, the warning comes before anything is done.
            with self.assertRaises(DeprecationWarning):
                cache.get("a", never)
            self.assertEqual((cache.stats().misses, len(cache)), (5, 0))
        why = "get(key, load) will only look from version 1.0 on: call get_or_load(key, load)"
        for call in (lambda: cache.get("b", str.upper), lambda: cache.get("c", str.upper, 5), lambda: cache.get("d", str.upper, timeout=5),
                     lambda: cache.get("e", load=str.upper), lambda: cache.get(load=str.upper, key="f", timeout=None), lambda: cache.get("b", None, 5)):
            with warnings.catch_warnings(record=True) as told:
                warnings.simplefilter("always")
                self.assertIn(call(), tuple("BCDEF"))
            self.assertEqual([(str(one.message), one.category, one.filename) for one in told], [(why, DeprecationWarning, __file__)])
        self.assertEqual(cache.stats().loads, 5)
        for wrong in (lambda: cache.get(), lambda: cache.get("a", 1, load=len), lambda: cache.get("a", default=1, timeout=5), lambda: cache.get("a", timeout=5),
                      lambda: cache.get("a", len, 5, len), lambda: cache.get("a", default=1, load=len), lambda: cache.get("a", 1, 2, 3)):
            with self.assertRaisesRegex(TypeError, r"^the call is get\(key, default=None\)$"):
                wrong()

    def test_setdefault_stores_once_for_all_threads(self):
        for _ in range(50):
            cache, got = Cache(entries=10), []
            together(8, lambda i: got.append(cache.setdefault("a", i)))
            self.assertEqual((len(set(got)), cache["a"]), (1, got[0]))
            self.assertEqual(cache.stats().replaced, 0)

    def test_setdefault_returns_what_a_callback_stored_meanwhile(self):
        cache = Cache(entries=10, weigh=lambda key, value: value == 1 and cache.put(key, 2) or 1)
        self.assertEqual((cache.setdefault("a", 1), cache["a"], cache.stats().replaced), (2, 2, 0))
        self.holds_exactly(cache, 1)
        heavy = Cache(entries=10, bound=5, weigh=lambda key, value: value)
        with self.assertRaises(TooHeavy):
            heavy.setdefault("a", 6)
        self.holds_exactly(heavy, 0)
        # A load of the key that is open stores nothing, as after a put.
        self.assertEqual((cache.get_or_load("b", lambda key: cache.setdefault(key, 5) + 1), cache["b"]), (6, 5))

    def test_popitem_takes_each_entry_once(self):
        left = []
        cache = Cache(entries=4000, on_leave=lambda *of: left.append(of))
        cache.update((key, -key) for key in range(4000))
        taken = []

        def take(_):
            while True:
                try:
                    taken.append(cache.popitem())
                except KeyError:
                    return

        within_a_minute(lambda: together(4, take))
        self.assertEqual(sorted(taken), [(key, -key) for key in range(4000)])
        self.assertEqual(sorted(left), [(key, -key, "explicit") for key in range(4000)])
        self.assertEqual(cache.stats()[:2], (0, 0))
        self.holds_exactly(cache, 0)

    def test_popitem_and_views_pass_over_open_loads_and_expired_entries(self):
        now = [0]
        cache = Cache(entries=10, after_write=100, refresh=50, clock=lambda: now[0])
        cache["old"] = 1
        now[0] = 100

        def load(key):
            self.assertEqual((list(cache.keys()), list(cache.items())), ([], []))
            with self.assertRaises(KeyError) as caught:
                cache.popitem()
            return caught.exception.args

        self.assertEqual(cache.get_or_load("a", load), ("the cache is empty",))
        self.assertEqual(cache.popitem(), ("a", ("the cache is empty",)))
        # The entry is taken out that a load was to replace, and the load stores nothing.
        cache["b"] = 1
        now[0] = 150
        self.assertEqual(cache.get_or_load("b", lambda key: cache.popitem()), ("b", 1))
        self.holds_exactly(cache, 0)

    def test_a_clock_that_raises_or_closes_the_cache_moves_nothing(self):
        calls = (lambda cache: cache.get("a"), lambda cache: cache.peek("a"), lambda cache: "a" in cache, lambda cache: cache.setdefault("b", 2), Cache.popitem,
                 lambda cache: list(cache.items()), list, lambda cache: ("a", 1) in cache.items(), lambda cache: cache.update(b=2))
        for error, acts in ((ZeroDivisionError, lambda cache: 1 // 0), (SystemExit, lambda cache: exec("raise SystemExit")), (Closed, Cache.close)):
            for call in calls:
                armed = []
                cache = Cache(entries=10, clock=lambda: armed and (armed.pop()(cache), 0)[1] or 0)
                cache["a"] = 1
                armed.append(acts)
                with self.assertRaises(error):
                    within_a_minute(lambda: call(cache))
                if error is Closed:
                    self.assertEqual(cache.kept(), (0, 0))
                else:
                    self.assertEqual(dict(cache.items()), {"a": 1})

    def test_on_leave_and_equality_may_use_the_cache_in_each_call(self):
        class Key:
            def __init__(self, name):
                self.name = name

            def __hash__(self):
                return 5

            def __eq__(self, other):
                if armed:
                    armed.pop()
                    cache.update({"x": 1})
                    cache.popitem()
                return self.name == other.name

        armed = []
        cache = Cache(entries=10, seeded=False, on_leave=lambda key, value, cause: (list(cache.items()), cache.peek(key), cache.setdefault("y", 1)))
        for _ in range(200):
            cache[Key("a")] = 1
            for call in (lambda: Key("a") in cache, lambda: cache.setdefault(Key("b"), 2), lambda: cache.get(Key("a")), cache.popitem, lambda: cache.pop(Key("a"), 1)):
                armed.append(1)
                call()
        self.holds_exactly(cache)

    def test_a_subclass_that_changes_one_call_changes_that_one_alone(self):
        class Mine(Cache):
            def get(self, key, default=None):
                return "mine"

            def __getitem__(self, key):
                return "an item"

            def __missing__(self, key):
                raise AssertionError

        cache = Mine(entries=10)
        cache["a"] = 1
        self.assertEqual((cache.get("a"), cache["a"], cache.look("a"), cache.pop("a"), cache.setdefault("b", 2), cache.get_or_load("b", never)),
                         ("mine", "an item", 1, 1, 2, 2))
        self.assertEqual((list(cache.items()), cache.popitem()), ([("b", 2)], ("b", 2)))

        class Counting(Cache):
            def put(self, key, value):
                super().put(key, value + 1)

        cache = Counting(entries=10)
        cache.update({"a": 1}, b=2)
        cache.put_many([("c", 3)])
        self.assertEqual(dict(cache.items()), {"a": 2, "b": 3, "c": 4})

    def test_update_takes_what_a_dict_takes(self):
        class Keyed:
            def keys(self):
                return iter("ab")

            def __getitem__(self, key):
                return key * 2

        cache = Cache(entries=10)
        cache.update()
        cache.update(Keyed(), self=1, values=2)
        cache.update([["c", 3]])
        self.assertEqual(dict(cache.items()), {"a": "aa", "b": "bb", "self": 1, "values": 2, "c": 3})
        for wrong in (lambda: cache.update(5), lambda: cache.update([1]), lambda: cache.update({}, {})):
            with self.assertRaises(TypeError):
                wrong()
        with self.assertRaises(ZeroDivisionError):
            cache.update((key, 1 // (2 - key)) for key in range(3))
        # Those before it are stored.
        self.assertEqual((cache[0], cache[1], len(cache)), (0, 1, 7))

    def test_threads_read_no_older_value_than_one_that_was_stored_before(self):
        cache, latest, wrong = Cache(entries=64), [0] * 32, []

        def work(seed):
            rng = random.Random(seed)
            for turn in range(4000):
                key, what = rng.randrange(32), rng.random()
                least = latest[key]
                if seed == 0:
                    # One thread alone writes.
                    cache.update({key: turn + 1})
                    latest[key] = turn + 1
                elif what < 0.3:
                    found = cache.get(key, least)
                    if found < least:
                        wrong.append(("get", key, found, least))
                elif what < 0.6:
                    found = cache.peek(key, least)
                    if found < least:
                        wrong.append(("peek", key, found, least))
                elif what < 0.9:
                    least = list(latest)
                    wrong.extend(("items", key, found) for key, found in cache.items() if found < least[key])
                elif what < 0.95:
                    cache.popitem() if cache else None
                else:
                    cache.pop(key, None)

        def safe(seed):
            try:
                work(seed)
            except KeyError as error:
                self.assertEqual(error.args, ("the cache is empty",))

        within_a_minute(lambda: together(4, safe))
        self.assertEqual(wrong, [])
        self.holds_exactly(cache)


if __name__ == "__main__":
    unittest.main()

#!/usr/bin/env python3
"""The rules of embed/python, with 4 threads."""
import random
import time
import unittest

from rookdresser import Cache, Refused
from threads import CacheTest, together


class Rules(CacheTest):
    def test_what_is_put_is_found(self):
        with Cache(entries=10) as cache:
            cache.put("a", 1)
            self.assertEqual(cache.look("a"), 1)
            self.assertIsNone(cache.look("b"))

    def test_a_key_is_loaded_once_for_64_threads(self):
        made = []
        with Cache(entries=10) as cache:
            def load(key):
                made.append(key)
                while cache.stats().joins < 63:
                    time.sleep(0.001)
                return key * 2

            got = []
            together(64, lambda i: got.append(cache.get_or_load(21, load)))
            self.assertEqual((made, got), ([21], [42] * 64))
            self.assertEqual(cache.numbers()["loads"], 1)

    def test_a_load_that_fails_fails_for_all_who_share_it_and_leaves_nothing(self):
        with Cache(entries=10) as cache:
            with self.assertRaises(KeyError):
                cache.get_or_load("a", lambda key: {}[key])
            self.assertEqual((len(cache), cache.numbers()["failed"], cache.numbers()["flights"]), (0, 1, 0))
            self.assertEqual(cache.get_or_load("a", lambda key: 1), 1)

    def test_an_entry_expires_and_its_leaving_is_told(self):
        now, left = [0], []
        with Cache(entries=10, after_write=100, clock=lambda: now[0], on_leave=lambda *of: left.append(of)) as cache:
            cache.put("a", 1)
            now[0] = 99
            self.assertEqual(cache.look("a"), 1)
            now[0] = 100
            self.assertIsNone(cache.look("a"))
        self.assertEqual(left, [("a", 1, "expired")])

    def test_a_due_entry_is_loaded_again_and_kept_where_that_fails(self):
        now = [0]
        with Cache(entries=10, refresh=10, clock=lambda: now[0]) as cache:
            self.assertEqual(cache.get_or_load("a", lambda key: 1), 1)
            now[0] = 10
            self.assertEqual(cache.get_or_load("a", lambda key: 1 // 0), 1)
            self.assertEqual(cache.get_or_load("a", lambda key: 2), 2)
            self.assertEqual(cache.get_or_load("a", lambda key: 3), 2)

    def test_a_value_heavier_than_the_bound_is_refused(self):
        with Cache(entries=10, bound=5, weigh=lambda key, value: value) as cache:
            with self.assertRaises(Refused) as caught:
                cache.put("a", 6)
            self.assertEqual(caught.exception.fault, 3)
            self.assertEqual(cache.get_or_load("a", lambda key: 6), 6)
            self.assertEqual(len(cache), 0)

    def test_a_drop_during_a_load_keeps_its_value_out(self):
        with Cache(entries=10) as cache:
            def load(key):
                cache.drop(key)
                return 1

            self.assertEqual(cache.get_or_load("a", load), 1)
            self.assertIsNone(cache.look("a"))

    def test_exactly_what_is_held_is_kept(self):
        with Cache(entries=100, bound=1500, weigh=lambda key, value: key % 20) as cache:
            def work(seed):
                r = random.Random(seed)
                for _ in range(5000):
                    key = min(r.randrange(300), r.randrange(300))
                    what = r.random()
                    if what < 0.8:
                        self.assertEqual(cache.get_or_load(key, lambda key: key + 1), key + 1)
                    elif what < 0.95:
                        cache.put(key, key + 1)
                    else:
                        cache.drop(key)

            together(4, work)
            numbers = cache.numbers()
            self.assertEqual(cache.kept(), (numbers["entries"],) * 2)
            self.assertEqual(numbers["flights"], 0)
            self.assertEqual(len({number for _, number, load in cache._uses()}), numbers["entries"])
            self.assertLessEqual(numbers["entries"], 100)
            self.assertLessEqual(numbers["weight"], 1500)

    def test_keys_are_of_any_kind_and_those_of_one_hash_are_told_apart(self):
        class Alike(str):
            def __hash__(self):
                return 5

        with Cache(entries=10) as cache:
            for i, key in enumerate((Alike("a"), Alike("b"), 5, "text", b"text", ("a", 1), 2 ** 70, -1)):
                cache.put(key, i)
            cache.drop(Alike("a"))
            cache.put(Alike("c"), 8)
            found = [cache.look(key) for key in (Alike("a"), Alike("b"), 5, "text", b"text", ("a", 1), 2 ** 70, -1, Alike("c"))]
        self.assertEqual(found, [None, 1, 2, 3, 4, 5, 6, 7, 8])

    def test_a_key_that_comes_often_is_let_in(self):
        with Cache(entries=16, window=1) as cache:
            for key in [str(i) for i in range(16)] * 3:
                cache.get_or_load(key, lambda key: key)
            for _ in range(8):
                cache.get_or_load("often", lambda key: key)
                cache.get_or_load("too", lambda key: key)
            self.assertEqual(cache.look("often"), "often")

    def test_a_closed_cache_refuses(self):
        cache = Cache(entries=10)
        cache.close()
        cache.close()
        with self.assertRaises(Refused) as caught:
            cache.look("a")
        self.assertEqual(caught.exception.fault, 100)


if __name__ == "__main__":
    unittest.main()
